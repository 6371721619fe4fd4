"""The worked examples that the scripts of this folder run, with what must be printed for each.

A row is a command with its files. The wanted lines follow from the rules of docs/formats.md: the
roots from simple-serialize.md and the proofs from merkle-proofs.md (consensus-specs v1.4.0), by
hashlib; nothing comes from the program.
"""
import os
import sys
from dataclasses import dataclass, field

TOP = os.path.join(os.path.dirname(os.path.abspath(__file__)), "..")
sys.path.append(os.path.join(TOP, "rows"))
from ssz import merkleize, number_chunk as chunk, sha as pair
SSZ = os.path.abspath(os.environ.get("SSZ") or os.path.join(TOP, "crates", "ssz_cli", "out", "ssz_cli"))
USAGE = ("usage: ssz root SCHEMA TYPE FILE | run SCHEMA SCRIPT"
         " | weave SCHEMA BASE ORDER SCRIPT.. | verify ROOT FILE | work SCHEMA TYPE SEED EDITS"
         " | part SCHEMA TYPE FILE PATH | partial SCHEMA TYPE PROOF SCRIPT | clash FILE FILE")


def hexed(data):
    return "0x" + data.hex()


def proof(leaves, nodes):
    """The text of a proof, of indices and chunks."""
    word = "%d=%s"
    words = [word % (index, hexed(data)) for index, data in leaves] + ["/"]
    return " ".join(["proof"] + words + [word % (index, hexed(data)) for index, data in nodes])


@dataclass
class Row:
    """A command, its files, and what it must end with: the status, the lines, the saved files. What
    is printed is settled before the unread files are looked at. By the place of its line, loads has
    the file that a statement reads, and saves the one that it writes."""
    name: str
    words: list
    files: dict
    status: int
    lines: list
    saved: dict = field(default_factory=dict)
    unread: tuple = ()
    loads: dict = field(default_factory=dict)
    saves: dict = field(default_factory=dict)

    def text(self):
        return "".join(line + "\n" for line in self.lines).encode()

    def events(self):
        """What is read, written and printed, in order."""
        for word in self.words:
            if word in self.files and word not in self.unread:
                yield "get", word, self.files[word]
        for place, line in enumerate(self.lines):
            if place in self.loads:
                yield "get", self.loads[place], {**self.files, **self.saved}[self.loads[place]]
            if place in self.saves:
                yield "put", self.saves[place], self.saved[self.saves[place]]
            yield "line", "", (line + "\n").encode()


def schema(*types, form=1):
    return ('{"ssz":%d,"types":[%s]}' % (form, ",".join(types))).encode()


P = '["P",{"container":[["a","uint64"],["b","uint64"]]}]'
M = '["M",{"container":[["a","uint16"],["b",{"list":["uint8",4]}]]}]'
U = '["U",{"union":[null,"uint64"]}]'
L8 = '["L8",{"list":["uint64",8]}]'
L1 = '["L1",{"list":["uint8",1]}]'
LONG = '["Long",{"list":["uint64",1099511627776]}]'
B512 = '["B512",{"bitlist":512}]'
N = '["N",{"container":[["b","uint64"],["a","uint8"],["c","uint64"]]}]'
TYPES = schema(P, M, U, L8, L1, LONG, B512, N)


def root_of_p(a, b):
    return pair(chunk(a), chunk(b))


def root_of_m(a, data):
    """Of a uint16 and a list of at most four bytes, one chunk with the length mixed in."""
    return pair(chunk(a), pair(data.ljust(32, b"\0"), chunk(len(data))))


def one_file(name, words, data, status, line, unread=()):
    return Row(name, words, {"s": TYPES, "v": data}, status, [line], unread=unread)


def root_rows():
    zeros = bytes(16)
    words = ["root", "s", "P", "v"]
    yield one_file("root", words, zeros, 0, "root " + hexed(root_of_p(0, 0)))
    yield one_file("root, short", words, zeros[:15], 1, "invalid F1 0")
    yield one_file("root, extra", words, zeros + b"\0", 1, "invalid F2 16")
    most = ["--max-bytes", "15"]
    yield one_file("root, too long", words + most, zeros, 1, "refused 0 12 TooLong")
    words = ["root", "s", "X", "v"]
    yield one_file("root, no type", words, zeros, 1, "refused 0 2 NoType", ("v",))
    data = bytes.fromhex("aabb060000000102")
    line = "root " + hexed(root_of_m(0xbbaa, b"\1\2"))
    yield one_file("root of a list", ["root", "s", "M", "v"], data, 0, line)
    data = bytes.fromhex("aabb070000000102")
    yield one_file("root, bad offset", ["root", "s", "M", "v"], data, 1, "invalid F4 2")
    line = "root " + hexed(pair(merkleize([chunk(5)], 38), chunk(1)))
    yield one_file("root, far limit", ["root", "s", "Long", "v"], chunk(5)[:8], 0, line)
    for name, text, line in [
        ("no JSON", b"{", "schema S1"),
        ("another format", b'{"ssz":3,"types":[]}', "schema S2"),
        ("an empty vector", schema('["T",{"vector":["uint8",0]}]'), "schema S6 0"),
        ("a field twice", schema(P, '["T",{"container":[["a","uint8"],["a","uint8"]]}]'),
         "schema S10 1"),
    ]:
        yield Row("schema, " + name, ["root", "s", "P", "v"], {"s": text}, 3, [line])
    yield Row("no command", [], {}, 2, [USAGE])


def verify_rows():
    def row(name, expected, text, status, line):
        return Row(name, ["verify", hexed(expected), "p"], {"p": text.encode()}, status, [line])
    root = root_of_p(1, 2)
    good = proof([(2, chunk(1))], [(3, chunk(2))])
    yield row("verify", root, good + "\n", 0, "valid")
    yield row("verify, no line feed", root, good, 0, "valid")
    yield row("verify, unlike", chunk(1), good, 1, "unlike " + hexed(root))
    yield row("verify, no node", root, good[:good.index("/") + 1], 1, "badproof")
    wide = proof([(4, chunk(1)), (6, chunk(3))], [(7, chunk(4)), (5, chunk(2))])
    root = pair(pair(chunk(1), chunk(2)), pair(chunk(3), chunk(4)))
    yield row("verify of two leaves", root, wide, 0, "valid")


# The lines of a script, each with its reply.
SHOWN = [
    ("new V M", "ok"),
    ("append V /b 0x01", "ok"),
    ("append V /b 0x02", "ok"),
    ("set V /a 0xaabb", "ok"),
    ("fork V W", "ok"),
    ("pop W /b", "ok"),
    ("bytes V /", "bytes 0xaabb060000000102"),
    ("bytes W /b", "bytes 0x01"),
    ("len V /b", "len 2"),
    ("set V /b/3 0x07", "refused 10 6 Absent"),
    ("root V", "root " + hexed(root_of_m(0xbbaa, b"\1\2"))),
    ("root W", "root " + hexed(root_of_m(0xbbaa, b"\1"))),
    ("hashes", "hashes 4"),
    ("gindex M /b/#len", "gindex 7"),
    ("json V /", 'json {"a":"48042","b":"0x0102"}'),
    ("prove V /a", proof([(2, chunk(0xbbaa))], [(3, pair(chunk(0x0201), chunk(2)))])),
    ("save V f", "ok"),
    ("load X M f", "ok"),
    ("new Y U", "ok"),
    ("choose Y / 1 0x0500000000000000", "ok"),
    ("bytes Y /", "bytes 0x010500000000000000"),
    ("drop W", "ok"),
    ("list", "list V X Y"),
]
FAILING = [
    ("new V P", "ok"),
    ("save V f", "ok"),
    ("root V", "root " + hexed(root_of_p(0, 0))),
    ("load W P g", "ok"),
    ("root W", "root " + hexed(root_of_p(1, 0))),
]
GROWN = [
    ("new V L8", "ok"),
    ("root V", "root " + hexed(pair(merkleize([], 1), chunk(0)))),
    *[("append V / 0x0100000000000000", "ok")] * 5,
    *[("pop V /", "ok")] * 5,
    ("root V", "root " + hexed(pair(merkleize([], 1), chunk(0)))),
]
FORKED = [
    ("new A P", "ok"),
    ("fork A B", "ok"),
    ("root A", "root " + hexed(root_of_p(0, 0))),
    ("set B /a 0x0100000000000000", "ok"),
    ("root A", "root " + hexed(root_of_p(0, 0))),
    ("root B", "root " + hexed(root_of_p(1, 0))),
    ("drop B", "ok"),
    ("root A", "root " + hexed(root_of_p(0, 0))),
    ("root B", "refused 9 3 NoVersion"),
]
REFUSED = [
    ("new V L1", "ok"),
    ("append V / 0x05", "ok"),
    ("append V / 0x06", "refused 3 8 Full"),
    ("pop V /", "ok"),
    ("pop V /", "refused 5 9 Empty"),
    ("set V /0 0x07", "refused 6 6 Absent"),
    ("set V /1 0x07", "refused 7 5 BadPath"),
    ("set V /#len 0x0000000000000000", "refused 8 7 NotThat"),
    ("new W U", "ok"),
    ("choose W / 0 0x00", "refused 10 11 BadLiteral F2 0"),
    ("choose W / 2", "refused 11 10 BadSelector"),
    ("choose W / 1 0x05", "refused 12 11 BadLiteral F1 0"),
    ("choose W / 1 0x0500000000000000", "ok"),
    ("root W", "root " + hexed(pair(chunk(5), chunk(1)))),
    ("new Q P", "ok"),
    ("prove Q 1 2", "refused 16 14 Nested"),
    ("prove Q 4 1", "refused 17 13 NoNode"),
    ("prove Q 3 2 2", proof([(2, chunk(0)), (3, chunk(0))], [])),
    ("gindex Long /5", "gindex 549755813889"),
    ("gindex B512 /300", "gindex 5"),
    ("gindex U /#0", "refused 21 5 BadPath"),
    ("new V L1", "refused 22 4 NameTaken"),
    ("new X X", "refused 23 2 NoType"),
    ("frob", "refused 24 1 Syntax"),
]
TEXTS = [
    ("loadjson V M g", "ok"),
    ("bytes V /", "bytes 0xaabb060000000102"),
    ("json V /b/#len", 'json "2"'),
    ("json V /b", 'json "0x0102"'),
    ("loadjson W M bad", "refused 5 18 BadJson J8 0"),
    ("lit W M 0xaabb060000000102", "ok"),
    ("lit X M 0xaabb070000000102", "refused 7 11 BadLiteral F4 2"),
    ("load X M bad", "refused 8 11 BadLiteral F4 2"),
    ("save W f", "ok"),
]


def named(both, what):
    """The last words of the statements that begin so, by their places."""
    return {place: line.split()[-1] for place, (line, _) in enumerate(both)
            if line.startswith(what)}


def script(name, both, status, saved=None, **files):
    text = "".join(line + "\n" for line, _ in both).encode()
    names = {"s": TYPES, "script": text, **files}
    return Row(name, ["run", "s", "script"], names, status, [reply for _, reply in both],
               saved or {}, loads=named(both, "load"), saves=named(both, "save"))


def run_rows():
    wanted = bytes.fromhex("aabb060000000102")
    yield script("run", SHOWN, 1, {"f": wanted})
    yield script("run, save and load", FAILING, 0, {"f": bytes(16)}, g=b"\1" + bytes(15))
    yield script("run, append and pop", GROWN, 0)
    yield script("run, forks", FORKED, 1)
    yield script("run, refusals", REFUSED, 1)
    yield script("run, JSON", TEXTS, 1, {"f": wanted}, g=b'{"a":"48042","b":"0x0102"}',
                 bad=b'{"b":"0x0102","a":"48042"}')
    upgraded = [
        ("lit V P 0x01000000000000000200000000000000", "ok"),
        ("upgrade V W N", "ok"),
        ("bytes W /", "bytes 0x0200000000000000" + 9 * "00"),
        ("root W", "root " + hexed(merkleize([chunk(2)], 2))),
        ("upgrade V X U", "refused 5 16 NotContainer"),
        ("upgrade V W N", "refused 6 4 NameTaken"),
        ("drop V", "ok"),
        ("compact", "ok"),
        ("root W", "root " + hexed(merkleize([chunk(2)], 2))),
    ]
    yield script("run, upgrade and compact", upgraded, 1)
    yield script("run, nothing", [], 0)


def weave_rows():
    files = {
        "s": TYPES, "base": b"new S P\n",
        "one": b"set S /a 0x0100000000000000\nroot S\n",
        "two": b"set S /b 0x0200000000000000\nhashes\n",
    }
    root, late = "0: root " + hexed(root_of_p(1, 0)), "1: refused 2 15 NotHere"
    for order, lines in [
        ("0011", ["base: ok", "0: ok", root, "1: ok", late]),
        ("0101", ["base: ok", "0: ok", "1: ok", root, late]),
    ]:
        yield Row("weave " + order, ["weave", "s", "base", order, "one", "two"], files, 1, lines)
    loading = {**files, "base": b"load S P v\n", "v": bytes(16), "two": b"load T P v\nroot T\n"}
    words = ["weave", "s", "base", "01", "one", "two"]
    lines = ["base: ok", "0: ok", "1: ok", root, "1: root " + hexed(root_of_p(0, 0))]
    yield Row("weave, loads", words, loading, 0, lines, loads={0: "v", 2: "v"})
    files = {**files, "base": b"frob\n"}
    lines = ["base: refused 1 1 Syntax", "0: refused 1 3 NoVersion", "0: refused 2 3 NoVersion"]
    yield Row("weave, bad base", ["weave", "s", "base", "0", "one"], files, 1, lines)
    words = ["weave", "s", "base", "0"] + ["one"] * 11
    yield Row("weave of eleven", words, files, 2, [USAGE], unread=("s", "base", "one"))


def work_rows():
    """The lines are those of rows/program/works.py, whose machine knows whole values alone."""
    from program import works as drawn
    files = {"s": drawn.TYPES.encode()}
    for name, edits in ("Q", 0), ("Deep", 12), ("L8", 30):
        status, lines = drawn.work("sha", name, 7, edits)
        yield Row("work on " + name, ["work", "s", name, "7", str(edits)], files, status, lines)
    yield Row("work, no type", ["work", "s", "X", "7", "1"], files, 1, ["refused 0 2 NoType"])
    words = ["work", "s", "Q", "7", "1000001"]
    yield Row("work, too many", words, files, 2, [USAGE], unread=("s",))


def part_rows():
    for path, status, line, unread in [
        ("/b", 0, "bytes 0x0102", ()),
        ("/b/1", 0, "bytes 0x02", ()),
        ("/b/#len", 0, "bytes 0x0200000000000000", ()),
        ("/b/2", 1, "refused 0 6 Absent", ()),
        ("/b/4", 1, "refused 0 5 BadPath", ("v",)),
    ]:
        data = bytes.fromhex("aabb060000000102")
        words = ["part", "s", "M", "v", path]
        yield one_file("part " + path, words, data, status, line, unread)


def partial_rows():
    known = proof([(2, chunk(1)), (3, chunk(2))], []).encode()
    both = [
        ("root", "root " + hexed(root_of_p(1, 2))),
        ("set /a 0x0500000000000000", "ok"),
        ("get /a", "bytes 0x0500000000000000"),
        ("root", "root " + hexed(root_of_p(5, 2))),
        ("get /", "refused 5 7 NotThat"),
        ("set /a 0x05", "refused 6 11 BadLiteral F1 0"),
    ]
    text = "".join(line + "\n" for line, _ in both).encode()
    files = {"s": TYPES, "p": known, "script": text}
    words = ["partial", "s", "P", "p", "script"]
    yield Row("partial", words, files, 1, [reply for _, reply in both])
    files = {"s": TYPES, "p": known, "script": b"get /b/0\n"}
    words = ["partial", "s", "M", "p", "script"]
    yield Row("partial, blind", words, files, 1, ["refused 1 17 Blind 7"])
    words = ["partial", "s", "P", "p", "script"]
    files = {"s": TYPES, "p": b"proof /\n", "script": b"root\n"}
    yield Row("partial, no proof", words, files, 1, ["badproof"], unread=("script",))


def clash_rows():
    def row(name, first, second, status, line, unread=()):
        files = {"p": first.encode(), "q": second.encode()}
        return Row(name, ["clash", "p", "q"], files, status, [line], unread=unread)
    one = proof([(2, chunk(1))], [(3, chunk(2))])
    other = proof([(2, chunk(1))], [(3, chunk(3))])
    swapped = proof([(3, chunk(2))], [(2, chunk(1))])
    roots = "otherroot %s %s" % (hexed(root_of_p(1, 2)), hexed(root_of_p(1, 3)))
    yield row("clash, same", one, one, 0, "same")
    yield row("clash, other roots", one, other, 1, roots)
    yield row("clash, other indices", one, swapped, 1, "otherindices")
    yield row("clash, first is none", "proof", one, 1, "badproof 1", ("q",))
    yield row("clash, second is none", one, "proof", 1, "badproof 2")


def rows():
    groups = (root_rows, verify_rows, run_rows, weave_rows, work_rows, part_rows, partial_rows,
              clash_rows)
    for group in groups:
        yield from group()
