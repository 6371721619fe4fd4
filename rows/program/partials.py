"""Scripts of `partial`: worked examples, files that are not as they have to be, and drawn scripts.

A machine of scripts over the chunks that a proof knows, from docs/formats.md, simple-serialize.md
and merkle-proofs.md: generalized indices, the nodes that a part needs, first faults of literals.
Where the chunks are those of a value, each accepted `set` is also done to the whole value, and each
printed root is compared with the edited value's, and each printed part with its encoding.
"""
import re

import ssz
from program.machine import is_literal, is_path
from program.runs import LONG, Run, Shared, example
from ssz import BOOLEAN, HASHES, path_of

CODES = {1: "Syntax", 5: "BadPath", 6: "Absent", 7: "NotThat", 11: "BadLiteral", 17: "Blind"}
SCHEMA = """{"ssz":2,"types":[
["Q", {"container": [["a", "uint8"], ["b", "uint8"]]}],
["M", {"container": [["a", "uint16"], ["b", {"list": ["uint8", 4]}]]}],
["P", {"container": [["a", "uint64"], ["b", "uint64"]]}],
["Bytes", {"list": ["uint8", 200]}],
["Pick", {"union": [null, "uint256", {"list": ["uint16", 40]}]}],
["Longs", {"list": ["uint64", 4611686018427387904]}],
["Bits", {"bitlist": 4611686018427387904}],
["State", {"container": [["slot", "uint64"], ["live", "boolean"], \
["scores", {"list": ["uint64", 64]}], ["marks", {"bitlist": 600}], ["fixed", {"bitvector": 300}], \
["kids", {"list": [{"container": [["x", "boolean"], ["y", "uint32"]]}, 8]}], \
["pair", {"vector": ["uint128", 3]}], \
["pick", {"union": [null, "uint256", {"list": ["uint16", 40]}]}], ["wide", "uint256"]]}]]}
"""
NAMES = ["Q", "M", "P", "Bytes", "Pick", "Longs", "Bits", "State"]
TYPES = {"partial.json": ssz.types_of(SCHEMA), "deneb.json": ssz.types_of(example("deneb.json"))}


class Refused(Exception):
    def __init__(self, code, *more):
        Exception.__init__(self)
        self.code, self.more = code, more


def statement(words):
    """What the words say; None where they say nothing of the grammar."""
    if words == ["root"]:
        return ("root",)
    if len(words) == 2 and words[0] == "get" and is_path(words[1]):
        return ("get", words[1])
    if len(words) == 3 and words[0] == "set" and is_path(words[1]) and is_literal(words[2]):
        return ("set", words[1], bytes.fromhex(words[2][2:]))
    return None


def statements(script):
    """Each line that says something, with its number."""
    lines = script.split("\n")
    for number, line in enumerate(lines, 1):
        if number < len(lines) and line.endswith("\r"):
            line = line[:-1]
        words = [word for word in re.split("[ \t]", line) if word]
        if words and not words[0].startswith("#"):
            yield number, statement(words)


class Partial:
    """The chunks that are known, and the value whose they are, or None."""

    def __init__(self, hasher, t, known, value=None):
        self.pair, self.type, self.known, self.value = HASHES[hasher], t, dict(known), value

    def need(self, g):
        if g not in self.known:
            raise Refused(17, str(g))
        return self.known[g]

    def numbered(self, g):
        return int.from_bytes(self.need(g), "little")

    def found(self, steps, sets):
        """The type of the part, the index of its node, the byte where it begins, and its bit."""
        t = ssz.path_type(self.type, steps)
        if t is None:
            raise Refused(5)
        if not ssz.is_basic(t) or sets and steps and steps[-1] in (ssz.LEN, ssz.SEL):
            raise Refused(7)
        t, k, at, bit = self.type, 1, 0, None
        for s in steps:
            if t[0] in ("list", "bitlist") and isinstance(s, int) and self.numbered(2 * k + 1) <= s:
                raise Refused(6)
            if isinstance(s, tuple) and self.numbered(2 * k + 1) != s[1]:
                raise Refused(6)
            k, (at, bit) = ssz.step_index(k, t, s), ssz.spot(t, s)
            t = ssz.step_type(t, s)
        self.need(k)
        return t, k, at, bit

    def get(self, word):
        t, k, at, bit = self.found(path_of(word), False)
        part = self.known[k][at:at + ssz.fixed_size(t)]
        if bit is not None:
            part = bytes([part[0] >> bit & 1])
        if self.value is not None:
            if part != ssz.encode(*ssz.part_at(self.type, self.value, path_of(word))):
                raise AssertionError("%s: the chunk has not what the value has" % word)
        return "bytes 0x" + part.hex()

    def set(self, word, literal):
        t, k, at, bit = self.found(path_of(word), True)
        size = ssz.fixed_size(t)
        if len(literal) < size:
            raise Refused(11, "F1", "0")
        if len(literal) > size:
            raise Refused(11, "F2", str(size))
        if t == BOOLEAN and literal[0] > 1:
            raise Refused(11, "F3", "0")
        chunk = bytearray(self.known[k])
        if bit is None:
            chunk[at:at + size] = literal
        else:
            chunk[at] = chunk[at] & ~(1 << bit) | literal[0] << bit
        self.known[k] = bytes(chunk)
        if self.value is not None:
            self.value = ssz.edited(self.type, self.value, path_of(word), ssz.set_to(ssz.decode(t, literal)))
        return "ok"

    def root(self):
        calculated = ssz.calculated(self.known, pair=self.pair)
        if self.value is not None:
            if calculated != ssz.hash_tree_root(self.type, self.value, self.pair):
                raise AssertionError("the root is not the value's")
        return "root 0x" + calculated.hex()

    def play(self, script):
        """The status and the text."""
        out, status = [], 0
        for number, said in statements(script):
            try:
                if said is None:
                    raise Refused(1)
                out.append(getattr(self, said[0])(*said[1:]))
            except Refused as refused:
                status = 1
                words = ["refused", str(number), str(refused.code), CODES[refused.code]]
                out.append(" ".join(words + list(refused.more)))
        return status, "".join(line + "\n" for line in out)


# Runs

def of_files(hasher, name, proof, script, status, taken, schema="partial.json"):
    """The run over a proof and a script, None of a file that is not there."""
    files = {"schema": Shared(schema), "proof": proof, "script": script}
    files = {file: content for file, content in files.items() if content is not None}
    return Run(hasher, ["partial", "schema", name, "proof", "script"], files, status, taken)


def played(hasher, name, leaves, nodes, script, value=None, schema="partial.json"):
    known = {**leaves, **nodes}

    def entries(indices):
        return "".join(" %d=0x%s" % (g, known[g].hex()) for g in indices)
    proof = "proof%s /%s" % (entries(leaves), entries(nodes))
    status, taken = Partial(hasher, TYPES[schema][name], known, value).play(script)
    return of_files(hasher, name, proof, script, status, taken, schema)


def of_value(hasher, name, value, indices, script, schema="partial.json"):
    """The script over the proof of these indices, of the value's tree."""
    whole = ssz.tree(TYPES[schema][name], value)

    def at(g):
        return ssz.root(ssz.at(whole, g), HASHES[hasher])
    leaves, nodes = {g: at(g) for g in indices}, {g: at(g) for g in ssz.helper_indices(indices)}
    return played(hasher, name, leaves, nodes, script, value, schema)


def of_chunks(hasher, name, leaves, script, node=b"\2"):
    """The script over these chunks, and one at all helper indices."""
    padded = {g: chunk.ljust(32, b"\0") for g, chunk in leaves.items()}
    nodes = {g: node.ljust(32, b"\0") for g in ssz.helper_indices(leaves)}
    return played(hasher, name, padded, nodes, script)


# Worked examples

def examples():
    yield of_chunks("xor", "Q", {2: b"\1"}, "get /a\nset /a 0x05\nroot\nget /b\nget /\n")
    yield of_chunks("xor", "M", {2: b"\1"}, "get /b/0\n")
    yield of_chunks("xor", "P", {2: b"\1"}, "set /a 0x05\n")
    # nothing, and lines that say nothing
    yield of_value("sha", "Q", [1, 2], [2], "")
    yield of_value("sha", "Q", [1, 2], [2], "\n# set /a 0x07\n \t \n#\n")
    yield of_value("sha", "Q", [1, 2], [2], "  get\t/a \n\n# note\n\r\nget /b\r\nroot")
    yield of_value("sha", "Q", [1, 2], [2], "get /a\nroot\r")
    # what is no statement, and what follows it
    yield of_value("sha", "Q", [1, 2], [2], "frob\nroot\n\nget\nget /a /b\nget a\nget /a/\n"
                   "set /a\nset /a 0x0\nset /a 05\nset /a 0x0g\nroot now\nset /a 0x05 0x06\n"
                   "GET /a\nlist\nget /01\nget /18446744073709551616\nget /#256\nget /a\nroot\n")
    # the leaf is an ancestor of what is asked, so that nothing below it is known
    yield of_value("sha", "P", [4, 5], [1], "get /a\nset /b 0x\nget /c\nget /\nroot\n")
    # two sets in one chunk, each of which leaves the other's bytes
    yield of_value("sha", "Bytes", list(range(1, 71)), [16, 18, 3],
                   "set /1 0xaa\nset /30 0xBB\nget /0\nget /1\nget /2\nget /30\nroot\n"
                   "set /69 0x01\nset /70 0x01\nset /32 0x01\n"
                   "set /#len 0x0000000000000000\nget /#len\nroot\n")
    # a length that is not known, and a selector, before all that is wrong behind it
    yield of_value("sha", "Bytes", [1, 2, 3], [1],
                   "get /0\nset /0 0x\nset /3 0x01\nset /200 0x01\n")
    yield of_value("sha", "Pick", (2, [5, 6]), [1], "get /#2/1\nget /#1\nset /#1 0x00\nget /#sel\n")
    # a length that is known and not above the index, though the chunk is not known
    yield of_value("sha", "Bytes", [1, 2, 3], [3], "get /0\nget /3\nget /2\nget /32\nset /3 0x\n")
    # another selector than the known one
    yield of_value("sha", "Pick", (1, 77), [2], "get /#1\nget /#2/0\nset /#2/0 0x0000\nget /#0\n"
                   "set /#1 0x01\nset /#sel 0x01\nget /#sel\nroot\n")
    # literals that encode nothing, each after what else is refused
    yield of_value("sha", "State", state(), [17, 19 * 8, 19 * 2 + 1],
                   "set /live 0x\nset /live 0x0000\nset /live 0x02\nset /live 0x00\n"
                   "set /marks/0 0x02\nset /marks/0 0x\nset /marks/1 0x01\nset /marks/300 0x02\n"
                   "set /slot 0x\nset /scores 0x\nget /live\nget /marks/0\nget /marks/1\nroot\n")
    # chunks of no value: a length above 2^64, a selector above 255, a boolean's byte
    yield of_chunks("sha", "Bytes", {16: bytes(range(32)), 3: bytes(16) + b"\1"},
                    "get /0\nget /31\nget /#len\nset /5 0xff\nget /5\nroot\nget /199\n")
    yield of_chunks("xor", "Pick", {2: b"\7", 3: b"\1\1"}, "get /#1\nget /#sel\nroot\n")
    yield of_chunks("xor", "State", {17: b"\2\3"}, "get /live\nset /live 0x01\nget /live\nroot\n")


def state():
    return [7, True, [2 ** 60 + i for i in range(9)], [int(i % 3 == 0) for i in range(300)],
            [int(i % 7 == 0) for i in range(300)], [[True, 5], [False, 6]], [2 ** 100, 3, 4],
            (2, [9] * 17), 2 ** 255 + 1]


# Files that are not as they have to be, in the order in which they are read

def entry(index, byte):
    return " %d=0x%s" % (index, bytes([byte]).ljust(32, b"\0").hex())


def files():
    whole = "proof%s /%s" % (entry(2, 1), entry(3, 2))
    yield of_files("xor", "Nothing", None, None, 1, "refused 0 2 NoType\n")
    yield of_files("xor", "Q", None, None, 4, "")
    yield of_files("xor", "Q", "proof", None, 1, "badproof\n")
    yield of_files("xor", "Q", "proof%s /" % entry(2, 1), None, 1, "badproof\n")
    yield of_files("xor", "Q", LONG, None, 1, "badproof\n")
    yield of_files("xor", "Q", whole, None, 4, "")
    yield of_files("xor", "Q", whole, LONG, 1, "refused 0 12 TooLong\n")
    # any order of the leaves, and the number of a built-in type
    turned = "proof%s%s /" % (entry(3, 2), entry(2, 1))
    yield of_files("xor", "Q", turned, "get /b\nset /b 0x09\nget /a\nget /b\n", 0,
                   "bytes 0x02\nok\nbytes 0x01\nbytes 0x09\n")
    yield of_files("xor", "uint16", "proof%s /" % entry(1, 7), "get /\nset / 0x0102\nget /\nroot\n",
                   0, "bytes 0x0700\nok\nbytes 0x0102\nroot 0x0102" + "00" * 30 + "\n")
    yield of_files("xor", "uint8", "proof%s /" % entry(1, 7),
                   "get /\n\nset / 0x05\nget /\nset / 0x\n", 1,
                   "bytes 0x07\nok\nbytes 0x05\nrefused 5 11 BadLiteral F1 0\n")
