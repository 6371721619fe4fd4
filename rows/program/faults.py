"""Each command once with no failing call, and then once for each of its calls of the files and of
the sink, which fails.

What a command says is known from the machines of the other modules; which calls come in which order
is written down here for each command. A call that fails in memory leaves half of the bytes that it
was handed.
"""
from program.clashes import chunk, clash_line, text
from program.partials import of_value
from program.runs import Run, Shared
from ssz import xor
from program.weaves import weave
from program.works import work

P = '{"ssz":1,"types":[["P",{"container":[["a","uint64"],["b","uint64"]]}]]}\n'


class Calls:
    """A command with its files, and the calls that it makes: `get` of a name, `put` of a name and
    bytes, `say` of a line."""

    def __init__(self, hasher, words, files, calls, status):
        self.hasher, self.words, self.files, self.status = hasher, words.split(), files, status
        self.calls = calls

    def run(self, fails, puts):
        """The run where these calls fail."""
        held, taken, asked, said, status = {}, b"", 0, 0, self.status
        for kind, *what in self.calls:
            if kind == "say":
                said += 1
                piece = what[0].encode() + b"\n"
                if said == puts:
                    taken, status = taken + piece[:len(piece) // 2], 5
                    break
                taken += piece
                continue
            asked += 1
            if kind == "get" and (asked == fails or not {what[0]} & (self.files.keys() | held)):
                status = 4
                break
            if kind == "put":
                name, content = what
                if asked == fails:
                    held[name], status = content[:len(content) // 2], 5
                    break
                held[name] = content
        saved = {"f": held.get("f")}
        return Run(self.hasher, self.words, self.files, status, taken.decode(), saved,
                   (fails, puts))

    def runs(self):
        """Nothing fails, then each call in turn, and one behind the last."""
        asked = sum(kind != "say" for kind, *_ in self.calls)
        yield self.run(0, 0)
        yield from (self.run(at, 0) for at in range(1, asked + 2))
        yield from (self.run(0, at) for at in range(1, len(self.calls) - asked + 2))


def one_line(words, files, reads, line, status, hasher="xor"):
    calls = [("get", name) for name in reads] + [("say", line)]
    return Calls(hasher, words, files, calls, status)


def hexed(first, last=0):
    return "0x" + chunk(first, last).hex()


def number(n, m):
    """The encoding of a P."""
    return n.to_bytes(8, "little") + m.to_bytes(8, "little")


def of_script():
    """A script that saves and loads."""
    script = "new V P\nsave V f\nroot V\nload W P g\nroot W\n"
    calls = [("get", "schema"), ("get", "script"), ("say", "ok"), ("put", "f", bytes(16)),
             ("say", "ok"), ("say", "root " + hexed(0)), ("get", "g"), ("say", "ok"),
             ("say", "root " + hexed(0, 1))]
    files = {"schema": P, "script": script, "g": number(1, 0)}
    return Calls("xor", "run schema script", files, calls, 0)


def of_texts():
    """A script that reads what it saved, as an encoding and as JSON."""
    script = ("lit V P 0x01000000000000000200000000000000\nsave V f\nload W P f\n"
              "set W /a 0x0300000000000000\nsave W f\nload V P f\nloadjson T P t\nload U P none\n"
              "list\n")
    calls = [("get", "schema"), ("get", "script"), ("say", "ok"), ("put", "f", number(1, 2)),
             ("say", "ok"), ("get", "f"), ("say", "ok"), ("say", "ok"), ("put", "f", number(3, 2)),
             ("say", "ok"), ("say", "refused 6 4 NameTaken"), ("get", "t"), ("say", "ok"),
             ("get", "none")]
    files = {"schema": P, "script": script, "t": b'{"a":"1","b":"5"}'}
    return Calls("sha", "run schema script", files, calls, 1)


def of_weave():
    base = "load S P g\nroot S\n"
    scripts = ["set S /a 0x0500000000000000\nroot S\n", "bytes S /\nload T P g\nroot T\nfrob\n"]
    status, lines = weave("sha", base, "0110", scripts, {"g": number(7, 0)}, P)
    # the base's load, and that of the second writer, each before its reply
    loads = {0, lines.index("1: ok")}
    calls = [("get", name) for name in ("schema", "base", "w0", "w1")]
    for i, line in enumerate(lines):
        calls += [("get", "g")] * (i in loads) + [("say", line)]
    files = {"schema": P, "base": base, "w0": scripts[0], "w1": scripts[1], "g": number(7, 0)}
    return Calls("sha", "weave schema base 0110 w0 w1", files, calls, status)


def of_partial():
    script = "get /a\nset /a 0x05\nroot\nfrob\nget /b\n"
    run = of_value("sha", "Q", [1, 2], [2], script)
    files = {**run.files, "proof": run.files["proof"] + "\n"}
    calls = [("get", name) for name in files] + [("say", line) for line in run.taken.splitlines()]
    return Calls("sha", "partial schema Q proof script", files, calls, run.status)


def of_clash():
    two, other = [text([(2, chunk(1))], [(3, chunk(n))]) for n in (2, 3)]
    files = {"one": two + "\n", "other": other + "\n"}
    status, line = clash_line(xor, two, other)
    yield one_line("clash one other", files, ["one", "other"], line, status)
    status, line = clash_line(xor, two, two)
    yield one_line("clash one one", files, ["one", "one"], line, status)


def of_work():
    files = {"schema": Shared("work.json")}
    status, lines = work("sha", "Deep", 7, 60)
    calls = [("get", "schema")] + [("say", line) for line in lines]
    yield Calls("sha", "work schema Deep 7 60", files, calls, status)
    yield one_line("work schema None 7 60", files, ["schema"], "refused 0 2 NoType", 1)


def of_absent():
    """Files that are not there, behind others that are."""
    files = {"schema": P, "base": "new S P\n", "w": "root S\n"}
    for words, reads in (("run schema none", ["schema", "none"]), ("run none base", ["none"]),
                         ("weave schema base 01 w none", ["schema", "base", "w", "none"]),
                         ("weave schema none 01 w w", ["schema", "none"])):
        yield Calls("xor", words, files, [("get", name) for name in reads], 0)


def commands():
    both = {"schema": P, "v": number(1, 2)}
    root = "root 0x" + xor(chunk(1), chunk(2)).hex()
    yield one_line("root schema P v", both, ["schema", "v"], root, 0)
    yield one_line("root schema P v --max-bytes=15", both, ["schema", "v"],
                   "refused 0 12 TooLong", 1)
    yield one_line("root schema Nope v", both, ["schema"], "refused 0 2 NoType", 1)
    yield one_line("part schema P v /b", both, ["schema", "v"], "bytes 0x0200000000000000", 0)
    yield one_line("part schema P v /c", both, ["schema"], "refused 0 5 BadPath", 1)
    proof = text([(2, chunk(1))], [(3, chunk(2))])
    verified = "verify 0x%s p" % xor(chunk(1), chunk(2)).hex()
    yield one_line(verified, {"p": proof + "\n"}, ["p"], "valid", 0)
    yield of_script()
    yield of_texts()
    yield of_weave()
    yield of_partial()
    yield from of_clash()
    yield from of_work()
    yield from of_absent()


def runs():
    for command in commands():
        yield from command.runs()
