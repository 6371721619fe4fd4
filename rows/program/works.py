"""Edits of `work`: worked examples, and many edits of types of every form, from many numbers.

The generator and the walk are those of docs/formats.md; each edit is then a statement of the
machine of machine.py. As no root changes a value, the last one alone is taken.
"""
from program import drawn
from program.machine import Machine, Refused
from program.runs import USAGE, Run, Shared, lines_of
from ssz import HASHES, NAME, default, encode

MORE = """["Z0",{"list":["uint64",0]}],["N0",{"bitlist":0}],["N1",{"bitlist":1}],
["Some",{"union":["uint16",{"bitlist":9},{"list":["uint8",3]}]}],\
["Two",{"union":[null,{"union":[null,"Q"]}]}],
["Q3",{"vector":["Q",3]}],["Flags",{"vector":["boolean",70]}],["Bits",{"bitvector":600}],
["LB",{"list":["boolean",40]}],["LV",{"list":[{"vector":["uint16",5]},6]}],
["Deep",{"list":[{"container":[["bits",{"bitlist":5}],\
["tail",{"list":[{"union":[null,"Q"]},2]}]]},4]}],
["Far",{"list":["M",1099511627776]}]
"""
TYPES = drawn.SCHEMA.replace("\n]}\n", ",\n" + MORE + "]}\n", 1)
NAMES = [
    "boolean", "uint8", "byte", "uint16", "uint32", "uint64", "uint128", "uint256", "P", "Q", "O",
    "M", "U", "L", "L8", "Long", "B512", "V4", "BL", "BV", "U2", "B3", "LP", "LU", "LL", "W",
    "Wide", "Z0", "N0", "N1", "Some", "Two", "Q3", "Flags", "Bits", "LB", "LV", "Deep", "K", "Far",
]


class Generator:
    def __init__(self, seed):
        self.x = seed

    def draw(self, k):
        self.x = (self.x * 6364136223846793005 + 1442695040888963407) % 2**64
        return self.x // 2**33 % k

    def below(self, n):
        return self.draw(min(n, 2**31))

    def bytes(self, count):
        return bytes(self.draw(256) for _ in range(count))

    def bit(self):
        return bytes([self.draw(2)])


def statement(name, path, *words):
    return " ".join([name, "w", "/" + "/".join(path), *words])


def literal(data):
    return "0x" + data.hex()


def walk(g, t, v, path):
    """The statement that the walk from the part comes to, or None."""
    kind = t[0]
    if kind == "uint":
        return statement("set", path, literal(g.bytes(t[1] // 8)))
    if kind == "boolean":
        return statement("set", path, literal(g.bit()))
    if kind == "container":
        i = g.draw(len(t[1]))
        return walk(g, t[1][i][1], v[i], path + [t[1][i][0]])
    if kind == "vector":
        i = g.below(t[2])
        return walk(g, t[1], v[i], path + [str(i)])
    if kind == "bitvector":
        i = g.below(t[1])
        return statement("set", path + [str(i)], literal(g.bit()))
    if kind == "union":
        if g.draw(2) == 1 and t[1][v[0]] is not None:
            return walk(g, t[1][v[0]], v[1], path + ["#%d" % v[0]])
        return statement("choose", path, str(g.draw(len(t[1]))))
    return walk_list(g, t, v, path)


def walk_list(g, t, v, path):
    n, limit = len(v), t[-1]
    a = g.draw(4)
    if a == 3 and n > 0:
        i = g.below(n)
        if t[0] == "list":
            return walk(g, t[1], v[i], path + [str(i)])
        return statement("set", path + [str(i)], literal(g.bit()))
    if (a == 2 and n > 0) or (n == limit and n > 0):
        return statement("pop", path)
    if n == limit:
        return None
    new = encode(t[1], default(t[1])) if t[0] == "list" else g.bit()
    return statement("append", path, literal(new))


def work(hasher, name, seed, edits):
    """The status and the lines."""
    if seed >= 2**64 or edits > 1000000:
        return 2, [USAGE]
    if not NAME.match(name):
        return 1, ["refused 0 2 NoType"]
    machine = Machine(TYPES, HASHES[hasher])
    try:
        machine.statement("new w " + name)
    except Refused:
        return 1, ["refused 0 2 NoType"]
    g, done = Generator(seed), 0
    for _ in range(edits):
        edit = walk(g, *machine.versions["w"], [])
        if edit is not None:
            # none of them is refused
            assert machine.statement(edit) == "ok"
            done += 1
    return 0, ["work %d %d" % (edits, done), machine.statement("root w")]


def works():
    yield "xor", "Q", 0, 1
    yield "xor", "Q", 0, 0
    yield "sha", "Z0", 7, 5
    yield "sha", "P", 1, 100000
    yield "sha", "P", 1, 100000
    # words that are not taken
    yield "sha", "P", 2**64, 1
    yield "sha", "P", 2**64 - 1, 1000001
    # no type, and no name of one
    for name in "None", "p", "", "P ", "7", "-":
        yield "sha", name, 0, 1
    for i, name in enumerate(NAMES):
        many = 200 if name in ("Wide", "Far") else 400
        for seed, edits in (0, 0), (i, 1), (2**64 - 1 - i, 2), (1000 + i, 40), (2000 + 7 * i, many):
            yield "xor" if i % 3 == 2 else "sha", name, seed, edits


def run_of(hasher, name, seed, edits):
    status, lines = work(hasher, name, seed, edits)
    words = ["work", "schema", name, str(seed), str(edits)]
    return Run(hasher, words, {"schema": Shared("work.json")}, status, lines_of(lines))


def runs():
    return (run_of(*row) for row in works())
