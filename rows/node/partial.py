"""Trees of which a proof knows some nodes: rows of a proof, and of calls on its tree.

A root after an edit is that of the edited value, made anew from the value.
"""
import json

from ssz import (
    BOOLEAN, LEN, SEL, Refused, at, bitlist, bitvector, calculated, chunk, container, edited,
    encode, fixed_size, form_of, hash_tree_root, helper_indices, is_basic, le, list_of, number_chunk, part_at,
    path_of, path_type, root, set_to, spot, step_index, step_type, tree, uint, union, vector)

MOST = 2 ** 62

PICK = union(None, uint(256), list_of(uint(16), 40))
STATE = container(
    slot=uint(64), live=BOOLEAN, scores=list_of(uint(64), 64), marks=bitlist(600), fixed=bitvector(300),
    kids=list_of(container(x=BOOLEAN, y=uint(32)), 8), pair=vector(uint(128), 3), pick=PICK, wide=uint(256))
TYPES = {
    "Q": container(a=uint(8), b=uint(8)),
    "M": container(a=uint(16), b=list_of(uint(8), 4)),
    "P": container(a=uint(64), b=uint(64)),
    "Bytes": list_of(uint(8), 200),
    "Pick": PICK,
    "Longs": list_of(uint(64), MOST),
    "Bits": bitlist(MOST),
    "State": STATE,
}


class Block:
    """A value or none, and the chunks of a proof of its tree, or any chunks."""

    def __init__(self, name, value, leaves):
        self.type, self.value, self.name = TYPES[name], value, name
        whole = tree(self.type, value)
        self.begin({g: root(at(whole, g)) for g in leaves},
                   {g: root(at(whole, g)) for g in helper_indices(leaves)})

    @classmethod
    def of_chunks(cls, name, leaves):
        """Chunks of no value; the helpers have the bytes of their index."""
        block = cls.__new__(cls)
        block.type, block.value, block.name = TYPES[name], None, name
        block.begin({g: chunk(said) for g, said in leaves.items()},
                    {g: number_chunk(g) for g in helper_indices(leaves)})
        return block

    def begin(self, leaves, nodes):
        self.known = {**leaves, **nodes}
        proof = "proof%s /%s" % (self.entries(sorted(leaves)), self.entries(nodes))
        self.rows, self.wanted = [self.name, proof], [self.name]

    def entries(self, indices):
        return "".join(" %d=0x%s" % (g, self.known[g].hex()) for g in indices)

    def row(self, row, answer):
        self.rows.append(row)
        self.wanted.append("%s: %s" % (row, answer))

    def need(self, g):
        if g not in self.known:
            raise Refused("Blind(Gindex { number: %d })" % g)
        return self.known[g]

    def found(self, path, sets):
        """The type of the part, the index of its node, and where in the chunk it lies."""
        steps = path_of(path)
        part = path_type(self.type, steps)
        if part is None:
            raise Refused("BadPath")
        if not is_basic(part) or sets and steps and steps[-1] in (LEN, SEL):
            raise Refused("NotThat")
        t, k, place, bit = self.type, 1, 0, None
        for step in steps:
            if isinstance(step, int) and t[0] in ("list", "bitlist"):
                if int.from_bytes(self.need(2 * k + 1), "little") <= step:
                    raise Refused("Absent")
            if isinstance(step, tuple) and int.from_bytes(self.need(2 * k + 1), "little") != step[1]:
                raise Refused("Absent")
            k, (place, bit) = step_index(k, t, step), spot(t, step)
            t = step_type(t, step)
        self.need(k)
        return t, k, place, bit

    def get(self, *paths):
        for path in paths:
            try:
                t, k, place, bit = self.found(path, False)
                part = self.known[k][place:place + fixed_size(t)]
                if bit is not None:
                    part = bytes([part[0] >> bit & 1])
                if self.value is not None and part != encode(*part_at(self.type, self.value, path_of(path))):
                    raise AssertionError("%s: the chunk has not what the value has" % path)
                answer = "len %d, chunk 0x%s" % (len(part), chunk(part).hex())
            except Refused as fault:
                answer = str(fault)
            self.row("get " + path, answer)

    def set(self, path, new, new_type=uint(8)):
        steps = path_of(path)
        t = path_type(self.type, steps)
        literal = le(int(new), fixed_size(t if t is not None and is_basic(t) else new_type))
        try:
            t, k, place, bit = self.found(path, True)
            octets = bytearray(self.known[k])
            if bit is None:
                octets[place:place + fixed_size(t)] = literal
            else:
                octets[place] = octets[place] & ~(1 << bit) | int(new) << bit
            self.known[k] = bytes(octets)
            if self.value is not None:
                self.value = edited(self.type, self.value, steps, set_to(new))
            answer = "ok"
        except Refused as fault:
            answer = str(fault)
        self.row("set %s 0x%s" % (path, literal.hex()), answer)

    def root(self):
        made = calculated(self.known)
        if self.value is not None and made != hash_tree_root(self.type, self.value):
            raise AssertionError("the root is not the value's")
        self.row("root", "0x" + made.hex())


# The rows.


def pairs():
    block = Block("Q", [1, 2], [2])
    block.get("/a")
    block.set("/a", 5)
    block.root()
    block.get("/b", "/", "/c", "/a/0")
    block.set("/b", 7)
    block.set("/", 0)
    block.set("/c", 0)
    block.root()
    yield block
    block = Block("M", [0xbbaa, [1, 2]], [2])
    block.get("/a", "/b/0", "/b/#len", "/b", "/b/4")
    block.set("/b/0", 9)
    block.set("/b/#len", 1)
    block.set("/a", 0x0102)
    block.root()
    yield block
    block = Block("P", [1, 2 ** 64 - 1], [2, 3])
    block.get("/a", "/b")
    block.set("/b", 3)
    block.set("/a", 2 ** 63)
    block.root()
    yield block
    # the whole is one leaf, above all that is asked for
    block = Block("P", [4, 5], [1])
    block.get("/a", "/")
    block.set("/b", 1)
    block.root()
    yield block


def lists():
    # two sets in one chunk, and elements of another one
    block = Block("Bytes", list(range(1, 71)), [16, 18, 3])
    block.get("/0", "/31", "/32", "/64", "/69", "/70", "/199", "/200", "/#len", "/0/0", "/")
    block.set("/1", 0xaa)
    block.set("/30", 0xbb)
    block.set("/69", 0xcc)
    block.set("/70", 0xdd)
    block.set("/33", 0xee)
    block.set("/#len", 71)
    block.root()
    block.get("/0", "/1", "/30", "/69")
    yield block
    # the length tells what is absent before it is asked for the chunk, which is not known
    block = Block("Bytes", [1, 2, 3], [2])
    block.get("/0", "/3", "/#len")
    block.set("/2", 1)
    yield block
    # the length is not known
    block = Block("Bytes", [1, 2, 3], [1])
    block.get("/0", "/3", "/#len")
    block.set("/0", 1)
    yield block
    block = Block("Longs", [2 ** 64 - 2, 7, 8, 9, 10], [2 * 2 ** 60 + 1, 3])
    block.get("/0", "/4", "/5", "/%d" % (MOST - 1), "/%d" % MOST, "/#len")
    block.set("/4", 11)
    block.set("/5", 12)
    block.root()
    yield block
    block = Block("Bits", [1, 0, 1], [2 * 2 ** 54, 3])
    block.get("/0", "/1", "/2", "/3", "/%d" % (MOST - 1), "/%d" % MOST, "/#len")
    block.set("/1", True)
    block.set("/0", False)
    block.set("/3", True)
    block.root()
    block.get("/0", "/1")
    yield block


def unions():
    block = Block("Pick", (1, 77), [2])
    block.get("/#1", "/#sel", "/#2/0", "/#2/#len", "/#0", "/#3", "/")
    block.set("/#1", 2 ** 255)
    block.set("/#2/0", 1)
    block.set("/#sel", 0)
    block.root()
    yield block
    block = Block("Pick", (2, [5, 6]), [8, 3])
    block.get("/#2/1", "/#2/2", "/#2/40", "/#1", "/#2/16", "/#sel")
    block.set("/#2/1", 515)
    block.root()
    yield block
    # the selector is not known
    block = Block("Pick", (2, [5, 6]), [1])
    block.get("/#2/1", "/#1", "/#sel")
    yield block


def state():
    value = [7, True, [2 ** 60 + i for i in range(9)], [int(i % 3 == 0) for i in range(300)],
             [int(i % 7 == 0) for i in range(300)], [[True, 5], [False, 6]], [2 ** 100, 3, 4],
             (2, [9] * 17), 2 ** 255 + 1]
    scores, marks, fixed, kids, pair, pick = 18, 19, 20, 21, 22, 23
    leaves = [16, 17, scores * 32, scores * 32 + 2, scores * 2 + 1, marks * 8 + 1, marks * 2 + 1,
              fixed * 2 + 1, (kids * 16 + 1) * 2 + 1, kids * 2 + 1, pair * 2 + 1, pick * 16 + 1,
              pick * 2 + 1, 24]
    block = Block("State", value, leaves)
    block.get("/slot", "/live", "/scores/0", "/scores/3", "/scores/4", "/scores/8", "/scores/9",
              "/scores/#len", "/marks/0", "/marks/256", "/marks/299", "/marks/300", "/marks/#len",
              "/fixed/255", "/fixed/256", "/fixed/299", "/fixed/300", "/kids/1/y", "/kids/1/x",
              "/kids/0/x", "/kids/2/x", "/kids/2/z", "/kids/1", "/pair/2", "/pair/0", "/pair/1",
              "/pick/#2/16", "/pick/#2/0", "/pick/#2/17", "/pick/#1", "/pick/#sel", "/wide")
    block.set("/slot", 2 ** 64 - 3)
    block.set("/live", False)
    block.set("/scores/3", 1)
    block.set("/scores/2", 2)
    block.set("/scores/8", 3)
    block.set("/scores/5", 4)
    block.root()
    block.set("/marks/256", False)
    block.set("/marks/299", True)
    block.set("/fixed/299", True)
    block.set("/kids/1/y", 2 ** 32 - 1)
    block.set("/pair/2", 2 ** 127)
    block.set("/pick/#2/16", 0x0a0b)
    block.set("/wide", 3)
    block.set("/kids/1", 0)
    block.root()
    block.get("/scores/2", "/scores/3", "/marks/256", "/marks/299", "/kids/1/y", "/pick/#2/16")
    yield block


def chunks_of_no_value():
    # a length above 2^128, one above the limit, and a selector above 255
    block = Block.of_chunks("Bytes", {16: bytes(range(32)), 3: bytes(16) + b"\1"})
    block.get("/0", "/31", "/#len", "/199")
    block.set("/5", 0xff)
    block.root()
    yield block
    block = Block.of_chunks("Pick", {2: b"\7", 3: b"\1\1"})
    block.get("/#1", "/#sel", "/#2/0")
    yield block
    # a boolean's byte as it stands
    block = Block.of_chunks("State", {17: b"\2\3"})
    block.get("/live", "/slot")
    block.set("/live", True)
    block.root()
    block.get("/live")
    yield block


def made():
    """The files of the subject, and the wanted lines."""
    makers = (pairs, lists, unions, state, chunks_of_no_value)
    blocks = [block for make in makers for block in make()]
    types = ",\n".join(json.dumps([name, form_of(t)]) for name, t in TYPES.items())
    files = {
        "partial_schema.json": '{"ssz":2,"types":[\n%s]}\n' % types,
        "partial.txt": "\n\n".join("\n".join(block.rows) for block in blocks) + "\n",
    }
    return files, [line for block in blocks for line in block.wanted]
