"""Edits on nodes: each row edits a value, and its line has the hash_tree_root of the whole value
afterwards, or the refusal."""
import json

from ssz import (
    BOOLEAN, Refused, append, bitlist, bitvector, choose, container, edited, encode, form_of, hash_tree_root, list_of,
    path_type, pop, set_to, text_of_path, uint, union, vector)


class Rows:
    """Rows, with their wanted lines; the value at hand and the one that was kept."""

    def __init__(self):
        self.rows, self.wanted = [], []
        self.type = self.now = self.kept = None

    def row(self, text):
        self.rows.append(text)

    def root(self, head):
        self.wanted.append("%s %s" % (head, hash_tree_root(self.type, self.now).hex()))

    def new(self, name, value):
        self.type, self.now, self.kept = TYPES[name], value, value
        self.row("new %s 0x%s" % (name, encode(self.type, value).hex()))
        self.root("new " + name)

    def edit(self, name, path, edit, literal=None, middle=""):
        head = "%s %s%s" % (name, text_of_path(path), middle)
        self.row(head + ("" if literal is None else " 0x" + literal.hex()))
        try:
            self.now = edited(self.type, self.now, path, edit)
            self.root(head)
        except Refused as refusal:
            self.wanted.append("%s %s" % (head, refusal))

    def literal(self, path, new, part=lambda t: t):
        t = path_type(self.type, path)
        t = None if t is None else part(t)
        return b"\0" if t is None else encode(t, new)

    def set(self, path, new):
        self.edit("set", path, set_to(new), self.literal(path, new))

    def append(self, path, new):
        def element(t):
            return t[1] if t[0] == "list" else BOOLEAN if t[0] == "bitlist" else None
        self.edit("append", path, append(new), self.literal(path, new, element))

    def pop(self, path):
        self.edit("pop", path, pop)

    def choose(self, path, selector, inner):
        def option(t):
            return t[1][selector] if t[0] == "union" and selector < len(t[1]) else None
        literal = None if inner is None else self.literal(path, inner, option)
        self.edit("choose", path, choose(selector, inner), literal, " %d" % selector)

    def keep(self):
        """The value at hand is kept; edits go on."""
        self.kept = self.now
        self.row("keep")

    def swap(self):
        """The value that was kept is at hand again."""
        self.now, self.kept = self.kept, self.now
        self.row("swap")
        self.root("swap")


PAIR = container(a=uint(64), b=uint(64))
NAMED = container(name=list_of(uint(8), 33), pair=PAIR)
UNION = union(None, uint(64), list_of(uint(16), 40), PAIR)
NUMBERED = union(uint(64), list_of(uint(8), 4))
TYPES = {
    "Number": uint(64),
    "Pair": PAIR,
    "Eight": list_of(uint(64), 8),
    "One": list_of(uint(8), 1),
    "Halves": list_of(uint(16), 100),
    "Wides": list_of(uint(256), 5),
    "Flags": list_of(BOOLEAN, 70),
    "Long": list_of(uint(64), 2 ** 40),
    "Bits": bitlist(600),
    "LongBits": bitlist(2 ** 40),
    "Mask": bitvector(300),
    "Words": vector(uint(32), 12),
    "Switches": vector(BOOLEAN, 3),
    "Pairs": list_of(PAIR, 5),
    "Three": vector(PAIR, 3),
    "Texts": list_of(list_of(uint(8), 40), 3),
    "Options": list_of(UNION, 4),
    "Union": UNION,
    "Numbered": NUMBERED,
    "All": container(
        number=uint(64),
        flag=BOOLEAN,
        wide=uint(256),
        halves=vector(uint(16), 20),
        root=vector(uint(8), 32),
        bytes=list_of(uint(8), 100),
        bits=bitlist(600),
        mask=bitvector(300),
        pairs=list_of(PAIR, 5),
        named=NAMED,
        option=UNION,
        masks=vector(bitvector(9), 2),
    ),
}


def lists(rows):
    """Appends and pops of packed numbers: into a chunk that has some, into a new one, out again."""
    rows.new("Eight", [])
    for i in range(5):
        rows.append([], i + 1)
    for _ in range(5):
        rows.pop([])
    rows.pop([])
    for i in range(9):
        rows.append([], 2 ** 64 - 1 - i)
    rows.set([0], 7)
    rows.set([3], 8)
    rows.set([4], 9)
    rows.set([7], 10)
    # A pop that leaves a chunk in part leaves zeros; one that leaves it empty, too.
    for _ in range(4):
        rows.pop([])
    rows.append([], 11)
    for name, element in [
            ("Halves", 0xFFFF), ("Wides", 2 ** 256 - 1), ("Flags", 1), ("Long", 2 ** 64 - 1)]:
        rows.new(name, [element] * 3)
        rows.append([], element)
        rows.set([1], element // 2)
        rows.set([2], 0)
        rows.pop([])
        rows.pop([])
    rows.new("Halves", [0xABCD] * 16)
    rows.append([], 1)
    rows.pop([])
    rows.pop([])
    rows.new("Long", list(range(1, 9)))
    for i in range(9, 14):
        rows.append([], i)
    for _ in range(7):
        rows.pop([])


def bits(rows):
    """Bits at the ends of bytes and chunks."""
    rows.new("Bits", [1] * 254)
    for bit in 1, 0, 1, 1:
        rows.append([], bit)
    for i in 0, 7, 8, 255, 256:
        rows.set([i], 0)
    rows.set([254], 1)
    for _ in range(4):
        rows.pop([])
    rows.new("Bits", [])
    rows.pop([])
    rows.append([], 1)
    rows.pop([])
    rows.new("LongBits", [0, 1, 1])
    rows.append([], 1)
    rows.set([0], 1)
    rows.pop([])
    rows.new("Mask", [0] * 300)
    for i in 0, 9, 255, 256, 299:
        rows.set([i], 1)
    rows.set([9], 0)
    rows.set([300], 1)
    rows.append([], 1)


def sequences(rows):
    """Vectors, and lists of composite elements."""
    rows.new("Number", 5)
    rows.set([], 6)
    rows.append([], 6)
    rows.new("Pair", [1, 2])
    rows.set(["a"], 3)
    rows.set(["b"], 2 ** 64 - 1)
    rows.set([], [8, 9])
    rows.set(["c"], 0)
    rows.new("Words", list(range(12)))
    for i in 0, 7, 8, 11:
        rows.set([i], 2 ** 32 - 1)
    rows.set([], list(range(12, 0, -1)))
    rows.new("Switches", [0, 1, 0])
    rows.set([0], 1)
    rows.set([1], 0)
    rows.new("Pairs", [[1, 2]])
    for i in range(4):
        rows.append([], [i, i + 1])
    rows.append([], [9, 9])
    rows.set([2, "b"], 77)
    rows.set([4], [5, 5])
    for _ in range(5):
        rows.pop([])
    rows.pop([])
    rows.set([], [[6, 6], [7, 7]])
    rows.new("Three", [[1, 2], [3, 4], [5, 6]])
    rows.set([1], [7, 8])
    rows.set([2, "a"], 9)
    rows.new("Texts", [[1, 2, 3], []])
    rows.append([], [4] * 40)
    rows.append([1], 5)
    rows.append([2], 5)
    rows.pop([0])
    rows.pop([2])
    rows.set([2, 32], 6)
    rows.pop([])
    rows.append([2], 5)
    rows.set([], [])


def unions(rows):
    """Unions, alone, in lists and in containers."""
    rows.new("Union", (0, None))
    rows.choose([], 1, 5)
    rows.set([("option", 1)], 6)
    rows.choose([], 2, [1, 2, 3])
    rows.append([("option", 2)], 4)
    rows.pop([("option", 2)])
    rows.choose([], 3, [7, 8])
    rows.set([("option", 3), "b"], 9)
    rows.set([("option", 2)], [1])
    rows.choose([], 4, None)
    rows.choose([], 255, None)
    rows.choose([], 0, None)
    rows.set([("option", 0)], 1)
    rows.set([("option", 1)], 1)
    rows.set([], (2, [9, 9]))
    rows.set(["#sel"], 0)
    rows.choose(["#sel"], 1, 5)
    rows.new("Numbered", (0, 0))
    rows.choose([], 1, [1, 2])
    rows.append([("option", 1)], 3)
    rows.choose([], 0, 0)
    rows.choose([], 2, None)
    rows.new("Options", [(0, None), (1, 5)])
    rows.append([], (2, [1]))
    rows.append([2, ("option", 2)], 2)
    rows.choose([0], 3, [1, 1])
    rows.choose([1], 0, None)
    rows.pop([])
    rows.choose([2], 0, None)
    rows.choose([], 0, None)


def refusals(rows):
    """Each refusal, and of two that hold the one that comes first."""
    rows.new("One", [])
    rows.append([], 5)
    rows.append([], 6)
    rows.pop([])
    rows.pop([])
    rows.set([0], 7)
    rows.set([1], 7)
    rows.set(["#len"], 0)
    rows.new("All", ALL)
    rows.set(["none"], 0)
    rows.set(["pairs", 5], [0, 0])
    rows.set(["pairs", 4], [0, 0])
    rows.set(["pairs", 4, "c"], 0)
    rows.set(["pairs", 4, "a"], 0)
    rows.set(["pairs", 0, "a", "a"], 0)
    rows.set(["pairs", "#len", 0], 0)
    rows.set(["pairs", "#len"], 0)
    rows.set(["option", "#sel"], 0)
    rows.set(["option", ("option", 1)], 0)
    rows.set(["option", ("option", 4)], 0)
    rows.append(["pairs", "#len"], 0)
    rows.append(["number"], 0)
    rows.append(["halves"], 0)
    rows.append(["mask"], 0)
    rows.append(["option"], 0)
    rows.append(["pairs", 4], 0)
    rows.append(["pairs", 7], 0)
    rows.pop(["number"])
    rows.pop(["root"])
    rows.pop(["mask"])
    rows.pop(["option", ("option", 1)])
    rows.pop(["pairs", "#len"])
    rows.pop(["none"])
    rows.choose(["number"], 9, None)
    rows.choose(["pairs"], 0, None)
    rows.choose(["option"], 9, None)
    rows.choose(["option", ("option", 1)], 9, None)
    rows.choose(["none"], 0, None)


ALL = [
    1, 1, 2 ** 255 + 1, list(range(20)), list(range(32)), list(range(64)), [1, 0, 1], [1] * 300,
    [[1, 2], [3, 4]], [[65, 66], [5, 6]], (2, [7, 8]), [[1] * 9, [0] * 9],
]


def everywhere(rows):
    """Parts of one value, one after another, and the value that was kept meanwhile."""
    rows.new("All", ALL)
    rows.keep()
    rows.set(["number"], 2 ** 64 - 1)
    rows.set(["flag"], 0)
    rows.set(["wide"], 3)
    rows.set(["halves", 19], 0xFFFF)
    rows.set(["halves", 15], 0x1234)
    rows.set(["root"], [255] * 32)
    rows.set(["root", 31], 1)
    rows.append(["bytes"], 99)
    rows.pop(["bytes"])
    rows.pop(["bytes"])
    rows.append(["bits"], 1)
    rows.set(["bits", 1], 1)
    rows.set(["mask", 256], 0)
    rows.append(["pairs"], [5, 6])
    rows.set(["pairs", 2, "b"], 7)
    rows.pop(["pairs"])
    rows.append(["named", "name"], 67)
    rows.set(["named", "pair"], [8, 9])
    rows.append(["option", ("option", 2)], 9)
    rows.set(["option", ("option", 2), 0], 1)
    rows.choose(["option"], 3, [1, 2])
    rows.set(["masks", 1, 8], 1)
    # The kept one has its root; edits of it leave the other alone.
    rows.swap()
    rows.pop(["pairs"])
    rows.set(["bits"], [])
    rows.choose(["option"], 0, None)
    rows.swap()
    rows.pop(["pairs"])
    rows.swap()
    rows.set([], ALL)


def made():
    """The files of the subject, and the wanted lines."""
    rows = Rows()
    for part in lists, bits, sequences, unions, refusals, everywhere:
        part(rows)
    types = ",\n".join(
        "  " + json.dumps([name, form_of(t)], separators=(",", ":")) for name, t in TYPES.items())
    files = {
        "edit_schema.json": '{"ssz":1,"types":[\n%s\n]}\n' % types,
        "edit.txt": "\n".join(rows.rows) + "\n",
    }
    return files, rows.wanted
