"""The rows of edits of plain values, and of their parts.

Each line has the encoding of a part, or of the whole value after an edit, or the refusal. All are
computed over plain values, by the encoding of simple-serialize.md and the edits with their refusals
in the order BadPath, Absent, NotThat, Full, Empty, BadSelector. The schema of the types is data of
the crate.
"""
from ssz import (
    BOOLEAN, Refused, append, bitlist, bitvector, choose, container, edited, encode, list_of, part_at, path_type, pop, set_to,
    step_of, uint, union, vector)

from .table import Table

K = container(a=BOOLEAN, b=list_of(uint(8), 2))
P = union(uint(8), K)
TYPES = {
    "L": list_of(uint(8), 1),
    "U": union(None, uint(64)),
    "K": K,
    "P": P,
    "C": container(
        number=uint(16), flags=bitvector(10), marks=bitlist(3), name=vector(uint(8), 3), text=list_of(uint(8), 4),
        longs=list_of(uint(64), 3), pair=vector(uint(16), 2), kids=list_of(K, 2), pick=P, wide=uint(256)),
    "B": bitlist(3),
    "V": vector(K, 2),
}


def digits(t, v):
    return "0x" + encode(t, v).hex()


class Block:
    def __init__(self, name, value):
        self.type, self.value = TYPES[name], value
        first = digits(self.type, value)
        self.rows, self.wanted = ["%s %s" % (name, first)], ["%s: %s" % (name, first)]

    def row(self, row, answer):
        self.rows.append(row)
        self.wanted.append(row + ": " + answer)

    def edit(self, row, path, edit):
        try:
            self.value = edited(self.type, self.value, steps(path), edit)
            refusal = ""
        except Refused as fault:
            refusal = "%s, " % fault
        self.row(row, refusal + digits(self.type, self.value))

    # new_type is the type in which the digits are read, where the path tells none
    def set(self, path, new, new_type=uint(8)):
        new_type = path_type(self.type, steps(path)) or new_type
        self.edit("set %s %s" % (text(path), digits(new_type, new)), path, set_to(new))

    def append(self, path, new, new_type=uint(8)):
        t = path_type(self.type, steps(path))
        if t is not None and t[0] in ("list", "bitlist"):
            new_type = t[1] if t[0] == "list" else BOOLEAN
        self.edit("append %s %s" % (text(path), digits(new_type, new)), path, append(new))

    def pop(self, *path):
        self.edit("pop " + text(path), path, pop)

    def choose(self, path, selector, inner=None, inner_type=uint(64)):
        row = "choose %s %d" % (text(path), selector)
        if inner is not None:
            row += " " + digits(inner_type, inner)
        self.edit(row, path, choose(selector, inner))

    def part(self, *path):
        try:
            answer = digits(*part_at(self.type, self.value, steps(path)))
        except Refused as fault:
            answer = str(fault)
        self.row("part " + text(path), answer)


def steps(path):
    return [step_of(str(step)) for step in path]


def text(path):
    return "".join("/%s" % step for step in path) or "/"


def lists():
    block = Block("L", [])
    block.append([], 5)
    block.append([], 6)
    block.pop()
    block.pop()
    block.set([0], 7)
    block.set([1], 7)
    block.set(["#len"], 0)
    block.append(["#len"], 7)
    block.append([0], 7)
    block.append([0, 0], 7)
    block.pop("a")
    block.part()
    block.part(0)
    block.part("#len")
    block.part("#sel")
    block.set([], [9])
    block.part(0)
    block.set([0], 10)
    block.pop(0)
    block.choose([], 0)
    return block


def unions():
    block = Block("U", (0, None))
    block.choose([], 2)
    block.set(["#1"], 7)
    block.set(["#0"], 7)
    block.part("#1")
    block.part("#sel")
    block.choose([], 1, 2 ** 64 - 2)
    block.part("#1")
    block.part("#sel")
    block.set(["#1"], 3)
    block.set(["#sel"], 0)
    block.choose(["#1"], 0)
    block.choose(["#2"], 2)
    block.append([], 1)
    block.pop()
    block.choose([], 0)
    block.set([], (1, 4))
    block.part()
    return block


def bits():
    block = Block("B", [True, False])
    block.append([], True)
    block.append([], True)
    block.set([0], False)
    block.set([1], True)
    block.part(0)
    block.part(1)
    block.part("#len")
    block.pop()
    block.set([2], True)
    block.set([3], True)
    block.part(2)
    block.pop()
    block.pop()
    block.pop()
    block.append([], False)
    return block


C = [0x0102, [True] + [False] * 8 + [True], [True], [1, 2, 3], [4], [5, 6], [7, 8],
     [[True, [9]]], (0, 10), 2 ** 255 + 11]


def simple_fields(block):
    block.set(["number"], 0xfffe)
    block.set(["wide"], 12)
    block.set(["flags", 0], False)
    block.set(["flags", 8], True)
    block.set(["flags", 10], True)
    block.part("flags", 8)
    block.append(["marks"], False)
    block.set(["marks", 0], False)
    block.set(["marks", 2], True)
    block.set(["name", 1], 0xff)
    block.set(["name", 3], 0xff)
    block.append(["name"], 1)
    block.pop("name")
    block.part("name", 1)
    block.append(["number"], 1)


def listed_fields(block):
    block.append(["text"], 13)
    block.set(["text", 1], 14)
    block.set(["text", 2], 15)
    block.pop("text")
    block.append(["longs"], 2 ** 63)
    block.append(["longs"], 1)
    block.set(["longs", 1], 16)
    block.part("longs", 2)
    block.part("longs")
    block.set(["pair", 1], 17)
    block.part("pair", 0)
    block.part("pair", 2)


def inner_fields(block):
    block.append(["kids"], [False, []])
    block.append(["kids"], [False, []])
    block.set(["kids", 1, "a"], True)
    block.append(["kids", 0, "b"], 18)
    block.append(["kids", 0, "b"], 19)
    block.set(["kids", 0, "b", 0], 20)
    block.pop("kids", 1, "b")
    block.pop("kids")
    block.append(["kids", 1, "b"], 21)
    block.part("kids", 0, "b", "#len")
    block.part("kids", 0)
    block.set(["kids", 0, "c"], 22)
    block.set(["pick", "#0"], 23)
    block.set(["pick", "#1", "a"], False)
    block.choose(["pick"], 1, [True, [24, 25]], K)
    block.set(["pick", "#1", "b", 1], 26)
    block.pop("pick", "#1", "b")
    block.part("pick", "#1", "b", 0)
    block.part("pick", "#1", "b", 1)
    block.part("pick", "#0")
    block.choose(["pick"], 0, 27, uint(8))
    block.choose(["pick"], 255)
    block.choose(["kids"], 0)
    block.part()


def fields():
    block = Block("C", C)
    simple_fields(block)
    listed_fields(block)
    inner_fields(block)
    return block


def containers():
    block = Block("V", [[False, [1]], [True, []]])
    block.set([0], [True, [2, 3]])
    block.set([1, "b"], [4])
    block.set([1, "b", 0], 5)
    block.set([2], 0)
    block.pop(0)
    block.part(1)
    block.part(1, "a")
    return block


def table():
    blocks = [make() for make in (lists, unions, bits, fields, containers)]
    rows = "\n\n".join("\n".join(block.rows) for block in blocks) + "\n"
    return Table({".txt": rows}, [line for block in blocks for line in block.wanted])
