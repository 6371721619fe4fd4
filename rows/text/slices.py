"""The rows of slices of encoded bytes.

Encodings, parts and the places of the parts in the encodings are computed over plain Python values
from the rules of simple-serialize.md alone. A place is a sum of lengths of encodings: of the fixed
parts of all, and of the variable parts before.
"""
import json

from ssz import (
    BOOLEAN, LEN, SEL, bitlist, bitvector, container, encode, field_number, field_types, form_of, is_bits, is_sequence,
    list_of, path_of, path_type, scopes, step_type, uint, union, vector)

from .table import Table

MOST = 2 ** 62

M = container(a=uint(16), b=list_of(uint(8), 4))
KID = container(x=BOOLEAN, y=list_of(uint(16), 3))
PICK = union(None, uint(256), list_of(uint(8), 4), vector(list_of(uint(8), 2), 2))
STATE = container(
    slot=uint(64), name=list_of(uint(8), 8), live=BOOLEAN, marks=bitlist(20), fixed=bitvector(10), kids=list_of(KID, 4),
    pair=vector(uint(128), 2), picks=list_of(PICK, 5), wide=uint(256), tail=list_of(list_of(uint(8), 4), 4))
TYPES = {
    "M": M,
    "Short": uint(16),
    "Huge": uint(128),
    "Flag": BOOLEAN,
    "Lists": list_of(list_of(uint(8), 4), 4),
    "Pairs": vector(list_of(uint(16), 2), 3),
    "Picks": list_of(PICK, 5),
    "Marks": bitlist(20),
    "State": STATE,
    "Longs": list_of(uint(64), MOST),
    "Kids": list_of(KID, MOST),
    "Bits": bitlist(MOST),
}


def step_part(t, v, start, step):
    """The part and where it begins, None for a bit and a length; or None where it is absent."""
    if step == LEN:
        return len(v), None
    if step == SEL:
        return v[0], start
    if isinstance(step, tuple):
        return (v[1], start + 1) if v[0] == step[1] else None
    i = step if isinstance(step, int) else field_number(t, step)
    if i >= len(v):
        return None
    if is_bits(t):
        return v[i], None
    types = field_types(t) if t[0] == "container" else [t[1]] * len(v)
    return v[i], start + scopes(types, encode(t, v))[i][0]


def stepped(t, v, path):
    """Step by step: the first step that does not lead on says why."""
    start = 0
    for step in path_of(path):
        part = step_type(t, step)
        if part is None:
            return "BadPath"
        found = step_part(t, v, start, step)
        if found is None:
            return "Absent"
        t, (v, start) = part, found
    return part_text(t, v, start)


def at(t, v, path):
    """Over the whole path whether it fits comes before what is absent."""
    return "BadPath" if path_type(t, path_of(path)) is None else stepped(t, v, path)


def option(value):
    return "None" if value is None else "Some(%s)" % value


def part_text(t, v, start):
    kind = t[0]
    return "start %s, bytes %s, len %s, selector %s, uint %s, boolean %s" % (
        option(start),
        "None" if start is None else "0x" + encode(t, v).hex(),
        option(len(v) if is_sequence(t) or is_bits(t) else None),
        option(v[0] if kind == "union" else None),
        option(v if kind == "uint" and t != uint(256) else None),
        option(str(bool(v)).lower() if kind == "boolean" else None),
    )


class Rows:
    def __init__(self):
        self.blocks, self.wanted = [], []

    def whole(self, name, v, paths):
        t = TYPES[name]
        first = "%s 0x%s" % (name, encode(t, v).hex())
        self.blocks.append([first])
        self.wanted.append(first)
        for path in paths:
            self.row("at " + path, at(t, v, path))
            self.row("steps " + path, stepped(t, v, path))

    def row(self, row, answer):
        self.blocks[-1].append(row)
        self.wanted.append("%s: %s" % (row, answer))

    def fault(self, name, digits, code, position):
        """Bytes that encode no value of the type."""
        self.blocks.append(["%s 0x%s" % (name, digits)])
        self.wanted.append("%s 0x%s: fault %d at %d" % (name, digits, code, position))

    def table(self):
        types = ",\n".join(json.dumps([name, form_of(t)]) for name, t in TYPES.items())
        rows = "\n\n".join("\n".join(block) for block in self.blocks) + "\n"
        schema = '{"ssz":2,"types":[\n%s]}\n' % types
        return Table({".txt": rows, ".json": schema}, self.wanted)


def small_values(rows):
    rows.whole("M", [0xbbaa, [1, 2]], [
        "/", "/a", "/b", "/b/0", "/b/1", "/b/#len", "/b/2", "/b/4", "/c", "/0", "/a/0", "/b/x",
        "/b/#sel", "/#len", "/b/#len/0"])
    rows.fault("M", "aabb070000000102", 4, 2)
    rows.fault("M", "aabb0600", 1, 0)
    rows.whole("Short", 0x0102, ["/", "/0"])
    rows.fault("Short", "01", 1, 0)
    rows.fault("Short", "010203", 2, 2)
    rows.whole("Huge", 2 ** 127 + 5, ["/"])
    rows.whole("Flag", True, ["/"])
    rows.whole("Flag", False, ["/", "/0"])
    rows.fault("Flag", "02", 3, 0)


def several_parts(rows):
    # equal offsets: empty elements, first, between and last
    rows.whole("Lists", [[], [5, 6], [], [7]], [
        "/", "/0", "/1", "/1/0", "/1/1", "/2", "/3", "/3/0", "/4", "/#len", "/0/0", "/0/#len",
        "/3/1", "/3/4", "/3/1/0"])
    rows.whole("Lists", [[], [], []], ["/0", "/1", "/2", "/3", "/2/0", "/3/0", "/3/4"])
    rows.whole("Lists", [], ["/", "/0", "/#len"])
    rows.whole("Pairs", [[1], [], [2, 515]], ["/", "/0", "/1", "/2", "/2/1", "/3", "/#len"])
    rows.whole("Picks", [(0, None), (1, 77), (2, [9]), (3, [[], [5]])], [
        "/0", "/0/#sel", "/0/#0", "/0/#1", "/1", "/1/#1", "/1/#sel", "/2/#2", "/2/#2/0", "/2/#1",
        "/3/#3", "/3/#3/0", "/3/#3/1", "/3/#3/1/0", "/3/#2/1", "/3/#2/4", "/3/#4", "/4/#1"])
    rows.whole("Marks", [1, 0, 1, 1, 0, 0, 0, 0], [
        "/", "/0", "/1", "/7", "/8", "/19", "/20", "/#len", "/#len/#len", "/0/0"])
    rows.whole("Marks", [], ["/", "/0", "/#len"])


def state(rows):
    value = [7, [8, 9], True, [1, 1, 0, 0, 1, 0, 0, 0, 1], [0, 1] * 5,
             [[True, [1, 2, 3]], [False, []], [True, [515]]], [2 ** 100, 3],
             [(2, [4]), (0, None)], 2 ** 255 + 1, [[], [1], []]]
    rows.whole("State", value, [
        "/", "/slot", "/name", "/name/1", "/live", "/marks", "/marks/8", "/marks/9", "/marks/#len",
        "/fixed", "/fixed/9", "/fixed/10", "/kids", "/kids/0", "/kids/0/x", "/kids/0/y",
        "/kids/0/y/2", "/kids/1", "/kids/1/y", "/kids/1/y/0", "/kids/2/y/0", "/kids/2/y/#len",
        "/kids/3", "/kids/3/z", "/kids/3/y/3", "/kids/4", "/pair", "/pair/1", "/pair/2",
        "/picks/0/#2/0", "/picks/1/#sel", "/picks/1/#2/0", "/wide", "/tail", "/tail/0", "/tail/1",
        "/tail/2", "/tail/3", "/live/#len", "/fixed/#len", "/picks/#sel"])


def greatest_limits(rows):
    last, past = "/%d" % (MOST - 1), "/%d" % MOST
    rows.whole("Longs", [1, 2 ** 64 - 2], ["/0", "/1", "/2", last, past, "/#len"])
    rows.whole("Kids", [[True, [7]]], ["/0", "/0/y/0", "/1", last, last + "/y/3", past])
    rows.whole("Bits", [0, 1], ["/0", "/1", "/2", last, past, "/#len"])


def table():
    rows = Rows()
    small_values(rows)
    several_parts(rows)
    state(rows)
    greatest_limits(rows)
    return rows.table()
