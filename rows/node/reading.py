"""What is read of nodes: rows of a tree, and of calls on it."""
import json

from ssz import (
    BITS_A_CHUNK, BOOLEAN, BYTE, BYTES_A_CHUNK, LEN, SEL, Full, Pair, bits_as_bytes, bitlist, bitvector, children, chunk,
    encode, field_number, field_types, fixed_size, form_of, is_basic, is_bits, is_sequence, list_of, number_chunk, pack,
    path_of, settled, step_type, tree, uint, union, vector)

U64_MAX = 2 ** 64 - 1
MOST = 2 ** 62


def last_only(levels, leaf):
    """The tree of zeros but for the last leaf."""
    for below in range(levels):
        leaf = Pair(Full(below, []), leaf)
    return leaf


def written(node):
    """The tree in one line: + before the two trees of a pair, zD, or the bytes of a leaf."""
    if isinstance(node, Full) and not node.parts:
        return "z%d" % node.depth
    both = children(node)
    if both is None:
        return "0x" + (settled(node).rstrip(b"\0") or b"\0").hex()
    return "+ %s %s" % (written(both.left), written(both.right))


# What the program prints of values and parts


def bits_text(bits):
    return ", ".join("true" if bit else "false" for bit in bits)


def value_text(t, v):
    kind = t[0]
    if kind == "boolean":
        return "Bool(%s)" % bits_text([v])
    if t == uint(256):
        return "Wide(Chunk([%s]))" % ", ".join(map(str, encode(t, v)))
    if kind == "uint":
        return "Uint(%d)" % v
    if is_bits(t):
        return "Bits(BitRun { bits: [%s] })" % bits_text(v)
    if kind == "union":
        inner = "None" if v[1] is None else "Some(%s)" % value_text(t[1][v[0]], v[1])
        return "Union { selector: %d, inner: %s }" % (v[0], inner)
    if is_sequence(t) and t[1] == BYTE:
        return "Bytes(ByteRun { bytes: %s })" % v
    types = field_types(t) if kind == "container" else [t[1]] * len(v)
    return "Seq([%s])" % ", ".join(value_text(part, x) for part, x in zip(types, v))


def option(value):
    return "None" if value is None else "Some(%s)" % value


def leaf_of(t, v):
    """The leaf of a basic value, None of others."""
    return chunk(encode(t, v)) if is_basic(t) else None


def part_text(t, v, leaf):
    """What the calls of a view answer for a part, with the leaf of a basic one."""
    is_wide = t == uint(256)
    answers = (
        option(len(v)) if is_sequence(t) or is_bits(t) else "None",
        option(v[0]) if t[0] == "union" else "None",
        option(v) if t[0] == "uint" and not is_wide else "None",
        "0x" + encode(t, v).hex() if is_wide else "None",
        option(bits_text([v])) if t == BOOLEAN else "None",
        "None" if leaf is None else "0x" + leaf.hex(),
    )
    return "len %s, selector %s, uint %s, wide %s, boolean %s, chunk %s" % answers


def step_part(t, v, step):
    """The part's value and the leaf in which it lies, None where it is not there."""
    part = step_type(t, step)
    if isinstance(step, int):
        if step >= len(v):
            return None
        if is_bits(t):
            return v[step], pack(bits_as_bytes(v))[step // BITS_A_CHUNK]
        if is_basic(part):
            leaves = pack(b"".join(encode(part, x) for x in v))
            return v[step], leaves[step * fixed_size(part) // BYTES_A_CHUNK]
        return v[step], None
    if isinstance(step, tuple):
        if v[0] != step[1]:
            return None
        found = v[1]
    else:
        found = len(v) if step == LEN else v[0] if step == SEL else v[field_number(t, step)]
    return found, leaf_of(part, found)


def at(t, v, path):
    part = t
    for step in path_of(path):
        part = step_type(part, step)
        if part is None:
            return "BadPath"
    return stepped(t, v, path)


def stepped(t, v, path):
    """Step by step: the first step that does not lead on says why."""
    leaf = leaf_of(t, v)
    for step in path_of(path):
        part = step_type(t, step)
        if part is None:
            return "BadPath"
        found = step_part(t, v, step)
        if found is None:
            return "Absent"
        t, (v, leaf) = part, found
    return part_text(t, v, leaf)


# Rows


class Rows:
    def __init__(self):
        self.types, self.blocks, self.out = [], [], []

    def begin(self, name, t, node):
        if name not in [known for known, _ in self.types]:
            self.types.append((name, t))
        self.blocks.append(["%s %s" % (name, written(node))])
        self.out.append("%s" % name)

    def row(self, call, answer):
        self.blocks[-1].append(call)
        self.out.append("%s: %s" % (call, answer))

    def whole(self, name, t, v):
        """Length, value and encoding of a value, at the greatest length that fits and one less."""
        self.begin(name, t, tree(t, v))
        bytes_ = encode(t, v)
        self.row("length", str(len(bytes_)))
        self.row("value", value_text(t, v))
        self.row("encoding %d" % len(bytes_), "Ok(()), 0x07" + bytes_.hex())
        if bytes_:
            self.row("encoding %d" % (len(bytes_) - 1), "Err(TooLong), 0x07")

    def parts(self, t, v, paths):
        for path in paths:
            self.row("at %s" % path, at(t, v, path))
            self.row("steps %s" % path, stepped(t, v, path))

    def huge(self, name, t, node, length, rows):
        """A list whose elements are too many to be held here: its rows are given."""
        self.begin(name, t, node)
        self.row("length", str(length))
        self.row("encoding 4294967295", "Err(TooLong), 0x07")
        for path, answer in rows:
            self.row("at %s" % path, answer)

    def files(self):
        types = ",\n".join(json.dumps([name, form_of(t)]) for name, t in self.types)
        return {
            "reading_schema.json": '{"ssz":2,"types":[\n%s]}\n' % types,
            "reading.txt": "\n\n".join("\n".join(block) for block in self.blocks) + "\n",
        }


def whole_values(rows):
    bytes4, bytes32 = list_of(uint(8), 4), vector(uint(8), 32)
    point = ("container", (("x", uint(16)), ("y", BOOLEAN)))
    note = ("container", (("a", uint(16)), ("b", bytes4), ("c", BOOLEAN), ("d", bitlist(9))))
    choice = union(None, uint(256), bytes4, vector(bytes4, 2))
    ramp = [(7 * i + 3) % 256 for i in range(40)]
    for name, t, v in [
        ("Small", uint(8), 200),
        ("Short", uint(16), 0x0102),
        ("Half", uint(32), 0x01020304),
        ("Long", uint(64), 2 ** 64 - 2),
        ("Huge", uint(128), 2 ** 127 + 5),
        ("Wide", uint(256), 2 ** 255 + 9),
        ("Flag", BOOLEAN, True),
        ("Root", bytes32, list(range(32))),
        ("Longs", vector(uint(64), 5), [1, 2, 3, 2 ** 56 + 4, 5]),
        ("Flags", vector(BOOLEAN, 3), [True, False, True]),
        ("Bytes", list_of(uint(8), 100), ramp),
        ("Bytes", list_of(uint(8), 100), []),
        ("Shorts", list_of(uint(16), 64), [0x0100 + i for i in range(17)]),
        ("Huges", list_of(uint(128), 4), [1, 2 ** 100, 3]),
        ("Wides", list_of(uint(256), 3), [1, 2 ** 248]),
        ("Points", list_of(point, 4), [[1, True], [2, False], [515, True]]),
        ("Lists", list_of(bytes4, 4), [[], [9], []]),
        ("Lists2", vector(bytes4, 2), [[1, 2], [3]]),
        ("Bits10", bitvector(10), [1, 0, 1, 0, 0, 0, 0, 0, 0, 1]),
        ("Bits300", bitvector(300), [int(i % 7 == 0 or i == 299) for i in range(300)]),
        ("Bitlist", bitlist(512), []),
        ("Bitlist", bitlist(512), [1, 0, 1, 0, 0, 0, 0, 0]),
        ("Bitlist", bitlist(512), [int(i % 3 == 0) for i in range(259)]),
        ("Note", note, [0xbbaa, [1, 2], True, [1, 1, 0]]),
        ("Choice", choice, (0, None)),
        ("Choice", choice, (1, 77)),
        ("Choice", choice, (2, [9])),
        ("Choice", choice, (3, [[], [5, 6]])),
        ("Notes", list_of(note, 3), [[1, [], False, []], [2, [7], True, [0] * 9]]),
    ]:
        rows.whole(name, t, v)


def state_parts(rows):
    point = ("container", (("x", uint(16)), ("y", BOOLEAN)))
    state = ("container", (
        ("slot", uint(64)),
        ("total", uint(256)),
        ("live", BOOLEAN),
        ("points", list_of(point, 4)),
        ("scores", list_of(uint(16), 64)),
        ("marks", bitlist(512)),
        ("fixed", bitvector(10)),
        ("pair", vector(uint(128), 2)),
        ("choice", union(None, uint(256), list_of(uint(8), 4))),
    ))
    value = [7, 2 ** 248 + 1, True, [[1, True], [515, False]], [256 + i for i in range(17)],
             [int(i in (0, 257)) for i in range(258)], [0, 1] * 5, [2 ** 100, 3], (2, [9, 8])]
    rows.begin("State", state, tree(state, value))
    rows.parts(state, value, [
        "/", "/slot", "/total", "/live", "/points", "/points/1", "/points/1/x", "/points/1/y",
        "/points/#len", "/scores/0", "/scores/1", "/scores/16", "/marks/0", "/marks/256",
        "/marks/257", "/marks/#len", "/fixed", "/fixed/9", "/pair/0", "/pair/1", "/choice",
        "/choice/#2", "/choice/#2/1", "/choice/#sel",
        # past the length, and another option than the present one
        "/points/2", "/points/2/x", "/scores/17", "/marks/258", "/choice/#1", "/choice/#2/2",
        # a path that does not fit
        "/none", "/slot/0", "/points/4", "/points/x", "/scores/64", "/fixed/10", "/pair/2",
        "/pair/#len", "/fixed/#len", "/choice/#0", "/choice/#3", "/points/#sel", "/choice/#len",
        "/live/#sel",
        # first a part that is not there, then a step that does not fit
        "/points/2/z", "/scores/17/#len", "/choice/#1/0", "/choice/#2/2/0",
    ])


def greatest_lists(rows):
    point = ("container", (("x", uint(16)), ("y", BOOLEAN)))
    longs, points, bits = list_of(uint(64), MOST), list_of(point, MOST), bitlist(MOST)
    leaf = (6).to_bytes(8, "little").rjust(32, b"\0")
    length = part_text(uint(64), MOST, MOST.to_bytes(32, "little"))
    last, past = "/%d" % (MOST - 1), "/%d" % MOST
    rows.huge("MostLongs", longs, Pair(last_only(60, leaf), number_chunk(MOST)), U64_MAX, [
        (last, part_text(uint(64), 6, leaf)),
        ("/%d" % (MOST - 2), part_text(uint(64), 0, leaf)),
        ("/0", part_text(uint(64), 0, bytes(32))),
        (past, "BadPath"),
        ("/#len", length),
    ])
    node = tree(point, [5, True])
    rows.huge("MostPoints", points, Pair(last_only(62, node), number_chunk(MOST)), min(3 * MOST, U64_MAX), [
        (last, part_text(point, [5, True], None)),
        (last + "/x", part_text(uint(16), 5, leaf_of(uint(16), 5))),
        (past, "BadPath"),
        ("/#len", length),
    ])
    mark = (2 ** 255).to_bytes(32, "little")
    rows.huge("MostBits", bits, Pair(last_only(54, mark), number_chunk(MOST - 1)), (MOST - 1) // 8 + 1, [
        ("/%d" % (MOST - 2), part_text(BOOLEAN, False, mark)),
        (last, "Absent"),
        (past, "BadPath"),
    ])
    rows.huge("MostBits", bits, Pair(last_only(54, mark), number_chunk(MOST)), MOST // 8 + 1, [
        (last, part_text(BOOLEAN, True, mark)),
    ])


def made():
    """The files of the subject, and the wanted lines."""
    rows = Rows()
    whole_values(rows)
    state_parts(rows)
    greatest_lists(rows)
    return rows.files(), rows.out
