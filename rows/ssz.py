"""SimpleSerialize as it runs: types, values, encodings, trees, roots, paths, indices, multiproofs and edits.

Written from the text of consensus-specs (ssz/simple-serialize.md and ssz/merkle-proofs.md) and of docs/formats.md, over whole
values, with hashlib alone: no node is shared and nothing is kept. The makers of rows take their answers from here.

A type is a tuple:
  ("uint", bits)  ("boolean",)  ("bitvector", length)  ("bitlist", limit)  ("vector", type, length)  ("list", type, limit)
  ("container", ((name, type), ..))  ("union", (type or None, ..))
A value is an int, a bool, a list of bools, a list of values (of a container in the order of its fields), or (selector, value).
A path is a list of steps: a name, a number, LEN, SEL, or ("option", selector).
"""
import collections
import hashlib
import json
import re

BITS_A_CHUNK, BYTES_A_CHUNK, OFFSET = 256, 32, 4
ZERO = bytes(BYTES_A_CHUNK)
LEN, SEL = "#len", "#sel"
NAME = re.compile(r"[A-Za-z_][A-Za-z0-9_]{0,63}\Z")
NUMBER = re.compile(r"(0|[1-9][0-9]*)\Z")


# ---- types


def uint(bits):
    return ("uint", bits)


BOOLEAN = ("boolean",)
BYTE = uint(8)


def bitvector(length):
    return ("bitvector", length)


def bitlist(limit):
    return ("bitlist", limit)


def vector(element, length):
    return ("vector", element, length)


def list_of(element, limit):
    return ("list", element, limit)


def container(**fields):
    return ("container", tuple(fields.items()))


def union(*options):
    return ("union", options)


BUILT_IN = {"boolean": BOOLEAN, "byte": BYTE, **{f"uint{bits}": uint(bits) for bits in (8, 16, 32, 64, 128, 256)}}


def types_of(document):
    """The types of a schema document by their names, those that are built in among them."""
    named = dict(BUILT_IN)
    for name, form in json.loads(document)["types"]:
        named[name] = type_of(form, named)
    return named


def type_of(form, named=BUILT_IN):
    """The type of a form of a schema document."""
    if isinstance(form, str):
        return named[form]
    (kind, of), = form.items()
    if kind == "container":
        return (kind, tuple((name, type_of(field, named)) for name, field in of))
    if kind == "union":
        return (kind, tuple(None if option is None else type_of(option, named) for option in of))
    if kind in ("vector", "list"):
        return (kind, type_of(of[0], named), of[1])
    return (kind, of)


def form_of(t):
    """The form of a type, as a schema document has it."""
    kind = t[0]
    if kind == "uint":
        return f"uint{t[1]}"
    if kind == "boolean":
        return kind
    if kind == "container":
        return {kind: [[name, form_of(field)] for name, field in t[1]]}
    if kind == "union":
        return {kind: [None if option is None else form_of(option) for option in t[1]]}
    if kind in ("vector", "list"):
        return {kind: [form_of(t[1]), t[2]]}
    return {kind: t[1]}


def document_of(types, version=1):
    """A schema document of these types by their names."""
    return json.dumps({"ssz": version, "types": [[name, form_of(t)] for name, t in types.items()]})


def is_basic(t):
    return t[0] in ("uint", "boolean")


def is_bits(t):
    return t[0] in ("bitvector", "bitlist")


def is_sequence(t):
    return t[0] in ("vector", "list")


def field_types(t):
    return [field for _, field in t[1]]


def field_number(t, name):
    return [field for field, _ in t[1]].index(name)


def fixed_size(t):
    """The length of each encoding of a type, None of a type of variable size."""
    kind = t[0]
    if kind == "uint":
        return t[1] // 8
    if kind == "boolean":
        return 1
    if kind == "bitvector":
        return (t[1] + 7) // 8
    if kind == "vector":
        size = fixed_size(t[1])
        return None if size is None else size * t[2]
    if kind == "container":
        sizes = [fixed_size(field) for field in field_types(t)]
        return None if None in sizes else sum(sizes)
    return None


def default(t):
    """The default value: zeros, no elements, the first option."""
    kind = t[0]
    if kind == "uint":
        return 0
    if kind == "boolean":
        return False
    if kind == "bitvector":
        return [False] * t[1]
    if kind == "vector":
        return [default(t[1]) for _ in range(t[2])]
    if kind == "container":
        return [default(field) for field in field_types(t)]
    if kind == "union":
        return (0, None if t[1][0] is None else default(t[1][0]))
    return []


# ---- encoding


def le(number, length):
    return number.to_bytes(length, "little")


def bits_as_bytes(bits):
    """Bit i is bit i mod 8 of byte i / 8."""
    out = bytearray((len(bits) + 7) // 8)
    for i, bit in enumerate(bits):
        out[i // 8] |= bool(bit) << i % 8
    return bytes(out)


def encode_parts(types, values):
    """The fixed parts of all, an offset for each part of variable size, then these parts in order."""
    parts = [(fixed_size(t) is not None, encode(t, v)) for t, v in zip(types, values)]
    place = sum(len(part) if is_fixed else OFFSET for is_fixed, part in parts)
    heads, bodies = [], []
    for is_fixed, part in parts:
        if is_fixed:
            heads.append(part)
        else:
            heads.append(le(place, OFFSET))
            bodies.append(part)
            place += len(part)
    return b"".join(heads + bodies)


def encode(t, v):
    kind = t[0]
    if kind == "uint":
        return le(v, t[1] // 8)
    if kind == "boolean":
        return bytes([v])
    if kind == "bitvector":
        return bits_as_bytes(v)
    if kind == "bitlist":
        return bits_as_bytes([*v, True])
    if is_sequence(t):
        return bytes(v) if t[1] == BYTE else encode_parts([t[1]] * len(v), v)
    if kind == "container":
        return encode_parts(field_types(t), v)
    selector, inner = v
    return bytes([selector]) + (b"" if t[1][selector] is None else encode(t[1][selector], inner))


class Fault(Exception):
    """The first fault of bytes: its code and the position of the byte."""

    @property
    def code(self):
        return self.args[0]

    @property
    def position(self):
        return self.args[1]


def decode(t, data, start=0):
    """The value of an encoding that starts at this position of the input; raises its first Fault, heads before parts."""
    kind, size = t[0], fixed_size(t)
    if size is not None:
        if len(data) < size:
            raise Fault(1, start)
        if len(data) > size:
            raise Fault(2, start + size)
    if is_basic(t):
        return decode_basic(t, data, start)
    if is_bits(t):
        return decode_bits(t, data, start)
    if kind == "union":
        return decode_union(t, data, start)
    if kind == "container":
        return decode_parts(field_types(t), data, start, first=None)
    if kind == "vector":
        return decode_parts([t[1]] * t[2], data, start, first=None)
    return decode_list(t, data, start)


def decode_basic(t, data, start):
    number = int.from_bytes(data, "little")
    if t[0] == "uint":
        return number
    if number > 1:
        raise Fault(3, start)
    return number == 1


def decode_bits(t, data, start):
    bits = [bool(byte >> i & 1) for byte in data for i in range(8)]
    if t[0] == "bitvector":
        if any(bits[t[1]:]):
            raise Fault(9, start + len(data) - 1)
        return bits[:t[1]]
    if not data or data[-1] == 0:
        raise Fault(10, start + max(len(data) - 1, 0))
    length = len(bits) - 8 + data[-1].bit_length() - 1
    if length > t[1]:
        raise Fault(8, start)
    return bits[:length]


def decode_union(t, data, start):
    if not data:
        raise Fault(1, start)
    selector = data[0]
    if selector >= len(t[1]):
        raise Fault(11, start)
    option = t[1][selector]
    if option is not None:
        return (selector, decode(option, data[1:], start + 1))
    if len(data) > 1:
        raise Fault(2, start + 1)
    return (selector, None)


def decode_list(t, data, start):
    element, limit, size = t[1], t[2], fixed_size(t[1])
    if size is not None:
        if len(data) % size:
            raise Fault(7, start)
        if len(data) // size > limit:
            raise Fault(8, start)
        return [decode(element, data[i:i + size], start + i) for i in range(0, len(data), size)]
    if not data:
        return []
    if len(data) < OFFSET:
        raise Fault(1, start)
    first = int.from_bytes(data[:OFFSET], "little")
    if first == 0 or first % OFFSET:
        raise Fault(4, start)
    if first > len(data):
        raise Fault(5, start)
    if first // OFFSET > limit:
        raise Fault(8, start)
    return decode_parts([element] * (first // OFFSET), data, start, first)


def scopes(types, data):
    """Where the parts of an encoding lie, as pairs of places; the offsets are taken as they stand."""
    places, offsets, place = [], [], 0
    for t in types:
        size = fixed_size(t)
        if size is None:
            offsets.append(int.from_bytes(data[place:place + OFFSET], "little"))
        places.append((place, size))
        place += OFFSET if size is None else size
    ends, found = iter([*offsets[1:], len(data)]), iter(offsets)
    return [(next(found), next(ends)) if size is None else (place, place + size) for place, size in places]


def decode_parts(types, data, start, first):
    """The values of parts that stand one after another; `first` is the first offset where it was looked at before."""
    heads = sum(OFFSET if fixed_size(t) is None else fixed_size(t) for t in types)
    if len(data) < heads:
        raise Fault(1, start)
    place, before = 0, None
    for t in types:
        if fixed_size(t) is None:
            offset = int.from_bytes(data[place:place + OFFSET], "little")
            if before is None:
                if first is None and offset != heads:
                    raise Fault(4, start + place)
            elif offset > len(data):
                raise Fault(5, start + place)
            elif offset < before:
                raise Fault(6, start + place)
            before = offset
        place += OFFSET if fixed_size(t) is None else fixed_size(t)
    return [decode(t, data[begin:end], start + begin) for t, (begin, end) in zip(types, scopes(types, data))]


# ---- trees: a chunk, a Pair of trees, or the Full tree of a depth over parts, with zero chunks behind them

Pair = collections.namedtuple("Pair", "left right")
Full = collections.namedtuple("Full", "depth parts")


def chunk(data):
    return data.ljust(BYTES_A_CHUNK, b"\0")


def number_chunk(number):
    return le(number, BYTES_A_CHUNK)


def pack(data):
    return [chunk(data[i:i + BYTES_A_CHUNK]) for i in range(0, len(data), BYTES_A_CHUNK)]


def chunk_count(t):
    """How many chunks or parts the tree of a type has room for, beside a length or selector."""
    kind = t[0]
    if is_bits(t):
        return (t[1] + BITS_A_CHUNK - 1) // BITS_A_CHUNK
    if is_sequence(t):
        return (t[2] * fixed_size(t[1]) + BYTES_A_CHUNK - 1) // BYTES_A_CHUNK if is_basic(t[1]) else t[2]
    return len(t[1]) if kind == "container" else 1


def depth_for(count):
    return max(count - 1, 0).bit_length()


def depth(t):
    return depth_for(chunk_count(t))


def tree(t, v):
    """The tree that hash_tree_root of a value is the root of."""
    kind = t[0]
    if is_basic(t):
        return chunk(encode(t, v))
    if kind == "bitvector":
        return Full(depth(t), pack(bits_as_bytes(v)))
    if kind == "bitlist":
        return Pair(Full(depth(t), pack(bits_as_bytes(v))), number_chunk(len(v)))
    if kind == "container":
        return Full(depth(t), [tree(field, part) for field, part in zip(field_types(t), v)])
    if kind == "union":
        selector, inner = v
        option = t[1][selector]
        return Pair(Full(0, []) if option is None else tree(option, inner), number_chunk(selector))
    parts = pack(encode(t, v)) if is_basic(t[1]) else [tree(t[1], part) for part in v]
    return Full(depth(t), parts) if kind == "vector" else Pair(Full(depth(t), parts), number_chunk(len(v)))


def settled(node):
    """A full tree of depth 0 is its one part, or a zero chunk."""
    while isinstance(node, Full) and node.depth == 0:
        node = node.parts[0] if node.parts else ZERO
    return node


def children(node):
    """The two children of a tree, None of a chunk."""
    node = settled(node)
    if isinstance(node, bytes):
        return None
    if isinstance(node, Pair):
        return node
    half = 1 << node.depth - 1
    return Pair(Full(node.depth - 1, node.parts[:half]), Full(node.depth - 1, node.parts[half:]))


def at(node, index):
    """The tree at a generalized index, None where nothing is there."""
    if index < 1:
        return None
    for digit in bin(index)[3:]:
        both = children(node)
        if both is None:
            return None
        node = both[int(digit)]
    return node


def sha(left, right):
    return hashlib.sha256(left + right).digest()


def xor(left, right):
    """A hash of pairs that is worked out by hand: the left chunk turned by a byte, xor the right one."""
    return bytes(left[(i + 1) % BYTES_A_CHUNK] ^ right[i] for i in range(BYTES_A_CHUNK))


HASHES = {"sha": sha, "xor": xor}
ZERO_ROOTS = {}


def zero_root(levels, pair=sha):
    roots = ZERO_ROOTS.setdefault(pair, [ZERO])
    while len(roots) <= levels:
        roots.append(pair(roots[-1], roots[-1]))
    return roots[levels]


def root(node, pair=sha):
    if isinstance(node, bytes):
        return node
    if isinstance(node, Pair):
        return pair(root(node.left, pair), root(node.right, pair))
    return merkleize([root(part, pair) for part in node.parts], node.depth, pair)


def merkleize(roots, levels, pair=sha):
    """The root of the full tree over these roots."""
    for level in range(levels):
        if not roots:
            break
        if len(roots) % 2:
            roots = [*roots, zero_root(level, pair)]
        roots = [pair(roots[i], roots[i + 1]) for i in range(0, len(roots), 2)]
    return roots[0] if roots else zero_root(levels, pair)


def hash_tree_root(t, v, pair=sha):
    return root(tree(t, v), pair)


# ---- paths and generalized indices


def path_of(text):
    """The steps that a text spells, None where it spells none."""
    if text == "/":
        return []
    if not text.startswith("/"):
        return None
    steps = [step_of(part) for part in text[1:].split("/")]
    return None if None in steps else steps


def step_of(part):
    if part in (LEN, SEL):
        return part
    if part.startswith("#"):
        return ("option", int(part[1:])) if NUMBER.match(part[1:]) and int(part[1:]) < 2 ** 8 else None
    if NUMBER.match(part):
        return int(part) if int(part) < 2 ** 64 else None
    return part if NAME.match(part) else None


def text_of_path(path):
    return "/" + "/".join(f"#{step[1]}" if isinstance(step, tuple) else str(step) for step in path)


def step_type(t, step):
    """The type that a step leads to, None where it does not fit."""
    kind = t[0]
    if step == LEN:
        return uint(64) if kind in ("list", "bitlist") else None
    if step == SEL:
        return uint(8) if kind == "union" else None
    if isinstance(step, tuple):
        return t[1][step[1]] if kind == "union" and step[1] < len(t[1]) else None
    if isinstance(step, int):
        if is_sequence(t):
            return t[1] if step < t[2] else None
        return BOOLEAN if is_bits(t) and step < t[1] else None
    return dict(t[1]).get(step) if kind == "container" else None


def path_type(t, path):
    for step in path:
        t = None if t is None else step_type(t, step)
    return t


def step_index(index, t, step):
    """The generalized index of the part that a step leads to, from that of the whole."""
    if step in (LEN, SEL):
        return 2 * index + 1
    if isinstance(step, tuple):
        return 2 * index
    if isinstance(step, str):
        place = field_number(t, step)
    elif is_bits(t):
        place = step // BITS_A_CHUNK
    else:
        place = step * fixed_size(t[1]) // BYTES_A_CHUNK if is_basic(t[1]) else step
    return (2 * index if t[0] in ("list", "bitlist") else index) * 2 ** depth(t) + place


def spot(t, step):
    """Where in its chunk the part of a step lies: the place of its first byte, and of its bit there or None."""
    if isinstance(step, int) and is_bits(t):
        return step % BITS_A_CHUNK // 8, step % 8
    if isinstance(step, int) and is_basic(t[1]):
        return step * fixed_size(t[1]) % BYTES_A_CHUNK, None
    return 0, None


def generalized_index(t, path, index=1):
    """The generalized index of a path, None where it does not fit the type."""
    for step in path:
        part = step_type(t, step)
        if part is None:
            return None
        index, t = step_index(index, t, step), part
    return index


# ---- multiproofs


def ancestors(index):
    """The indices above one, up to that of the root."""
    while index > 1:
        index //= 2
        yield index


def helper_indices(indices):
    """The indices of the nodes that a multiproof of these leaves has, in descending order."""
    ways = set(indices) | {above for index in indices for above in ancestors(index)}
    return sorted({index ^ 1 for index in ways if index > 1} - ways, reverse=True)


def are_flat(indices):
    """Whether none of the indices is an ancestor of another."""
    return not any(above in indices for index in indices for above in ancestors(index))


def calculated(known, index=1, pair=sha):
    """The chunk at an index, by the chunks that a proof knows."""
    if index in known:
        return known[index]
    return pair(calculated(known, 2 * index, pair), calculated(known, 2 * index + 1, pair))


# ---- parts and edits of values


class Refused(Exception):
    """Why there is no part or no edit: the name of the refusal."""


def inner(t, v, step):
    """The part that a step leads to which fits; raises Refused("Absent")."""
    if step == LEN:
        return len(v)
    if step == SEL:
        return v[0]
    if isinstance(step, str):
        return v[field_number(t, step)]
    if isinstance(step, tuple):
        if v[0] != step[1] or v[1] is None:
            raise Refused("Absent")
        return v[1]
    if step >= len(v):
        raise Refused("Absent")
    return v[step]


def part_at(t, v, path):
    """The type and the value of the part at a path; raises Refused("BadPath") or Refused("Absent")."""
    if path_type(t, path) is None:
        raise Refused("BadPath")
    for step in path:
        t, v = step_type(t, step), inner(t, v, step)
    return t, v


def edited(t, v, path, edit):
    """The value with the part at the path edited; raises the first refusal."""
    if path_type(t, path) is None:
        raise Refused("BadPath")
    if not path:
        return edit(t, v)
    step, inside, part = path[0], step_type(t, path[0]), inner(t, v, path[0])
    if step in (LEN, SEL):
        # the refusals of the edit itself come first
        edit(inside, part)
        raise Refused("NotThat")
    new = edited(inside, part, path[1:], edit)
    if isinstance(step, tuple):
        return (v[0], new)
    place = step if isinstance(step, int) else field_number(t, step)
    return [*v[:place], new, *v[place + 1:]]


def set_to(new):
    return lambda t, v: new


def append(new):
    def edit(t, v):
        if t[0] not in ("list", "bitlist"):
            raise Refused("NotThat")
        if len(v) == t[-1]:
            raise Refused("Full")
        return [*v, new]

    return edit


def pop(t, v):
    if t[0] not in ("list", "bitlist"):
        raise Refused("NotThat")
    if not v:
        raise Refused("Empty")
    return v[:-1]


def choose(selector, inner):
    def edit(t, v):
        if t[0] != "union":
            raise Refused("NotThat")
        if selector >= len(t[1]):
            raise Refused("BadSelector")
        return (selector, inner)

    return edit


# ---- values as JSON


def json_of(t, v):
    """What stands for a value in JSON, as Python's json takes it."""
    kind = t[0]
    if kind == "uint":
        return str(v) if t[1] < 256 else "0x" + encode(t, v).hex()
    if kind == "boolean":
        return bool(v)
    if is_bits(t):
        return "".join("01"[bit] for bit in v)
    if kind == "container":
        return {name: json_of(field, part) for (name, field), part in zip(t[1], v)}
    if kind == "union":
        return [v[0], None if t[1][v[0]] is None else json_of(t[1][v[0]], v[1])]
    return "0x" + bytes(v).hex() if t[1] == BYTE else [json_of(t[1], part) for part in v]


def json_text(t, v):
    return json.dumps(json_of(t, v), sort_keys=True, separators=(",", ":"))
