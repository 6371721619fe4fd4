"""States of deneb drawn at random: their encodings, and their roots from these by rows/ssz.py."""
import os
import random
import sys

from measure import DENEB, TOP

sys.path.append(os.path.join(TOP, "rows"))
import ssz  # noqa: E402

with open(DENEB, encoding="ascii") as file:
    TYPES = ssz.types_of(file.read())

# How many elements a list of this name has, where it is not a list of all validators.
FEW = {"historical_roots": 700, "eth1_data_votes": 1000, "historical_summaries": 300, "extra_data": 20}


def zeros_in(t):
    """The places of the bytes of a type of fixed size that are left zero: its booleans and bits."""
    if t[0] == "boolean":
        return [0]
    if t[0] == "bitvector":
        return range(ssz.fixed_size(t))
    if t[0] != "container":
        return []
    types, place, zeros = ssz.field_types(t), 0, []
    for part in types:
        zeros += [place + zero for zero in zeros_in(part)]
        place += ssz.fixed_size(part)
    return zeros


def drawn(t, count, name=""):
    """The encoding of a value of a type of deneb's state, with so many elements of lists but for those of FEW."""
    if t[0] == "list" or ssz.fixed_size(t):
        element, length = (t[1], FEW.get(name, count)) if t[0] == "list" else (t, 1)
        size = ssz.fixed_size(element)
        data = bytearray(random.randbytes(size * length))
        for place in zeros_in(element):
            data[place::size] = bytes(length)
        return bytes(data)
    parts = [(ssz.fixed_size(part), drawn(part, count, field)) for field, part in t[1]]
    heads, bodies, place = [], [], sum(size or ssz.OFFSET for size, _ in parts)
    for size, part in parts:
        heads.append(part if size else ssz.le(place, ssz.OFFSET))
        bodies += [] if size else [part]
        place += 0 if size else len(part)
    return b"".join(heads + bodies)


def root(t, data):
    """hash_tree_root of the value with this encoding, with no value made."""
    if ssz.is_basic(t):
        return ssz.chunk(data)
    if t[0] == "container":
        types = ssz.field_types(t)
        parts = [root(part, data[start:end]) for part, (start, end) in zip(types, ssz.scopes(types, data))]
        return ssz.merkleize(parts, ssz.depth(t))
    if t[0] == "bitvector" or ssz.is_basic(t[1]):
        content = ssz.merkleize(ssz.pack(data), ssz.depth(t))
    else:
        size = ssz.fixed_size(t[1])
        parts = [root(t[1], data[at:at + size]) for at in range(0, len(data), size)]
        content = ssz.merkleize(parts, ssz.depth(t))
    if t[0] != "list":
        return content
    return ssz.sha(content, ssz.number_chunk(len(data) // ssz.fixed_size(t[1])))
