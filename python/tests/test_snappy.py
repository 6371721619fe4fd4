"""Snappy blocks, good and broken, drawn from a seed: the code here, python3-snappy where it is there, and a plain reader say the same."""

from __future__ import annotations

import random
import tracemalloc
import unittest
from typing import Callable, Iterator, Optional

from ssz.command import snappy

try:
    from snappy import uncompress  # type: ignore[import]
except ImportError:
    uncompress = None

GOOD, BROKEN = 500, 10000
#: The most bytes that a drawn block makes.
MOST = 600


def varint(number: int, more: int = 0) -> bytes:
    """A number in groups of 7 bits, the lowest first, with so many groups of zeros after it."""
    groups = [number >> 7 * place & 127 for place in range(max(1, (number.bit_length() + 6) // 7))] + [0] * more
    return bytes([*(group | 128 for group in groups[:-1]), groups[-1]])


def literal(data: bytes, size: int) -> bytes:
    """A literal, whose length stands in so many bytes after its tag."""
    count = len(data) - 1
    return bytes([59 + size << 2]) + count.to_bytes(size, "little") + data if size else bytes([count << 2]) + data


def copy(offset: int, count: int, size: int) -> bytes:
    """A copy, whose offset stands in so many bytes; of one byte, three bits more stand in the tag."""
    if size == 1:
        return bytes([(offset >> 8) << 5 | (count - 4) << 2 | 1, offset & 255])
    return bytes([(count - 1) << 2 | (2 if size == 2 else 3)]) + offset.to_bytes(size, "little")


def drawn_literal(draw: random.Random, out: bytearray) -> bytes:
    """A literal of any kind, which is put after the bytes that are there."""
    size = draw.randrange(5)
    data = draw.randbytes(draw.randint(1, draw.choice([3, 60] if size == 0 else [3, 60, 256] if size == 1 else [3, 300])))
    out += data
    return literal(data, size)


def drawn_copy(draw: random.Random, out: bytearray) -> bytes:
    """A copy of any kind, which is put after the bytes that are there."""
    size = draw.choice([1, 2, 4])
    count = draw.randint(4, 11) if size == 1 else draw.randint(1, 64)
    offset = draw.randint(1, min(len(out), draw.choice([1, 3, 70, 2047])))
    for _ in range(count):
        out.append(out[-offset])
    return copy(offset, count, size)


def block(draw: random.Random) -> tuple[bytes, bytes]:
    """A block, and the bytes of which it is one."""
    out, elements = bytearray(), bytearray()
    for _ in range(draw.randrange(12)):
        one = drawn_copy if out and draw.random() < 0.6 else drawn_literal
        if len(out) <= MOST // 2:
            elements += one(draw, out)
    return varint(len(out), draw.choice([0, 0, 0, 1])) + bytes(elements), bytes(out)


def changed(draw: random.Random, data: bytes) -> bytes:
    """A block with a byte changed, taken out or put in, cut off, with elements of another one, or with another length."""
    at = draw.randrange(len(data))
    ways: list[Callable[[], bytes]] = [
        lambda: data[:at] + bytes([data[at] ^ 1 << draw.randrange(8)]) + data[at + 1 :],
        lambda: data[:at] + bytes([draw.choice([0, 1, 2, 3, 127, 128, 252, 253, 254, 255])]) + data[at + 1 :],
        lambda: data[:at] + data[at + 1 :],
        lambda: data[:at] + draw.randbytes(draw.randint(1, 5)) + data[at:],
        lambda: data[:at],
        lambda: data[:at] + b"\xfc\xff\xff\xff\xff" + data[at:],
        lambda: data + copy(draw.choice([0, 1, 2]), 4, draw.choice([1, 2, 4])),
        lambda: varint(draw.choice([0, 1, 70, 1 << 20, (1 << 32) - 1, 1 << 32, 1 << 35]), draw.randrange(3)) + data[1:],
        lambda: data[:1] + block(draw)[0][1:],
    ]
    return draw.choice(ways)()


def broken(seed: int) -> Iterator[bytes]:
    """Blocks most of which are at fault."""
    draw = random.Random(seed)
    for _ in range(BROKEN):
        data = block(draw)[0]
        for _ in range(draw.randint(1, 2)):
            data = changed(draw, data or b"\0")
        yield data


def told(data: bytes) -> Optional[tuple[int, bytes]]:
    """The length that a block tells, and its elements; None where it tells none."""
    for size in range(1, min(5, len(data)) + 1):
        if data[size - 1] < 128:
            length = sum((byte & 127) << 7 * place for place, byte in enumerate(data[:size]))
            return (length, data[size:]) if length < 1 << 32 else None
    return None


def next_element(data: bytes) -> tuple[int, Optional[int], bytes]:
    """Of the first element: how many bytes it makes, its offset (None: a literal), and what follows. IndexError where it is cut off."""
    kind, rest = data[0] & 3, data[0] >> 2
    size = (max(0, rest - 59), 1, 2, 4)[kind]
    number = sum(data[1 + place] << 8 * place for place in range(size))
    if kind == 0:
        return 1 + (number if size else rest), None, data[1 + size :]
    return (4 + rest % 8, number + 256 * (rest // 8), data[2:]) if kind == 1 else (1 + rest, number, data[1 + size :])


def plain(data: bytes) -> Optional[bytes]:
    """The bytes of a block, byte by byte as google/snappy's format_description.txt says; None where it is none."""
    head = told(data)
    if head is None:
        return None
    (length, data), out = head, bytearray()
    try:
        while data:
            count, offset, data = next_element(data)
            if count > length or offset is not None and not 0 < offset <= len(out):
                return None
            for place in range(count):
                out.append(data[place] if offset is None else out[-offset])
            data = data if offset is not None else data[count:]
    except IndexError:
        return None
    return bytes(out) if len(out) == length else None


def kinds(data: bytes) -> set[tuple[int, bool]]:
    """The kinds of the elements of a block: literals by how many bytes their length has, copies by their tag's, and whether they overlap."""
    found, (_, data) = set(), told(data) or (0, b"")
    while data:
        tag, (count, offset, data) = data[0], next_element(data)
        found.add((max(59, tag >> 2) if offset is None else tag & 3, offset is not None and offset < count))
        data = data if offset is not None else data[count:]
    return found


def answer(does: Callable[[bytes], bytes], data: bytes) -> Optional[bytes]:
    """What is read of a block, or None where it is refused."""
    try:
        return does(data)
    except ValueError:
        return None


#: Blocks at fault, by what is wrong with them.
FAULTS = {
    "no byte": b"",
    "a length cut off": b"\x81\x80",
    "a length of 6 bytes": varint(1, 5) + literal(b"a", 0),
    "a length with bits above 32": b"\x81\x80\x80\x80\x10" + literal(b"a", 0),
    "a length above 2^32 - 1": varint(1 << 32) + literal(b"a", 0),
    "a length that is too great": varint((1 << 32) - 1) + literal(b"a", 0),
    "a length that is one too great": varint(2) + literal(b"a", 0),
    "a literal longer than told": varint(1) + literal(b"ab", 0),
    "a copy longer than told": varint(4) + literal(b"a", 0) + copy(1, 4, 1),
    "an element after the last": varint(1) + literal(b"a", 0) * 2,
    "a literal cut off": varint(3) + literal(b"abc", 0)[:-1],
    "a literal's length cut off": varint(300) + b"\xf4\x2b",
    "a literal of 2^32 bytes": varint(1) + b"\xfc\xff\xff\xff\xff" + literal(b"a", 0),
    "a copy cut off": varint(5) + literal(b"a", 0) + copy(1, 4, 4)[:-1],
    "a copy of one byte cut off": varint(5) + literal(b"a", 0) + copy(1, 4, 1)[:-1],
    "offset 0": varint(5) + literal(b"a", 0) + copy(0, 4, 1),
    "offset 0 in 2 bytes": varint(5) + literal(b"a", 0) + copy(0, 4, 2) + b"bcde",
    "offset 0 in 4 bytes": varint(5) + literal(b"a", 0) + copy(0, 4, 4),
    "an offset before the first byte": varint(5) + literal(b"a", 0) + copy(2, 4, 1),
    "an offset of 2^32 - 1": varint(5) + literal(b"a", 0) + copy((1 << 32) - 1, 4, 4),
}
READERS = {"decompress": snappy.decompress, "the code here": snappy._decompressed}


class Snappy(unittest.TestCase):
    """What is read of blocks."""

    def test_good_blocks(self) -> None:
        draw, found = random.Random(50), set()
        for _ in range(GOOD):
            data, wanted = block(draw)
            found |= kinds(data)
            for name, does in READERS.items():
                self.assertEqual(does(data), wanted, (name, data.hex()))
            self.assertEqual(plain(data), wanted, data.hex())
        self.assertEqual(found, {(59 + size, False) for size in range(5)} | {(tag, does) for tag in (1, 2, 3) for does in (False, True)})

    def test_copies_that_overlap(self) -> None:
        for offset in range(1, 80):
            start = bytes(range(80))
            for count in range(1, 65):
                data = varint(80 + count) + literal(start, 1) + copy(offset, count, 2)
                wanted = start + (start[-offset:] * count)[:count]
                self.assertEqual([does(data) for does in READERS.values()], [wanted] * 2)

    def test_faults(self) -> None:
        for fault, data in FAULTS.items():
            for name, does in READERS.items():
                with self.subTest(fault, reader=name):
                    self.assertRaises(ValueError, does, data)

    def test_broken_blocks(self) -> None:
        count = 0
        for data in broken(51):
            wanted = plain(data)
            count += wanted is None
            for name, does in READERS.items():
                self.assertEqual(answer(does, data), wanted, (name, data.hex()))
        self.assertTrue(BROKEN // 2 < count < BROKEN * 19 // 20, count)

    def test_no_more_is_made_than_told(self) -> None:
        long, room = literal(bytes(1 << 24), 4), 1 << 18
        for length, elements in [(5, long), (5, literal(b"a", 0) + long), (1 << 23, long[: 1 << 20]), ((1 << 32) - 1, long[: 1 << 20])]:
            data = varint(length) + elements
            for name, does in READERS.items():
                tracemalloc.start()
                self.assertRaises(ValueError, does, data)
                peak = tracemalloc.get_traced_memory()[1]
                tracemalloc.stop()
                self.assertLess(peak, min(length, 1 << 23) + room, (name, length))

    def test_python3_snappy_agrees(self) -> None:
        if uncompress is None:
            print("left out: python3-snappy (Debian's) is not here, so that its answers are not compared")
            return
        self.assertIs(snappy._uncompress(), uncompress)
        for data in broken(52):
            self.assertEqual(answer(snappy.decompress, data), answer(snappy._decompressed, data), data.hex())


if __name__ == "__main__":
    unittest.main()
