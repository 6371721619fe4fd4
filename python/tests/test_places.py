"""The path of a first fault: a plain walk over all parts says the same, and a bad message costs hardly more than a good one."""

from __future__ import annotations

import itertools
import json
import random
import struct
import time
import unittest
from array import array
from typing import Any, Callable, Iterator, NamedTuple, Optional

import ssz
from ssz.ethereum import deneb
from ssz.forms import Bits, Boolean, Container, Form, Series, Union
from ssz.places import place_of

from . import draws

TYPES, TURNS = 160, 60
#: Types whose parts may be without bytes, as equal offsets say.
EMPTY_PARTS: list[Any] = [
    {"container": [["a", {"list": ["uint8", 4]}], ["b", {"bitlist": 8}], ["c", {"union": [None, "uint16"]}],
                   ["d", {"list": [{"bitlist": 9}, 3]}], ["e", {"container": [["x", "boolean"], ["y", {"bitlist": 3}]]}]]},
    {"container": [["a", "uint8"], ["b", {"bitlist": 8}], ["c", {"list": ["uint16", 4]}], ["d", {"bitlist": 8}]]},
    {"container": [["a", {"list": ["uint8", 4]}], ["b", {"list": ["boolean", 4]}], ["c", {"vector": [{"bitlist": 4}, 2]}]]},
    {"list": [{"bitlist": 8}, 5]},
    {"list": [{"list": ["uint16", 3]}, 5]},
    {"list": [{"container": [["a", {"bitlist": 8}], ["b", "boolean"]]}, 5]},
    {"vector": [{"union": [None, {"bitlist": 4}, "boolean"]}, 3]},
    {"vector": [{"list": [{"list": ["boolean", 2]}, 3]}, 3]},
]


class Scope(NamedTuple):
    """A type and a run of bytes, with the path that leads there. The type None is the option None of a union."""

    form: Optional[Form]
    start: int
    end: int
    path: str


class Fault(NamedTuple):
    """A first fault, as the library and the table tell it."""

    code: int
    position: int
    path: str


def number(data: bytes, at: int) -> int:
    """The number that four bytes say."""
    return struct.unpack_from("<I", data, at)[0]


def offsets(data: bytes, places: list[int], first: bool, end: int) -> Optional[tuple[int, int]]:
    """The first fault of offsets that stand at these places, in a scope of so many bytes: `first` says that the first one is right."""
    if not first:
        return 4, places[0]
    for at, following in zip(places, places[1:]):
        if number(data, following) > end:
            return 5, following
        if number(data, following) < number(data, at):
            return 6, following
    return None


def of_fixed(form: Form, data: bytes, start: int, count: int) -> Optional[tuple[int, int]]:
    """The first fault of the head of a scope of fixed size."""
    assert form.size is not None
    if count != form.size:
        return (1, start) if count < form.size else (2, start + form.size)
    last = start + form.size - 1
    if isinstance(form, Boolean) and data[start] > 1:
        return 3, start
    if isinstance(form, Bits) and form.length % 8 and data[last] >> form.length % 8:
        return 9, last
    return None


def of_bitlist(form: Bits, data: bytes, start: int, count: int) -> Optional[tuple[int, int]]:
    """The first fault of a bitlist."""
    if count == 0 or data[start + count - 1] == 0:
        return 10, start + max(0, count - 1)
    return (8, start) if 8 * (count - 1) + data[start + count - 1].bit_length() - 1 > form.length else None


def of_list(form: Series, data: bytes, start: int, count: int) -> Optional[tuple[int, int]]:
    """The first fault of the head of a list."""
    size = form.element.size
    if size is not None:
        return (7, start) if count % size else (8, start) if count // size > form.length else None
    if count < 4:
        return (1, start) if count else None
    first = number(data, start)
    if first == 0 or first % 4:
        return 4, start
    if first > count:
        return 5, start
    return (8, start) if first // 4 > form.length else offsets(data, list(range(start, start + first, 4)), True, count)


def fields_of(form: Form) -> list[tuple[str, Form]]:
    """The parts of a container or a vector, with their steps."""
    return list(form.fields.items()) if isinstance(form, Container) else [(str(place), form.element) for place in range(form.length)]


def starts_of(form: Form, start: int) -> list[int]:
    """Where the fixed parts of a container or a vector begin, and where the last one ends."""
    return list(itertools.accumulate((4 if each.size is None else each.size for _, each in fields_of(form)), initial=start))


def of_fields(form: Form, data: bytes, start: int, count: int) -> Optional[tuple[int, int]]:
    """The first fault of the head of a container or a vector of variable size."""
    starts = starts_of(form, start)
    if count < starts[-1] - start:
        return 1, start
    places = [at for at, (_, each) in zip(starts, fields_of(form)) if each.size is None]
    return offsets(data, places, number(data, places[0]) == starts[-1] - start, count)


def head_fault(scope: Scope, data: bytes) -> Optional[tuple[int, int]]:
    """The first fault of the head of a scope, by the table of docs/formats.md, The bytes of a value."""
    form, start, count = scope.form, scope.start, scope.end - scope.start
    if form is None:
        return (2, start) if count else None
    if form.size is not None:
        return of_fixed(form, data, start, count)
    if isinstance(form, Union):
        return (1, start) if count == 0 else (11, start) if data[start] >= len(form.options) else None
    if isinstance(form, Bits):
        return of_bitlist(form, data, start, count)
    return of_list(form, data, start, count) if isinstance(form, Series) and form.is_list else of_fields(form, data, start, count)


def cut(scope: Scope, data: bytes, named: list[tuple[str, Form]], starts: list[int]) -> Iterator[Scope]:
    """The parts of a scope whose fixed parts begin at these bytes: one of variable size goes to where the next one of these begins."""
    begins = [at if form.size is not None else scope.start + number(data, at) for at, (_, form) in zip(starts, named)]
    ends = [begin for begin, (_, form) in zip(begins, named) if form.size is None][1:] + [scope.end]
    for begin, (step, form) in zip(begins, named):
        yield Scope(form, begin, ends.pop(0) if form.size is None else begin + form.size, f"{scope.path}/{step}")


def parts(scope: Scope, data: bytes) -> Iterator[Scope]:
    """The parts of a scope whose head has no fault. The option None has no path of its own."""
    form, start, end = scope.form, scope.start, scope.end
    if isinstance(form, Union):
        option = form.options[data[start]]
        yield Scope(option, start + 1, end, scope.path + (f"/#{data[start]}" if option else ""))
    elif isinstance(form, Container) or isinstance(form, Series) and not form.is_list:
        yield from cut(scope, data, fields_of(form), starts_of(form, start))
    elif isinstance(form, Series) and start < end:
        count = number(data, start) // 4 if form.element.size is None else (end - start) // form.element.size
        starts = list(range(start, end, form.element.size or 4))[:count]
        yield from cut(scope, data, [(str(place), form.element) for place in range(count)], starts)


def first_fault(scope: Scope, data: bytes) -> Optional[Fault]:
    """The first fault of a scope: that of its head, else that of its parts in order."""
    found = head_fault(scope, data)
    if found:
        return Fault(*found, scope.path or "/")
    return next(filter(None, (first_fault(part, data) for part in parts(scope, data))), None)


def fault_of(form: Form, data: bytes) -> Optional[Fault]:
    """The first fault of bytes."""
    return first_fault(Scope(form, 0, len(data), ""), data)


def broken(draw: random.Random, data: bytes) -> bytes:
    """Bytes like others: with another byte, an offset that is another one's or a small one, or as `draws.changed` has them."""
    made = bytearray(data)
    for _ in range(draw.randint(1, 2)):
        at = draw.randrange(len(made)) if made else 0
        way = draw.randrange(5)
        if way == 0:
            made[at : at + 1] = draw.choice([b"\0", b"\2", b"\xff", bytes([draw.randrange(256)])])
        elif way == 1 and len(made) > 8:
            at, other = at & ~3, draw.randrange(0, min(len(made), 40), 4)
            made[at : at + 4] = made[other : other + 4]
        elif way == 2:
            made[at & ~3 : (at & ~3) + 4] = struct.pack("<I", draw.randrange(len(made) + 3))
    return draws.changed(draw, bytes(made)) if draw.random() < 0.3 else bytes(made)


def with_equal_offsets(draw: random.Random, form: Form) -> bytes:
    """Bytes of a container or vector of variable size, or of a list of such parts, with offsets in order of which many are equal."""
    count = draw.randint(1, 5)
    named = [("", form.element)] * count if isinstance(form, Series) and form.is_list else fields_of(form)
    size = sum(4 if each.size is None else each.size for _, each in named)
    ends = sorted(draw.choice([0, 0, 0, 1, 3]) + draw.choice([0, 0, 2]) for each in named)
    head = b"".join(struct.pack("<I", size + (end if place else 0)) if each.size is None else bytes(each.size)
                    for place, (end, (_, each)) in enumerate(zip([0, *ends], named)))
    tail = bytes(draw.choice([0, 1, 1, 2, 3, 8]) for _ in range(ends[-1] + draw.randrange(3)))
    return head + tail


def cases(schema: ssz.Schema, seed: int) -> Iterator[tuple[ssz.Type, bytes]]:
    """Bytes of all types of a schema in turn, most of which are at fault."""
    draw = random.Random(seed)
    for _ in range(TURNS):
        for name in schema:
            kind = schema.type(name)
            yield kind, broken(draw, kind.form.encode(draws.value(draw, kind.form)))
    for _ in range(60 * TURNS):
        kind = schema.type(f"E{draw.randrange(len(EMPTY_PARTS))}")
        yield kind, with_equal_offsets(draw, kind.form)


def drawn_schema() -> ssz.Schema:
    """Drawn types, and those with parts without bytes."""
    types = draws.schema(random.Random(60), TYPES)
    types["types"] += [[f"E{place}", form] for place, form in enumerate(EMPTY_PARTS)]
    return ssz.Schema(types)


class Paths(unittest.TestCase):
    """The path of the first fault."""

    def test_it_is_that_of_a_plain_walk(self) -> None:
        found = set()
        for kind, data in cases(drawn_schema(), 61):
            wanted = fault_of(kind.form, data)
            if wanted is None:
                kind.check(data)
                continue
            with self.assertRaises(ssz.InvalidBytes) as caught:
                kind.check(data)
            error, spelled = caught.exception, (json.dumps(str(kind.form)), data.hex())
            self.assertEqual((error.code, error.position), wanted[:2], spelled)
            self.assertEqual(place_of(kind.form, data, error.position, error.code), wanted.path, spelled)
            self.assertIn(f", in {wanted.path})" if wanted.path != "/" else f", at byte {wanted.position})", str(error))
            found.add((error.code, len(wanted.path.split("/")) - 1 if wanted.path != "/" else 0))
        self.assertGreaterEqual(found, {(code, depth) for code in range(1, 12) for depth in range(3)})

    def test_no_bytes_position_or_code_is_an_exception(self) -> None:
        draw = random.Random(62)
        for kind, data in cases(drawn_schema(), 63):
            data = draw.choice([data, draw.randbytes(draw.randrange(40)), b""])
            position = draw.choice([draw.randint(-9, len(data) + 9), 1 << 64, -1 << 70, 1 << 20000])
            path = place_of(kind.form, data, position, draw.choice([*range(-1, 14), 1 << 32]))
            self.assertTrue(path.startswith("/"), path)


class Cost(unittest.TestCase):
    """What a bad message costs, beside a good one as long."""

    def best(self, does: Callable[[], object]) -> float:
        """The least processor time of several."""
        times = []
        for _ in range(7):
            start = time.process_time()
            does()
            times.append(time.process_time() - start)
        return min(times)

    def compare(self, spelled: Any, good: bytes, bad: bytes, *words: str, known: Any = ()) -> None:
        """Both are checked in one run: the bad one, whose error has these words, in at most twice the time of the good one."""
        kind = ssz.Schema({"ssz": 1, "types": [*known, ["T", spelled]]}).type("T")

        def refused() -> str:
            with self.assertRaises(ssz.InvalidBytes) as caught:
                kind.check(bad)
            return str(caught.exception)

        for word in words:
            self.assertIn(word, refused())
        wanted, got = self.best(lambda: kind.check(good)), self.best(refused)
        self.assertLess(got, 2 * wanted + 0.01, f"{got:.4f} s, and {wanted:.4f} s where nothing is wrong")

    def test_the_last_of_many_validators(self) -> None:
        known = json.loads(deneb.text)["types"]
        one, count = deneb.Validator().encode_bytes(), 400_000
        fields = deneb.type("Validator").form.fields
        slashed = sum(fields[name].size for name in itertools.takewhile("slashed".__ne__, fields))
        bad = one * (count - 1) + one[:slashed] + b"\2" + one[slashed + 1 :]
        self.compare({"list": ["Validator", 1 << 40]}, one * count, bad, "F3 BadBool", f"/{count - 1}/slashed", known=known)

    def test_the_last_of_many_lists(self) -> None:
        count = 2_400_000
        heads = array("I", range(4 * count, 20 * count, 16)).tobytes()
        self.compare({"list": [{"list": ["uint64", 4]}, 1 << 30]}, heads + bytes(16 * count), heads + bytes(16 * count - 1),
                     "F7 Ragged", f", in /{count - 1})")

    def test_the_last_of_many_bitlists(self) -> None:
        count = 8_000_000
        heads = array("I", range(4 * count, 6 * count, 2)).tobytes()
        bits = b"\5\1" * count
        self.compare({"list": [{"bitlist": 12}, 1 << 30]}, heads + bits, heads + bits[:-1] + b"\0", "F10 NoDelimiter", f", in /{count - 1})")

    def test_many_bitlists_without_bytes(self) -> None:
        count = 8_000_000
        heads = array("I", [4 * count]).tobytes() * count
        good = array("I", range(4 * count, 5 * count)).tobytes() + b"\1" * count
        self.compare({"list": [{"bitlist": 12}, 1 << 30]}, good, heads, "F10 NoDelimiter", ", in /0)")

    def test_the_last_of_many_fields(self) -> None:
        count = 100_000
        fields = [[f"f{place}", {"bitlist": 8} if place % 2 else "boolean"] for place in range(count)]
        size, pairs = 5 * count // 2, count // 2
        good = b"".join(struct.pack("<BI", 1, size + place) for place in range(pairs)) + b"\1" * pairs
        self.compare({"container": fields}, good, good[:-1] + b"\0", "F10 NoDelimiter", f", in /f{count - 1})")
        at = size - 5
        self.compare({"container": fields}, good, good[:at] + b"\2" + good[at + 1 :], "F3 BadBool", f", in /f{count - 2})")


if __name__ == "__main__":
    unittest.main()
