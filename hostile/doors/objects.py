"""Python's objects for values: in each spelling that python/README.md says is taken, and those that it says are refused.

A form is that of a schema with all names put in, so that `byte` and `uint8` are two; a value is one of the plain model.
"""

from __future__ import annotations

import json
import random
from array import array
from decimal import Decimal
from typing import Any, Callable

from .careless import Lying
from .plain import ssz as plain

ARRAYS = {"uint16": "H", "uint32": "I", "uint64": "Q"}


def array_code(form: Any) -> str:
    """The code of arrays of such numbers; none of other forms."""
    return ARRAYS.get(form, "") if isinstance(form, str) else ""


OCTETS = ("byte", "uint8")


class Broken(Exception):
    """What an iterator raises in its midst."""


def forms_of(text: bytes) -> dict[str, Any]:
    """The forms of a schema by their names, with all names put in."""
    known: dict[str, Any] = {}
    for name, form in json.loads(text)["types"]:
        known[name] = _put_in(form, known)
    return known


def _put_in(form: Any, known: dict[str, Any]) -> Any:
    if form is None:
        return None
    if isinstance(form, str):
        return known.get(form, form)
    ((kind, of),) = form.items()
    if kind == "container":
        return {kind: [[name, _put_in(field, known)] for name, field in of]}
    if kind == "union":
        return {kind: [_put_in(option, known) for option in of]}
    return {kind: [_put_in(of[0], known), of[1]]} if kind in ("vector", "list") else form


def kind_of(form: Any) -> tuple[str, Any]:
    """The kind of a form, and what it is made of."""
    if isinstance(form, str):
        return ("boolean" if form == "boolean" else "uint"), form
    ((kind, of),) = form.items()
    return kind, of


def is_plain(form: Any) -> bool:
    """Whether values are Python's own: numbers, booleans, bytes."""
    kind, of = kind_of(form)
    return kind in ("uint", "boolean") or kind in ("vector", "list") and of[0] == "byte"


def below(form: Any, step: Any) -> Any:
    """The form that a step leads to."""
    kind, of = kind_of(form)
    if kind == "container":
        return dict(of)[step]
    if kind == "union":
        return of[step[1]]
    return of[0] if kind in ("vector", "list") else "boolean"


def shown(form: Any, value: Any) -> Any:
    """The object that `to_obj` gives."""
    kind, of = kind_of(form)
    if kind == "boolean":
        return bool(value)
    if kind == "uint":
        return str(value) if of in ("uint128", "uint256") else value
    if kind in ("bitvector", "bitlist"):
        return "0x" + plain.encode((kind, of), value).hex()
    if kind == "container":
        return {name: shown(field, part) for (name, field), part in zip(of, value)}
    if kind == "union":
        return {"selector": value[0], "value": None if of[value[0]] is None else shown(of[value[0]], value[1])}
    return "0x" + bytes(value).hex() if of[0] == "byte" else [shown(of[0], part) for part in value]


def own(form: Any, value: Any) -> Any:
    """A value that is Python's own as it is read."""
    kind, of = kind_of(form)
    return bytes(value) if kind in ("vector", "list") else bool(value) if kind == "boolean" else value


def spelled(draw: random.Random, form: Any, value: Any) -> Any:
    """The object of a value, in one of the spellings that are taken."""
    kind, of = kind_of(form)
    if kind == "boolean":
        return draw.choice([bool(value), int(value)])
    if kind == "uint":
        return draw.choice([value, value, str(value)])
    if kind in ("bitvector", "bitlist"):
        digits = "0x" + plain.encode((kind, of), value).hex()
        return draw.choice([list(value), tuple(value), iter(list(value)), [int(bit) for bit in value], digits, digits.upper().replace("X", "x")])
    if kind == "container":
        fields = [(name, spelled(draw, field, part)) for (name, field), part in zip(of, value)]
        draw.shuffle(fields)
        return dict(fields)
    if kind == "union":
        inner = None if of[value[0]] is None else spelled(draw, of[value[0]], value[1])
        return draw.choice([(value[0], inner), [value[0], inner], (str(value[0]), inner), {"selector": value[0], "value": inner}])
    return _sequence(draw, of[0], value)


def _sequence(draw: random.Random, element: Any, values: list[Any]) -> Any:
    """The object of a list's or vector's value."""
    if element in OCTETS and draw.random() < 0.8:
        data = bytes(values)
        return draw.choice([data, bytearray(data), memoryview(data), "0x" + data.hex(), array("B", data), memoryview(bytes(2 * len(data)) if not data else
                            b"".join(bytes([each, 0]) for each in data))[::2]])
    if array_code(element) and draw.random() < 0.4:
        return array(array_code(element), values)
    items = [spelled(draw, element, each) for each in values]
    return draw.choice([items, tuple(items), iter(items), (item for item in items)])


# ---- what is refused


def refused(draw: random.Random, form: Any, value: Any) -> Any:
    """An object that is no value of a form; `value` is one."""
    kind, of = kind_of(form)
    return draw.choice(_WRONG[kind](draw, of, value))


def _wrong_uint(draw: random.Random, of: str, value: int) -> list[Any]:
    bits = 8 if of == "byte" else int(of[4:])
    return [True, False, 1.0, "007", " 7", "7 ", "+7", "-1", "0x7", -1, 1 << bits, str(1 << bits), None, b"7", [1], Decimal(1), "", "9" * 5000, {}, object()]


def _wrong_boolean(*_: Any) -> list[Any]:
    return [1.0, "true", "1", "", 2, -1, None, b"\1", Decimal(1), [True], object()]


def _wrong_bits(is_list: bool) -> Callable[..., list[Any]]:
    def wrong(draw: random.Random, length: int, value: list[bool]) -> list[Any]:
        data = plain.encode(("bitlist" if is_list else "bitvector", length), value)
        many = "0x" + data.hex() + "ff"
        some: list[Any] = [b"\x0f", bytearray(b"\1"), {0, 1}, {0: 1}, [2], ["1"], [1.0], [None], "0x", "0x0", "01", "0x 1", None, 1, [True] * (length + 1)]
        if is_list:
            return [*some, "0x" + data.hex() + "00", data]
        padded = ["0x" + data[:-1].hex() + f"{data[-1] | 0x80:02x}"] * (length % 8 > 0)
        return [*some, many, [True] * (length - 1), data, *padded, *padded]

    return wrong


def _wrong_sequence(is_list: bool) -> Callable[..., list[Any]]:
    def wrong(draw: random.Random, of: Any, value: list[Any]) -> list[Any]:
        element, length = of
        some: list[Any] = [{1, 2}, {1: 2}, frozenset([1]), {1: 2}.keys(), None, 7, 1.5, object(), "12", "0x1", "0x 01", " 0x", Lying()]
        if element not in OCTETS:
            some += [b"\1\2", bytearray(b"\1"), memoryview(b"\1\2"), b"", "0x00", ""]
        if element in OCTETS or array_code(element):
            some += [array("h", [-1]), array("d", [1.0]), [1, 2.0]]
        if not is_list or length < 40:
            some.append([spelled(draw, element, plain.default(plain.type_of(element)))] * (length + 1))
        if not is_list:
            some += [[], [spelled(draw, element, value[0])] * (length - 1)]
        if value:
            some.append([*(spelled(draw, element, each) for each in value[:-1]), refused(draw, element, value[-1])])
        return some

    return wrong


def _wrong_container(draw: random.Random, of: Any, value: list[Any]) -> list[Any]:
    good = {name: spelled(draw, field, part) for (name, field), part in zip(of, value)}
    (name, field), part = draw.choice(list(zip(of, value)))
    less = {key: each for key, each in good.items() if key != name}
    return [less, {**good, "nothing": 0}, {**good, 1: 0}, list(good.values()), list(good.items()), None, "x", b"", 0, {**less, name: refused(draw, field, part)},
            set(good)]


def _wrong_union(draw: random.Random, of: Any, value: tuple[int, Any]) -> list[Any]:
    good = spelled(draw, {"union": of}, value)
    inner = good["value"] if isinstance(good, dict) else good[1]
    some: list[Any] = [(item, inner) for item in (True, False, 1.9, b"1", " 1", "01", "+1", Decimal(1), len(of), 256, -1, None)]
    some += [(value[0],), (value[0], inner, inner), {"selector": value[0]}, {"selector": value[0], "value": inner, "more": 1}, None, 0, "00", {0, 1}, iter((0, None))]
    return [*some, (value[0], 0)] if of[value[0]] is None else [*some, (value[0], refused(draw, of[value[0]], value[1]))]


_WRONG: dict[str, Callable[..., list[Any]]] = {
    "uint": _wrong_uint, "boolean": _wrong_boolean, "bitvector": _wrong_bits(False), "bitlist": _wrong_bits(True), "vector": _wrong_sequence(False),
    "list": _wrong_sequence(True), "container": _wrong_container, "union": _wrong_union,
}
