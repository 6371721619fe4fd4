"""The types of a schema as Python sees them: their names, how values are written as bytes, and where each part lies.

The library decides what is a value; the code here only turns bytes that it accepted into Python's objects, and objects into
bytes that it then checks.
"""

from __future__ import annotations

import functools
import itertools
import sys
from array import array
from collections.abc import Mapping
from typing import Any, Iterator, NamedTuple, Optional, Sequence, Union as Either

from . import given
from .errors import BadValue

_ARRAYS = {1: "B", 2: "H", 4: "I", 8: "Q"} if sys.byteorder == "little" else {}
_SCRIPTS = "the JSON of scripts (loadjson, Type.of_json)"
_DIGITS, _BITS = bytes.maketrans(b"\0\1", b"01"), bytes.maketrans(b"01", b"\0\1")


#: The encodings of elements: side by side where each has the same length.
Elements = Either[bytes, "list[bytes]"]


class Part(NamedTuple):
    """A part of a value: the step of the path that leads to it, its type, and where its bytes begin and end."""

    step: str
    form: Form
    start: int
    end: int


class Shaped:
    """A value of a type, whose encoding the library knows."""

    __slots__ = ()
    _form: Form

    def encode_bytes(self) -> bytes:
        """The encoding."""
        raise NotImplementedError


class Form:
    """A type. `size` is the length of all its encodings, or None where they differ."""

    size: Optional[int] = None
    name = ""

    @property
    def least(self) -> int:
        """The length of the shortest encoding."""
        return self.size or 0

    def __repr__(self) -> str:
        return self.name

    @property
    def shape(self) -> str:
        """The same text for types that are the same but for the names of containers."""
        return self.name

    def encode(self, value: Any, path: str = "") -> bytes:
        """The bytes of an object. Raises BadValue, with the path of what is wrong."""
        data = self._of_view(value, path) if isinstance(value, Shaped) else self._encoded(value, path)
        if self.size is not None and len(data) != self.size:
            raise self.wrong(value, f"a value of {self.size} bytes, and not of {len(data)}", path)
        return data

    def _of_view(self, value: Shaped, path: str) -> bytes:
        if value._form.shape != self.shape:
            raise BadValue(f"a {value._form.name} was given where a {self.name} is wanted", path=path, type=self.name)
        return value.encode_bytes()

    def _encoded(self, value: Any, path: str) -> bytes:
        raise NotImplementedError

    def decode(self, data: bytes) -> Any:
        """The object of bytes that the library has accepted."""
        raise NotImplementedError

    def shown(self, value: Any, api: bool = False) -> Any:
        """The object of a decoded value that JSON has: as in the specifications' test vectors, or as in the Beacon API."""
        return value

    def parts(self, data: bytes, start: int, end: int) -> Iterator[Part]:
        """The parts one level down; none of a basic type, of bytes and of bits."""
        return iter(())

    def step(self, name: str) -> Optional[Form]:
        """The type that a step of a path leads to, or None where it leads nowhere."""
        return None

    def wrong(self, value: Any, wanted: str, path: str) -> BadValue:
        """The error of an object of another kind."""
        return BadValue(f"{said_of(value)} is no {self.name}", f"Give {wanted}.", path=path)

    def counted(self, count: int, wanted: str, path: str) -> None:
        """Sees that there are as many elements or bits as may be, of a vector or of a list."""
        length, is_list = self.length, self.is_list  # type: ignore[attr-defined]
        if count > length or not is_list and count < length:
            raise BadValue(f"there are {count} {wanted}", f"Give {'at most ' if is_list else ''}{length} {wanted} to a {self.name}.", path=path)


class Uint(Form):
    """An unsigned number. `is_byte` says that the schema spells it byte."""

    def __init__(self, size: int, is_byte: bool = False) -> None:
        self.size: int = size
        self.is_byte = is_byte
        self.name = "byte" if is_byte else f"uint{8 * size}"

    def _encoded(self, value: Any, path: str) -> bytes:
        number = given.number_of(value)
        if number is None and isinstance(value, str) and value.startswith("0x"):
            raise self.wrong(value, f"a whole number; 0x and digits are {_SCRIPTS} for a uint256", path)
        if number is None or not 0 <= number < 1 << 8 * self.size:
            raise self.wrong(value, f"a whole number from 0 to {(1 << 8 * self.size) - 1}", path)
        return number.to_bytes(self.size, "little")

    def decode(self, data: bytes) -> int:
        return int.from_bytes(data, "little")

    def shown(self, value: int, api: bool = False) -> Any:
        return str(value) if api or self.size > 8 else value


class Boolean(Form):
    """True or False."""

    size, name = 1, "boolean"

    def _encoded(self, value: Any, path: str) -> bytes:
        truth = given.truth_of(value)
        if truth is None:
            raise self.wrong(value, "True or False", path)
        return bytes([truth])

    def decode(self, data: bytes) -> bool:
        return data != b"\0"


class Bits(Form):
    """A bitvector or, with a limit, a bitlist."""

    def __init__(self, length: int, is_list: bool) -> None:
        self.length, self.is_list = length, is_list
        self.size = None if is_list else (length + 7) // 8
        self.name = f"Bit{'list' if is_list else 'vector'}[{length}]"

    def _encoded(self, value: Any, path: str) -> bytes:
        if isinstance(value, str):
            return self._of_digits(value, path)
        bits = given.truths_of(value)
        if bits is None:
            raise self.wrong(value, "an iterable of True and False, or a string of 0x and the digits of the encoding", path)
        return self.packed(bits, path)

    def packed(self, bits: bytes, path: str) -> bytes:
        """The encoding of bits, a byte each."""
        self.counted(len(bits), "bits", path)
        digits = bits.translate(_DIGITS)[::-1]
        number = int(b"1" + digits if self.is_list else digits, 2)
        return number.to_bytes((len(bits) + 8) // 8 if self.size is None else self.size, "little")

    def unpacked(self, data: bytes) -> bytes:
        """The bits of an encoding, a byte each."""
        digits = bin(int.from_bytes(data, "little"))[2:]
        digits = digits[1:] if self.is_list else digits.zfill(self.length)
        return digits[::-1].encode().translate(_BITS)

    @property
    def least(self) -> int:
        return 1 if self.size is None else self.size

    def _of_digits(self, text: str, path: str) -> bytes:
        """The encoding that digits say, judged here: in the middle of a value its bytes would be another field's."""
        if text and not text.strip("01"):
            raise self.wrong(text, f"0x and the digits of the encoding, or a list of bits; text of 0 and 1 is {_SCRIPTS}", path)
        data = unhex(text, self, path)
        last = data[-1].bit_length() if data else 0
        count = 8 * (len(data) - 1) + last
        if self.is_list and not last:
            raise self.wrong(text, "the digits of an encoding, whose last byte has the 1 after the last bit", path)
        if self.is_list:
            self.counted(count - 1, "bits", path)
        elif len(data) != self.size or count > self.length:
            raise self.wrong(text, f"the digits of {self.size} bytes, with 0 after the last of {self.length} bits", path)
        return data

    def count(self, bits: bytes) -> int:
        """How many bits there are, a byte each."""
        return len(bits)

    def decode(self, data: bytes) -> list[bool]:
        return list(map(bool, self.unpacked(data)))

    def shown(self, value: Any, api: bool = False) -> str:
        return "0x" + self.encode(value).hex()

    def step(self, name: str) -> Optional[Form]:
        return Boolean() if name.isdigit() else LENGTH if name == "#len" else None


class Series(Form):
    """A vector or, with a limit, a list. `is_bytes` says that the elements are spelled byte: then its values are bytes."""

    def __init__(self, element: Form, length: int, is_list: bool) -> None:
        self.element, self.length, self.is_list = element, length, is_list
        self.size = None if is_list or element.size is None else element.size * length
        self.is_octets = isinstance(element, Uint) and element.size == 1
        self.is_bytes = self.is_octets and element.is_byte  # type: ignore[attr-defined]
        self.code = _ARRAYS.get(element.size or 0) if isinstance(element, Uint) else None
        self.name = f"{'List' if is_list else 'Vector'}[{element.name}, {length}]"

    @functools.cached_property
    def shape(self) -> str:
        element = "uint8" if self.is_bytes else self.element.shape
        return f"{'List' if self.is_list else 'Vector'}[{element}, {self.length}]"

    @property
    def least(self) -> int:
        if self.size is not None:
            return self.size
        return 0 if self.is_list else self.length * (4 + self.element.least)

    def _encoded(self, value: Any, path: str) -> bytes:
        taken = unhex(value, self, path) if isinstance(value, str) and self.is_octets else self.taken(value, path)
        self.counted(self.count(taken), "elements", path)
        return self.whole(taken)

    def taken(self, value: Any, path: str) -> Elements:
        """The encodings of the elements that an object has, all of them, each judged."""
        data = self._of_machine(value)
        if data is not None:
            return data
        values = given.items_of(value)
        if values is None:
            raise self.wrong(value, self.wanted, path)
        data = self._packed(values)
        if data is not None:
            return data
        parts = [self.element.encode(each, f"{path}/{place}") for place, each in enumerate(values)]
        return parts if self.element.size is None else b"".join(parts)

    def _of_machine(self, value: Any) -> Optional[bytes]:
        """The encodings of numbers that stand side by side in an object already."""
        if self.code is None or given.is_bytes(value) and not self.is_octets:
            return None
        return given.machine_of(value, self.element.size or 1)

    def _packed(self, values: list[Any]) -> Optional[bytes]:
        """The encodings of numbers or truth values, made at once; None where one is another object."""
        if isinstance(self.element, Boolean):
            return given.truths_of(values)
        if self.code is None or not given.are_numbers(values):
            return None
        try:
            return array(self.code, values).tobytes()
        except (TypeError, OverflowError):
            return None

    def count(self, elements: Elements) -> int:
        """How many elements these encodings are of."""
        return len(elements) // (self.element.size or 1) if isinstance(elements, bytes) else len(elements)

    def whole(self, elements: Elements) -> bytes:
        """The encoding of a value with these elements."""
        return elements if isinstance(elements, bytes) else joined([self.element] * len(elements), elements)

    def split(self, data: bytes) -> Elements:
        """The encodings of the elements of a value in bytes."""
        if self.element.size is not None:
            return data
        return [data[part.start : part.end] for part in self.parts(data, 0, len(data))]

    @property
    def wanted(self) -> str:
        """What a value is made of, in words."""
        octets = "bytes, a string of 0x and an even number of hexadecimal digits, or " if self.is_octets else ""
        return f"{octets}an iterable of {self.element.name}"

    def decode(self, data: bytes) -> Any:
        if self.is_bytes:
            return bytes(data)
        if self.code is not None:
            return array(self.code, bytes(data))
        if isinstance(self.element, Boolean):
            return list(map(bool, data))
        return [part.form.decode(data[part.start : part.end]) for part in self.parts(data, 0, len(data))]

    def shown(self, value: Any, api: bool = False) -> Any:
        if self.is_bytes:
            return "0x" + value.hex()
        if isinstance(self.element, Boolean) or self.code is not None and not api:
            return list(value)
        return [self.element.shown(each, api) for each in value]

    def parts(self, data: bytes, start: int, end: int) -> Iterator[Part]:
        size = self.element.size
        if self.is_bytes or start == end:
            return
        if size is not None:
            places = zip(range(start, end, size), range(start + size, end + 1, size))
        else:
            first = offset_at(data, start)
            starts = [start + offset_at(data, at) for at in range(start, min(start + first, end), 4)]
            places = zip(starts, itertools.chain(starts[1:], [end]))
        for number, (at, to) in enumerate(places):
            yield Part(str(number), self.element, at, to)

    def step(self, name: str) -> Optional[Form]:
        if name == "#len" and self.is_list:
            return LENGTH
        return self.element if name.isdigit() else None


class Container(Form):
    """Fields with names."""

    def __init__(self, fields: Sequence[tuple[str, Form]], name: str = "") -> None:
        self.fields = dict(fields)
        sizes = [form.size for form in self.fields.values()]
        self.size = None if None in sizes else sum(size for size in sizes if size is not None)
        self.name = name or f"Container({', '.join(self.fields)})"

    @functools.cached_property
    def shape(self) -> str:
        return "{" + ",".join(f"{name}:{form.shape}" for name, form in self.fields.items()) + "}"

    @functools.cached_property
    def least(self) -> int:
        return sum(4 + form.least if form.size is None else form.size for form in self.fields.values())

    def _encoded(self, value: Any, path: str) -> bytes:
        if not isinstance(value, Mapping):
            raise self.wrong(value, f"a dict with the fields {', '.join(self.fields)}", path)
        value = dict(value)
        lacking = [name for name in self.fields if name not in value]
        if lacking:
            raise BadValue(f"the field {lacking[0]} is missing", f"The fields are {', '.join(self.fields)}.", type=self.name, path=path)
        other = [name for name in value if name not in self.fields]
        if other:
            raise BadValue(f"there is no field {other[0]}", like(str(other[0]), self.fields), type=self.name, path=path)
        parts = [form.encode(value[name], f"{path}/{name}") for name, form in self.fields.items()]
        return joined(list(self.fields.values()), parts)

    def decode(self, data: bytes) -> dict[str, Any]:
        return {part.step: part.form.decode(data[part.start : part.end]) for part in self.parts(data, 0, len(data))}

    def shown(self, value: dict[str, Any], api: bool = False) -> dict[str, Any]:
        return {name: form.shown(value[name], api) for name, form in self.fields.items()}

    def parts(self, data: bytes, start: int, end: int) -> Iterator[Part]:
        heads, at = [], start
        for name, form in self.fields.items():
            heads.append((name, form, at if form.size is not None else start + offset_at(data, at)))
            at += 4 if form.size is None else form.size
        ends = [begin for _, form, begin in heads if form.size is None][1:] + [end]
        following = iter(ends)
        for name, form, begin in heads:
            yield Part(name, form, begin, next(following) if form.size is None else begin + form.size)

    def step(self, name: str) -> Optional[Form]:
        return self.fields.get(name)


class Union(Form):
    """One of several options; the first one may be None."""

    def __init__(self, options: Sequence[Optional[Form]]) -> None:
        self.options = list(options)
        self.name = f"Union[{', '.join('None' if form is None else form.name for form in self.options)}]"

    @functools.cached_property
    def shape(self) -> str:
        return f"Union[{', '.join('None' if form is None else form.shape for form in self.options)}]"

    @property
    def least(self) -> int:
        return 1 + min(0 if form is None else form.least for form in self.options)

    def _encoded(self, value: Any, path: str) -> bytes:
        pair = value
        if isinstance(value, Mapping) and set(value) == {"selector", "value"}:
            pair = (value["selector"], value["value"])
        if not isinstance(pair, (tuple, list)) or len(pair) != 2:
            raise self.wrong(value, "a pair of a selector and a value", path)
        selector, chosen = given.number_of(pair[0]), pair[1]
        if selector is None or not 0 <= selector < len(self.options):
            raise self.wrong(value, f"a selector from 0 to {len(self.options) - 1}", path)
        form = self.options[selector]
        if form is None and chosen is not None:
            raise self.wrong(value, "(0, None)", path)
        return bytes([selector]) + (form.encode(chosen, f"{path}/#{selector}") if form else b"")

    def decode(self, data: bytes) -> tuple[int, Any]:
        form = self.options[data[0]]
        return data[0], form.decode(data[1:]) if form else None

    def shown(self, value: tuple[int, Any], api: bool = False) -> dict[str, Any]:
        form = self.options[value[0]]
        selector = str(value[0]) if api else value[0]
        return {"selector": selector, "value": form.shown(value[1], api) if form else None}

    def parts(self, data: bytes, start: int, end: int) -> Iterator[Part]:
        selector = data[start] if start < end else len(self.options)
        form = self.options[selector] if selector < len(self.options) else None
        if form is not None:
            yield Part(f"#{selector}", form, start + 1, end)

    def step(self, name: str) -> Optional[Form]:
        if name == "#sel":
            return Uint(1)
        number = name[1:]
        return self.options[int(number)] if name.startswith("#") and number.isdigit() and int(number) < len(self.options) else None


LENGTH = Uint(8)
BUILT_IN = {"boolean": Boolean(), "byte": Uint(1, is_byte=True), **{f"uint{8 << power}": Uint(1 << power) for power in range(6)}}


def offset_at(data: bytes, at: int) -> int:
    """The offset that four bytes say."""
    return int.from_bytes(data[at : at + 4], "little")


def joined(forms: Sequence[Form], parts: Sequence[bytes]) -> bytes:
    """The encoding of parts in order: those of fixed size in place, offsets to the others in front of them."""
    at = sum(4 if form.size is None else form.size for form in forms)
    heads, tails = [], []
    for form, part in zip(forms, parts):
        if form.size is None:
            heads.append(at.to_bytes(4, "little"))
            tails.append(part)
            at += len(part)
        else:
            heads.append(part)
    return b"".join(heads + tails)


def unhex(text: str, form: Form, path: str) -> bytes:
    """The bytes of a string of 0x and digits."""
    data = given.hex_of(text)
    if data is None:
        raise form.wrong(text, "0x and an even number of hexadecimal digits", path)
    return data


def said_of(value: Any) -> str:
    """An object in a few words, whatever it is."""
    try:
        said = repr(value[:40] if isinstance(value, (str, bytes, bytearray)) else value)
    except Exception:
        said = f"<{type(value).__name__}>"
    return said if len(said) <= 40 else said[:37] + "..."


def like(name: str, names: Either[Sequence[str], dict[str, Any]]) -> str:
    """A hint to the name that was meant."""
    import difflib

    near = difflib.get_close_matches(name, list(names), 1)
    if near:
        return f"Did you mean {near[0]}?"
    known = list(names)
    return f"There are {', '.join(known[:12])}{' and others' if len(known) > 12 else ''}."


def form_of(spelled: Any, known: dict[str, Form], name: str = "") -> Form:
    """The type of a form of a schema that the library has accepted."""
    if isinstance(spelled, str):
        return BUILT_IN.get(spelled) or known[spelled]
    ((kind, given),) = spelled.items()
    if kind == "container":
        return Container([(field, form_of(form, known)) for field, form in given], name)
    if kind in ("vector", "list"):
        return Series(form_of(given[0], known), int(given[1]), kind == "list")
    if kind in ("bitvector", "bitlist"):
        return Bits(int(given), kind == "bitlist")
    return Union([None if form is None else form_of(form, known) for form in given])


def forms_of(types: Sequence[Any]) -> dict[str, Form]:
    """The types of a schema by their names, in order."""
    known: dict[str, Form] = {}
    for name, spelled in types:
        known[name] = form_of(spelled, known, name)
    return known


def form_at(form: Form, path: str) -> Optional[Form]:
    """The type of the part at a path, or None."""
    for step in path.split("/")[1:] if path != "/" else []:
        below = form.step(step)
        if below is None:
            return None
        form = below
    return form
