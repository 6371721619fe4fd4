"""Schemas: which types there are, and what holds of bytes."""

from __future__ import annotations

import ctypes
import json
from collections.abc import Mapping
from pathlib import Path
from typing import Any, Iterator

from . import faults, given, values
from ._library import Fault, Index, Stretch
from .errors import BadJson, BadSchema, NoSuchPart, NoSuchType, Status, SszError, error_of
from .forms import BUILT_IN, Form, form_at, forms_of, like
from .places import place_of
from .session import Held, Session, _data, _name, _word


class Type:
    """A type of a schema: what holds of the bytes of its values."""

    def __init__(self, schema: Schema, name: str, form: Form, number: int) -> None:
        self.schema, self.name, self.form, self._number = schema, name, form, number

    def __repr__(self) -> str:
        return f"<type {self.name}>"

    @property
    def size(self) -> int | None:
        """The length of all encodings, or None where they differ."""
        return self.form.size

    @property
    def fields(self) -> list[str]:
        """The names of a container's fields."""
        return list(getattr(self.form, "fields", ()))

    def _status(self, name: str, data: bytes, *words: Any) -> tuple[int, Fault]:
        """Makes a call on bytes, and returns how it ended."""
        return self.schema._status(name, self._number, data, len(data), *words)

    def _call(self, name: str, data: bytes, *words: Any) -> None:
        taken = given.bytes_of(data)
        status, fault = self._status(name, taken, *words)
        if status:
            raise self.error(status, fault.code, fault.position, taken)

    def error(self, status: int, code: int, position: int, data: bytes, path: str = "") -> SszError:
        """The error of a call on bytes, with the part that they are at fault in."""
        part = place_of(self.form, data, position, code) if status == Status.INVALID else ""
        said = error_of(status, code, position, type=self.name, path=path, part=part)
        if code in (1, 2) and status == Status.INVALID and self.size is not None and part == "/":
            said.args = (f"{said.args[0]} {self.name} has {self.size} bytes, and {len(data)} were given.",)
        return said

    def check(self, data: bytes) -> None:
        """Raises InvalidBytes with the first fault of bytes that encode no value."""
        self._call("ssz_check", data)

    def hash_tree_root(self, data: bytes) -> bytes:
        """The root of the value that the bytes encode."""
        root = ctypes.create_string_buffer(32)
        self._call("ssz_root", data, root)
        return root.raw

    def gindex(self, path: str) -> int:
        """The generalized index of the part at a path."""
        index, word = Index(), _word(path)
        status, fault = self.schema._status("ssz_gindex", self._number, *word, ctypes.byref(index))
        if status:
            raise error_of(status, fault.code, fault.position, type=self.name, path=path)
        return index.low | index.high << 64

    def part(self, data: bytes, path: str) -> bytes:
        """The encoding of a part of the value that the bytes encode, all of which are checked; for many parts see `open`."""
        data, words, place = given.bytes_of(data), _word(path), Stretch()
        status, fault = self._status("ssz_place", data, *words, ctypes.byref(place))
        if status == Status.NO_PLACE:
            return self._small(data, path)
        if status:
            raise self.error(status, fault.code, fault.position, data, path)
        return data[place.start : place.start + place.len]

    def _small(self, data: bytes, path: str) -> bytes:
        """The byte of a bit, or the eight of a length."""
        room, count = ctypes.create_string_buffer(8), ctypes.c_uint64()
        status, fault = self._status("ssz_part", data, *_word(path), room, len(room), ctypes.byref(count))
        if status:
            raise self.error(status, fault.code, fault.position, data, path)
        return room.raw[: count.value]

    def to_json(self, data: bytes) -> bytes:
        """The JSON text of the value that the bytes encode, as `json` of scripts prints it (docs/formats.md, Values as JSON)."""
        return self._text("ssz_to_json", given.bytes_of(data))

    def of_json(self, text: bytes | str) -> bytes:
        """The encoding of the value whose JSON text this is, in the one spelling that `to_json` has; see `encode_bytes` for others."""
        taken = given.word_of(text, "a JSON text") if isinstance(text, str) else given.bytes_of(text)
        try:
            return self._text("ssz_of_json", taken)
        except BadJson as error:
            raise faults.of_json(error, taken) from None

    def _text(self, call: str, data: bytes) -> bytes:
        """What a call makes of bytes, in room that it says."""
        count, status = ctypes.c_uint64(4 * len(data) + 64), int(Status.NO_ROOM)
        while status == Status.NO_ROOM:
            space = ctypes.create_string_buffer(count.value)
            status, fault = self._status(call, data, space, len(space), ctypes.byref(count))
        if status:
            raise self.error(status, fault.code, fault.position, data)
        return ctypes.string_at(space, count.value)

    def open(self, data: bytes) -> Slice:
        """The bytes, checked once, to ask for many parts. Raises InvalidBytes with the first fault."""
        return Slice(self, data)

    @property
    def first_name(self) -> str | None:
        """The first of the type's names in byte order, or None where it has none."""
        try:
            return self.schema._filled("ssz_type_name", self._number, room=64).decode()
        except NoSuchPart:
            return None

    @property
    def limit(self) -> int | None:
        """The length of a vector, the limit of a list, and so of bits; None of other types."""
        limit = ctypes.c_uint64()
        status, fault = self.schema._status("ssz_limit", self._number, ctypes.byref(limit))
        if status not in (Status.OK, Status.ABSENT):
            raise error_of(status, fault.code, fault.position, type=self.name)
        return None if status else limit.value

    def decode_bytes(self, data: bytes) -> Any:
        """The plain Python object that the bytes encode: numbers, bytes, lists and dicts."""
        data = given.bytes_of(data)
        self.check(data)
        return self.form.decode(data)

    def encode_bytes(self, value: Any) -> bytes:
        """The bytes of an object."""
        data = self.form.encode(value)
        self.check(data)
        return data

    def form_at(self, path: str) -> Form:
        """The type of the part at a path."""
        self.gindex(path)
        found = form_at(self.form, path)
        assert found is not None
        return found

    def __call__(self, value: Any) -> Any:
        """The value, if it is one of this type: `Slot(7)` is 7."""
        return self.form.decode(self.encode_bytes(value))


class Slice(Held):
    """Bytes that were checked once as a value of a type. It has a copy of them and shares the schema, and each part is found
    without a look at the others.

    Any thread may use it: calls wait for one another.
    """

    _end = "ssz_slice_close"

    def __init__(self, type: Type, data: bytes) -> None:
        data = given.bytes_of(data)
        self.type = type
        super().__init__()
        status, fault = self._status_on(type.schema, "ssz_slice_open", type._number, *_data(data))
        if status:
            raise type.error(status, fault.code, fault.position, data)

    def part(self, path: str = "/") -> bytes:
        """The encoding of the part at a path."""
        return self._filled("ssz_slice_part", *_word(path), type=self.type.name, path=path)

    def place(self, path: str) -> slice:
        """Where that part stands in the bytes: `data[opened.place(path)]` is its encoding. A bit and a length stand nowhere."""
        found = Stretch()
        self._call("ssz_slice_place", *_word(path), ctypes.byref(found), type=self.type.name, path=path)
        return slice(found.start, found.start + found.len)


class Schema(Held):
    """The types that a schema file defines. `schema.Checkpoint` is the class of values of that type.

    Any thread may use it: calls wait for one another, unless each thread has its own by `share`.
    """

    _end = "ssz_schema_free"

    def __init__(self, text: bytes | str | dict[str, Any]) -> None:
        if isinstance(text, Mapping):
            text = json.dumps(dict(text))
        self.text = given.word_of(text, "a schema") if isinstance(text, str) else given.bytes_of(text, "a schema's text")
        super().__init__()
        try:
            self._call("ssz_schema_read", *_data(self.text))
        except BadSchema as error:
            raise faults.of_schema(error, self.text) from None
        self._of_forms(forms_of(json.loads(self.text)["types"]))

    def _of_forms(self, forms: dict[str, Form]) -> None:
        """Begins with no type asked for."""
        self._forms = forms
        self._types: dict[str, Type] = {}
        self._values = values.Store(self)

    def share(self) -> Schema:
        """The same schema, whose calls do not wait for this one's. What was read stands in memory once; values are of a class of
        its own.
        """
        other = Schema.__new__(Schema)
        other.text = self.text
        Held.__init__(other)
        status, fault = other._status_on(self, "ssz_schema_share")
        if status:
            raise error_of(status, fault.code, fault.position)
        other._of_forms(self._forms)
        return other

    @classmethod
    def read(cls, file: str | Path) -> Schema:
        """The schema that a file defines."""
        return cls(Path(file).read_bytes())

    @property
    def names(self) -> list[str]:
        """The names of the types, in order."""
        return list(self._forms)

    def all_names(self) -> list[str]:
        """The names of all types, the built-in ones too, in byte order."""
        return self._filled("ssz_names").decode().splitlines()

    def numbered(self) -> int:
        """How many types the library has given a number: those that were asked for."""
        count = ctypes.c_uint64()
        self._call("ssz_types", ctypes.byref(count))
        return count.value

    def __iter__(self) -> Iterator[str]:
        return iter(self._forms)

    def type(self, name: str) -> Type:
        """The type of a name."""
        with self.lock:
            if name not in self._types:
                self._types[name] = self._type(name)
            return self._types[name]

    def _type(self, name: str) -> Type:
        """The type of a name that was not asked for before."""
        number, form = ctypes.c_uint64(), self._forms.get(name) or BUILT_IN.get(name)
        if form is None:
            raise NoSuchType("the schema has no such type", like(str(name), self.names), status=Status.NO_TYPE, type=str(name))
        self._call("ssz_type", *_name(name), ctypes.byref(number), type=name)
        return Type(self, name, form, number.value)

    def compact(self) -> None:
        """Gives up the nodes that no value needs. That happens from time to time by itself, as values are made and edited."""
        self._values.compact()

    def session(self) -> Session:
        """A session over this schema, with no version. It has a copy of the schema."""
        return Session(self)

    def __getitem__(self, name: str) -> Any:
        """The class of the values of a type; of numbers, booleans and bytes the type, whose values are Python's own."""
        return self._values.class_of(self.type(name).form, name)

    def __getattr__(self, name: str) -> Any:
        if name.startswith("_"):
            raise AttributeError(name)
        try:
            return self[name]
        except NoSuchType as error:
            raise AttributeError(str(error)) from None

    def __dir__(self) -> list[str]:
        return [*super().__dir__(), *self._forms]
