"""Values as Python's objects: a value is a version in a session, a part of it a path into it.

Reading or writing an attribute or an element reads or writes that part alone, and a root hashes only what no root before it
did. Numbers, booleans and bytes are Python's own; every other part is a view, which stands for a place: it shows what is
there now.

What is given is taken whole, judged and encoded before anything is changed, and outside the session's lock: it may be a view of
another session, or run code of the caller's. What reads and then writes does both under that lock.
"""

from __future__ import annotations

import itertools
import operator
import weakref
from array import array
from typing import TYPE_CHECKING, Any, Iterable, Iterator, Optional

from . import given
from .errors import BadPath, InvalidBytes, NoSuchPart, Status, SszError
from .forms import Bits, Boolean, Container, Form, Series, Shaped, Uint, Union, like
from .proof import Proof
from .session import Lock, Session

if TYPE_CHECKING:
    from .schema import Schema

#: A store gives up nodes where there are more than so many, and a share, beyond those that it kept the last time. While it does, those
#: that stay are in memory twice: with a greater share a state that is edited would take more than half of its memory again.
_FEW, _SHARE = 1 << 17, 8


class Store:
    """The values of a schema: one session, so that copies share, and the classes of its types."""

    def __init__(self, schema: Schema) -> None:
        self._schema = schema
        self._names = {id(form): name for name, form in reversed(schema._forms.items())}
        self._lock = Lock()
        self._session: Optional[Session] = None
        self._classes: dict[int, type[View]] = {}
        self._numbers = itertools.count()
        self._edits = 0
        self._seen, self._most = 0, _FEW

    @property
    def session(self) -> Session:
        """The session, which begins with the first value."""
        with self._lock:
            if self._session is None:
                self._session = self._schema.session()
            return self._session

    def class_of(self, form: Form, name: str = "") -> Any:
        """The class of the values of a type that has a name, or of a part."""
        if is_plain(form):
            return self._schema.type(name) if name else form
        with self._lock:
            if id(form) not in self._classes:
                self._classes[id(form)] = self._class(form)
            return self._classes[id(form)]

    def _class(self, form: Form) -> type[View]:
        """A new class. A field whose name a view has for itself is had in brackets alone."""
        name = self._names.get(id(form), "")
        kind = next(kind for of, kind in _KINDS if isinstance(form, of))
        if isinstance(form, Series) and form.is_list:
            kind = ListView
        body = {"_form": form, "_store": self, "_type": name, "__slots__": (), "__doc__": f"A value of {form.name}."}
        if isinstance(form, Container):
            taken = set().union(*(vars(base) for base in kind.__mro__))
            body.update({name: _Field(name, each) for name, each in form.fields.items() if name not in taken and name[0] != "_"})
        return type(name or form.name, (kind,), body)

    def version(self) -> Version:
        """A name for a new version, which is dropped with the last view of it."""
        return Version(self._tended(), f"v{next(self._numbers)}")

    def writing(self) -> Session:
        """The session, before a call that edits a value."""
        session = self._tended()
        with session.lock:
            self._edits += 1
        return session

    def _tended(self) -> Session:
        """The session, in which nodes that were left behind by edits and dropped values are given up once they are many. Where there is
        no memory to do so, what comes next may do with what there is.
        """
        session = self.session
        with session.lock:
            if session.nodes() > self._most and self._edits + session.dropped != self._seen:
                try:
                    session.compact()
                except SszError as error:
                    if error.status != Status.NO_MEMORY:
                        raise
                self._note(session)
        return session

    def _note(self, session: Session) -> None:
        """Keeps how many nodes there are after a compaction, and at how many the next one comes."""
        nodes = session.nodes()
        self._seen, self._most = self._edits + session.dropped, nodes + nodes // _SHARE + _FEW

    def compact(self) -> None:
        """Gives up the nodes that no value needs."""
        session = self.session
        with session.lock:
            session.compact()
            self._note(session)


class Version:
    """The name of a version. It lives as long as this object.

    `with version as name:` has the name for calls of the session, with its lock: `become` gives the version another one.
    """

    def __init__(self, session: Session, name: str) -> None:
        self.session, self._names = session, [name]
        weakref.finalize(self, _drop_all, session, self._names).atexit = False

    def __enter__(self) -> str:
        self.session.lock.__enter__()
        return self._names[0]

    def __exit__(self, *_: object) -> None:
        self.session.lock.__exit__()

    def become(self, other: Version) -> None:
        """Takes the value of another version, and gives up its own."""
        with self.session.lock:
            self._names[0], other._names[0] = other._names[0], self._names[0]


def _drop_all(session: Session, names: list[str]) -> None:
    for name in names:
        session.drop_later(name)


def is_plain(form: Form) -> bool:
    """Whether values of the type are Python's own: numbers, booleans and bytes."""
    return isinstance(form, (Uint, Boolean)) or isinstance(form, Series) and form.is_bytes


class _Field:
    """A field of a container, as an attribute."""

    def __init__(self, name: str, form: Form) -> None:
        self.name, self.form = name, form
        self.__doc__ = f"{name}: {form.name}"

    def __get__(self, view: Optional[View], owner: type) -> Any:
        return self if view is None else view._read(self.name, self.form)

    def __set__(self, view: View, value: Any) -> None:
        view._write(self.name, self.form, value)


class View(Shaped):
    """A value, or a part of one: a place in it."""

    __slots__ = ("_version", "_path", "__weakref__")
    _store: Store
    _type: str
    _version: Version
    _path: str

    @classmethod
    def _at(cls, version: Version, path: str) -> Any:
        view = object.__new__(cls)
        object.__setattr__(view, "_version", version)
        object.__setattr__(view, "_path", path)
        return view

    @classmethod
    def _made(cls) -> Any:
        """A new value that is not there yet."""
        if not cls._type:
            raise TypeError(f"{cls.__name__} has no name in the schema, and is only made as a part of another value")
        return cls._at(cls._store.version(), "/")

    @classmethod
    def _default(cls) -> Any:
        view = cls._made()
        with view._version as name:
            view._version.session.new(name, cls._type)
        return view

    @classmethod
    def decode_bytes(cls, data: bytes) -> Any:
        """The value that the bytes encode."""
        data = given.bytes_of(data)
        view = cls._made()
        try:
            with view._version as name:
                view._version.session.load(name, cls._type, data)
        except InvalidBytes as error:
            raise cls._store._schema.type(cls._type).error(error.status, error.code, error.position, data) from None
        return view

    @classmethod
    def from_obj(cls, value: Any) -> Any:
        """The value of an object as `to_obj` and `to_api` give it."""
        return cls.decode_bytes(cls._form.encode(value))

    def encode_bytes(self) -> bytes:
        """The encoding."""
        with self._version as name:
            return self._version.session.get(name, self._path)

    def hash_tree_root(self) -> bytes:
        """The root."""
        session = self._version.session
        with self._version as name:
            return session.root(name) if self._path == "/" else session.node(name, self._path)

    def to_plain(self) -> Any:
        """The value as Python's own objects: numbers, bytes, lists, arrays and dicts."""
        return self._form.decode(self.encode_bytes())

    def to_obj(self) -> Any:
        """The value as JSON has it in the specifications' test vectors."""
        return self._form.shown(self.to_plain())

    def to_api(self) -> Any:
        """The value as JSON has it in the Beacon API: all numbers are strings."""
        return self._form.shown(self.to_plain(), api=True)

    def copy(self) -> Any:
        """A copy, which shares what neither edits. Of a part, the whole value is copied."""
        version = self._store.version()
        with self._version as name, version as other:
            version.session.fork(name, other)
        return self._at(version, self._path)

    def prove(self, *paths: str) -> Proof:
        """The multiproof of parts against the root of the whole value. A path begins here: "/slot"."""
        session, whole = self._version.session, [self._below(path) for path in paths or ["/"]]
        with self._version as name:
            session.see(name, self._path)
            return session.prove(name, *whole)

    def _below(self, path: str) -> str:
        """The path from the whole value of one that begins here."""
        if not isinstance(path, str):
            raise TypeError(f"a path is text (str), and {path!r} was given.")
        if not path.startswith("/"):
            raise BadPath("this is no path", "A path begins with /, as /validators/7/slashed.", status=Status.SYNTAX, name="SYNTAX",
                          type=self._type, path=path)
        if self._path == "/":
            return path
        return self._path if path == "/" else self._path + path

    def _step(self, step: object) -> str:
        return f"{self._path if self._path != '/' else ''}/{step}"

    def _read(self, step: object, form: Form) -> Any:
        path = self._step(step)
        if is_plain(form):
            with self._version as name:
                return form.decode(self._version.session.get(name, path, form.size or _ROOM))
        return self._store.class_of(form)._at(self._version, path)

    def _write(self, step: object, form: Form, value: Any) -> None:
        path = self._step(step)
        self._put(path, form.encode(value, path))

    def _put(self, path: str, data: bytes) -> None:
        """Makes the part at a path of the whole value that which the bytes encode."""
        with self._version as name:
            self._store.writing().set(name, path, data)

    def __eq__(self, other: object) -> bool:
        if isinstance(other, View):
            return self._form.shape == other._form.shape and self.encode_bytes() == other.encode_bytes()
        return NotImplemented

    __hash__ = None  # type: ignore[assignment]

    def __copy__(self) -> Any:
        return self.copy()

    def __deepcopy__(self, _: Any) -> Any:
        return self.copy()

    def __repr__(self) -> str:
        place = "" if self._path == "/" else f" at {self._path}"
        return f"<{type(self).__name__}{place}>"

    def __str__(self) -> str:
        try:
            return self._brief()
        except (SszError, RuntimeError):
            return f"<{type(self).__name__} at {self._path}, which is not there>"

    def _brief(self) -> str:
        """The value in a line, long parts by their lengths."""
        raise NotImplementedError


def _brief_of(value: Any) -> str:
    """A part in a line."""
    if isinstance(value, View):
        return value._brief()
    if isinstance(value, bytes):
        return "0x" + (value.hex() if len(value) <= 32 else f"{value[:8].hex()}.. ({len(value)} bytes)")
    return str(value)


class ContainerView(View):
    """A container: its fields are attributes, and had by name in brackets too."""

    __slots__ = ()
    _form: Any

    def __new__(cls, /, *values: Any, **fields: Any) -> Any:
        names = list(cls._form.fields)
        if len(values) > len(names):
            raise TypeError(f"{cls.__name__} has {len(names)} fields ({', '.join(names[:12])}), and {len(values)} values were given")
        twice = next((name for name in names[: len(values)] if name in fields), None)
        if twice:
            raise TypeError(f"the field {twice} of {cls.__name__} was given twice, by its place and by its name")
        view = cls._default()
        for name, value in [*zip(names, values), *fields.items()]:
            view[name] = value
        return view

    def __getitem__(self, name: str) -> Any:
        return self._read(name, self._field(name))

    def __setitem__(self, name: str, value: Any) -> None:
        self._write(name, self._field(name), value)

    def __iter__(self) -> Iterator[str]:
        return iter(self._form.fields)

    def __contains__(self, name: object) -> bool:
        return isinstance(name, str) and name in self._form.fields

    def _field(self, name: str) -> Form:
        if not isinstance(name, str):
            raise TypeError(f"the fields of {type(self).__name__} are had by name, and {name!r} was given")
        if name not in self._form.fields:
            raise AttributeError(self._no_field(name))
        return self._form.fields[name]

    def __setattr__(self, name: str, value: Any) -> None:
        if not isinstance(getattr(type(self), name, None), _Field):
            raise AttributeError(self._no_field(name))
        object.__setattr__(self, name, value)

    def __getattr__(self, name: str) -> Any:
        raise AttributeError(self._no_field(name))

    def _no_field(self, name: str) -> str:
        kind = type(self).__name__
        if name in self._form.fields:
            return f"the field {name} of {kind} is had in brackets: value[{name!r}]"
        return f"{kind} has no field {name}. {like(name, self._form.fields)}"

    @classmethod
    def fields(cls) -> list[str]:
        """The names of the fields."""
        return list(cls._form.fields)

    def __repr__(self) -> str:
        if self._form.size is None or self._form.size > 256:
            return super().__repr__()
        try:
            shown = self.to_obj()
        except (SszError, RuntimeError):
            return f"<{type(self).__name__} at {self._path}, which is not there>"
        return f"{type(self).__name__}({', '.join(f'{name}={value!r}' for name, value in shown.items())})"

    def _brief(self) -> str:
        return f"{type(self).__name__}({', '.join(f'{name}={_brief_of(self[name])}' for name in self)})"


class SeriesView(View):
    """A vector: its elements are had by number, and as slices."""

    __slots__ = ()
    _form: Any

    def __new__(cls, values: Any = None) -> Any:
        return cls._default() if values is None else cls.from_obj(values)

    def __len__(self) -> int:
        return self._form.length

    @property
    def _element(self) -> Form:
        return self._form.element

    def _place(self, place: Any) -> int:
        number = operator.index(place)
        count = len(self)
        if not -count <= number < count:
            raise NoSuchPart(f"there is no element {number}", f"There are {count} of them, numbered from 0.", path=self._path,
                             type=self._form.name)
        return number % count

    def __getitem__(self, place: Any) -> Any:
        with self._version:
            if not isinstance(place, slice):
                return self._read(self._place(place), self._element)
            if not is_plain(self._element):
                return [self._read(number, self._element) for number in range(*place.indices(len(self)))]
        return self.to_plain()[place]

    def __setitem__(self, place: Any, value: Any) -> None:
        if isinstance(place, slice):
            self._replace(place, self._taken(value))
            return
        data = self._element.encode(value, self._step(operator.index(place)))
        with self._version:
            self._put(self._step(self._place(place)), data)

    def _taken(self, value: Any) -> Any:
        """The encodings of all elements of an iterable."""
        if isinstance(value, Shaped):
            value = list(value)  # type: ignore[call-overload]
        return self._form.taken(value, self._path)

    def _replace(self, place: slice, new: Any) -> None:
        """Puts elements in the places of a slice, by the rules of Python's lists."""
        form = self._form
        with self._version:
            old = form.split(self.encode_bytes())
            elements = _spliced(old, place, new, form.element.size) if isinstance(old, bytes) else _spliced_list(old, place, new)
            form.counted(form.count(elements), "elements", self._path)
            self._put(self._path, form.whole(elements))

    def __iter__(self) -> Iterator[Any]:
        if is_plain(self._element):
            return iter(self.to_plain())
        return (self._read(number, self._element) for number in range(len(self)))

    def __bytes__(self) -> bytes:
        return self.encode_bytes()

    def _brief(self) -> str:
        count = len(self)
        shown = [_brief_of(self[number]) for number in range(min(count, _SHOWN))]
        return f"[{', '.join(shown)}{f', .. ({count} elements)' if count > _SHOWN else ''}]"

    def __eq__(self, other: object) -> bool:
        if isinstance(other, (list, tuple, array)):
            return len(self) == len(other) and all(one == another for one, another in zip(self, other))
        return super().__eq__(other)

    __hash__ = None  # type: ignore[assignment]


def _spliced_list(old: list[bytes], place: slice, new: list[bytes]) -> list[bytes]:
    """The encodings of elements, of which those of a slice are others."""
    elements = list(old)
    elements[place] = new
    return elements


def _spliced(old: bytes, place: slice, new: bytes, size: int) -> bytes:
    """The encodings of elements of so many bytes, side by side, of which those of a slice are others."""
    places, count = range(*place.indices(len(old) // size)), len(new) // size
    if places.step == 1:
        return old[: size * places.start] + new + old[size * max(places.start, places.stop) :]
    if len(places) != count:
        raise ValueError(f"attempt to assign sequence of size {count} to extended slice of size {len(places)}")
    changed = bytearray(old)
    for at, number in enumerate(places):
        changed[size * number : size * (number + 1)] = new[size * at : size * (at + 1)]
    return bytes(changed)


class ListView(SeriesView):
    """A list: a vector that grows and shrinks at its end."""

    __slots__ = ()

    def __len__(self) -> int:
        with self._version as name:
            return self._version.session.length(name, self._path)

    def append(self, value: Any) -> None:
        """Puts an element after the last one."""
        data = self._element.encode(value, self._path)
        with self._version as name:
            self._store.writing().append(name, self._path, data)

    def extend(self, values: Iterable[Any]) -> None:
        """Puts elements after the last one: all of them, or none."""
        new = self._taken(values)
        with self._version:
            count, added = len(self), self._form.count(new)
            self._form.counted(count + added, "elements", self._path)
            if added * _MANY < count:
                self._append_all(new)
            else:
                self._replace(slice(count, count), new)

    def _append_all(self, new: Any) -> None:
        """Appends one by one, on a fork that the value becomes once all is done."""
        size, session = self._element.size or 1, self._store.writing()
        parts = (new[at : at + size] for at in range(0, len(new), size)) if isinstance(new, bytes) else new
        trial = self._store.version()
        with self._version as name, trial as other:
            session.fork(name, other)
            for part in parts:
                session.append(other, self._path, part)
            self._version.become(trial)

    def pop(self) -> Any:
        """Takes the last element away, and returns it as Python's own object."""
        with self._version as name:
            last = self[-1] if len(self) else None
            value = last.to_plain() if isinstance(last, View) else last
            self._store.writing().pop(name, self._path)
        return value


class BitsView(ListView):
    """A bitvector or a bitlist."""

    __slots__ = ()

    def __len__(self) -> int:
        return super().__len__() if self._form.is_list else self._form.length

    @property
    def _element(self) -> Form:
        return _BIT

    def _taken(self, value: Any) -> bytes:
        bits = given.truths_of(list(value) if isinstance(value, Shaped) else value)  # type: ignore[call-overload]
        if bits is None:
            raise self._form.wrong(value, "an iterable of True and False", self._path)
        return bits

    def _replace(self, place: slice, new: bytes) -> None:
        with self._version:
            bits = self._form.unpacked(self.encode_bytes())
            self._put(self._path, self._form.packed(_spliced(bits, place, new, 1), self._path))

    def __iter__(self) -> Iterator[bool]:
        return iter(self.to_plain())

    def _brief(self) -> str:
        data = self.encode_bytes()
        return f"0x{data.hex()}" if len(data) <= 32 else f"0x{data[:8].hex()}.. ({len(self)} bits)"


class UnionView(View):
    """A union: `selector` says which option it has, `value` is its value, `choose` gives it another one."""

    __slots__ = ()
    _form: Any

    def __new__(cls, selector: int = 0, value: Any = None) -> Any:
        if value is None and given.number_of(selector) == 0:
            return cls._default()
        return cls.from_obj((selector, value))

    @property
    def selector(self) -> int:
        """The number of the option, from 0 on."""
        with self._version as name:
            return self._version.session.get(name, self._step("#sel"), 1)[0]

    @property
    def value(self) -> Any:
        """The value of the option, None of the option None."""
        with self._version:
            selector = self.selector
            form = self._form.options[selector]
            return None if form is None else self._read(f"#{selector}", form)

    def _brief(self) -> str:
        with self._version:
            return f"({self.selector}, {_brief_of(self.value)})"

    def choose(self, selector: int, value: Any = None) -> None:
        """Gives it another option, with this value."""
        self._put(self._path, self._form.encode((selector, value), self._path))


_BIT = Boolean()
_ROOM = 4096
#: A list is written whole where it grows by one element for so many that it has, or by more: that is cheaper then.
_MANY = 16
#: As many elements of a list are shown in a line.
_SHOWN = 3
_KINDS = [(Container, ContainerView), (Series, SeriesView), (Bits, BitsView), (Union, UnionView)]
