"""Sessions: versions of values under names, edited in place, that share what is equal."""

from __future__ import annotations

import collections
import ctypes
import threading
from typing import Any, NoReturn

from . import given
from ._library import Entry, Fault, Handle, Index, is_forked, library
from .errors import Status, error_of
from .proof import Proof

_ROOM = 4096
#: The code of the refusal that a part is of another kind. The library tells it only of a part that is there.
_NOT_THAT = 7
_BAD_SELECTOR = 10


class Lock:
    """A lock that a thread may take again, and that no forked child waits for."""

    def __init__(self) -> None:
        self._lock = threading.RLock()

    def __enter__(self) -> None:
        library()
        self._lock.acquire()

    def __exit__(self, *_: object) -> None:
        self._lock.release()


class Held:
    """What a handle of the library holds, one thread at a time. `close` gives it up, as does the end of a `with`."""

    _end = ""

    def __init__(self) -> None:
        self.lock = Lock()
        self._handle = Handle(0, None)
        self._library = library()

    def _status_on(self, lent: Held, name: str, *words: Any) -> tuple[int, Fault]:
        """Makes a call that asks what another handle holds, too."""
        with lent.lock:
            return self._status(name, ctypes.byref(lent._handle), *words)

    def _status(self, name: str, *words: Any) -> tuple[int, Fault]:
        """Makes a call, and returns how it ended."""
        call, fault = getattr(library(), name), Fault()
        with self.lock:
            return call(ctypes.byref(self._handle), *words, ctypes.byref(fault)), fault

    def _call(self, name: str, *words: Any, type: str = "", path: str = "") -> None:
        """Makes a call. The type and the path are what an error tells."""
        status, fault = self._status(name, *words)
        if status:
            raise error_of(status, fault.code, fault.position, type=type, path=path)

    def _filled(self, name: str, *words: Any, room: int = _ROOM, type: str = "", path: str = "") -> bytes:
        """Makes a call that copies bytes, with more room where they need more. No other thread changes them in between."""
        with self.lock:
            count, status = ctypes.c_uint64(max(1, room)), int(Status.NO_ROOM)
            while status == Status.NO_ROOM:
                space = ctypes.create_string_buffer(count.value)
                status, fault = self._status(name, *words, space, len(space), ctypes.byref(count))
        if status:
            raise error_of(status, fault.code, fault.position, type=type, path=path)
        return ctypes.string_at(space, count.value)

    def close(self) -> None:
        """Frees what is held. A later call raises SszError, with the name NO_HANDLE."""
        if not is_forked():
            with self.lock:
                getattr(self._library, self._end)(ctypes.byref(self._handle))

    def __del__(self) -> None:
        if hasattr(self, "_library"):
            self.close()

    def __enter__(self) -> Any:
        return self

    def __exit__(self, *_: object) -> None:
        self.close()

    def __reduce__(self) -> NoReturn:
        raise TypeError(f"a {type(self).__name__} is held by the library of this process, and can't be copied or pickled")


def _word(text: str, what: str = "a path") -> tuple[bytes, int]:
    """A text and its length, as calls take them."""
    word = given.word_of(text, what)
    return word, len(word)


def _name(text: str) -> tuple[bytes, int]:
    """A name, as calls take it."""
    return _word(text, "a name")


def _data(data: Any) -> tuple[bytes, int]:
    """Bytes, as calls take them."""
    taken = given.bytes_of(data)
    return taken, len(taken)


class Session(Held):
    """Versions of values under names. What is refused raises an error, and no version has changed.

    Any thread may use it: calls wait for one another, and `with session.lock:` keeps others out of several calls.
    """

    _end = "ssz_session_end"

    def __init__(self, schema: Held | bytes) -> None:
        """A session over a schema, or over the one that the bytes of a schema file define, with no version."""
        self._gone: collections.deque[str] = collections.deque()
        self._types: dict[str, str] = {}
        #: How many versions were given up so far.
        self.dropped = 0
        super().__init__()
        if isinstance(schema, Held):
            status, fault = self._status_on(schema, "ssz_session_start_on")
        else:
            status, fault = self._status("ssz_session_start", *_data(schema))
        if status:
            raise error_of(status, fault.code, fault.position)

    def _of(self, name: str) -> str:
        """The type of a version, for errors."""
        return self._types.get(name, "")

    def drop_later(self, name: str) -> None:
        """Gives a version up before the next call; also from a finalizer, which may run in the midst of one."""
        self._gone.append(name)

    def _drop_those(self) -> None:
        """Gives up what was to be dropped; a version that could not be for lack of memory is kept for the next time."""
        for _ in range(len(self._gone)):
            name = self._gone.popleft()
            status, _fault = super()._status("ssz_session_drop", *_name(name))
            if status == Status.NO_MEMORY:
                self._gone.append(name)
                return
            self._types.pop(name, None)
            self.dropped += 1

    def _status(self, call: str, *words: Any) -> tuple[int, Fault]:
        """Makes a call, after those that give up what was dropped."""
        with self.lock:
            self._drop_those()
            return super()._status(call, *words)

    def _do(self, call: str, *words: Any, type: str = "", path: str = "") -> None:
        """Does a statement. The type and the path are what an error tells."""
        self._call(f"ssz_session_{call}", *words, type=type, path=path)

    def run(self, line: str) -> str:
        """Does the statement that a line says (docs/formats.md), and returns the reply that `ssz run` prints."""
        with self.lock:
            reply = self._run(line)
            self._follow(line.split())
        return reply

    def _run(self, line: str) -> str:
        """Does a statement, of which errors tell the line."""
        count, path = ctypes.c_uint64(), line if len(line) < 80 else line[:77] + "..."
        status, fault = self._status("ssz_session_run", *_word(line, "a line"), ctypes.byref(count))
        if status == Status.REFUSED:
            words = self._filled("ssz_session_reply", room=count.value).decode().split()
            if len(words) == 6 and words[3] == "BadLiteral":
                raise error_of(Status.INVALID, int(words[4][1:]), int(words[5]), path=path)
            raise error_of(status, int(words[2]), int(words[1]), path=path)
        if status:
            raise error_of(status, fault.code, fault.position, path=path)
        return self._filled("ssz_session_reply", room=count.value).decode().rstrip("\n")

    def _follow(self, words: list[str]) -> None:
        """Keeps the types of versions after a line that the library has done."""
        kind = words[0] if words else ""
        if kind in ("new", "lit"):
            self._types[words[1]] = words[2]
        elif kind == "fork":
            self._types[words[2]] = self._of(words[1])
        elif kind == "upgrade":
            self._types[words[2]] = words[3]
        elif kind == "drop":
            self._types.pop(words[1], None)
            self.dropped += 1

    def new(self, name: str, type: str) -> None:
        """Makes a version: the default of a type."""
        with self.lock:
            self._do("new", *_name(name), *_name(type), type=type)
            self._types[name] = type

    def load(self, name: str, type: str, data: bytes) -> None:
        """Makes a version: the value that the bytes encode."""
        words = _data(data)
        with self.lock:
            self._do("load", *_name(name), *_name(type), *words, type=type)
            self._types[name] = type

    def get(self, name: str, path: str = "/", room: int = _ROOM) -> bytes:
        """The encoding of the part at a path. `room` is how long it is, where that is known."""
        return self._filled("ssz_session_bytes", *_name(name), *_word(path), room=room, type=self._of(name), path=path)

    def set(self, name: str, path: str, data: bytes) -> None:
        """Makes the part at a path the value that the bytes encode."""
        self._do("set", *_name(name), *_word(path), *_data(data), type=self._of(name), path=path)

    def append(self, name: str, path: str, data: bytes) -> None:
        """Puts an element after the list's last one."""
        self._do("append", *_name(name), *_word(path), *_data(data), type=self._of(name), path=path)

    def pop(self, name: str, path: str) -> None:
        """Takes the list's last element away."""
        self._do("pop", *_name(name), *_word(path), type=self._of(name), path=path)

    def choose(self, name: str, path: str, selector: int, data: bytes) -> None:
        """Gives the union at a path another option, with the value that the bytes encode."""
        number = given.number_of(selector)
        if number is None or isinstance(selector, str):
            raise TypeError(f"a selector is a whole number, and {selector!r} was given.")
        if not 0 <= number < 256:
            raise error_of(Status.REFUSED, _BAD_SELECTOR, 0, type=self._of(name), path=path)
        self._do("choose", *_name(name), *_word(path), number, *_data(data), type=self._of(name), path=path)

    def length(self, name: str, path: str) -> int:
        """How many elements or bits the part has."""
        count = ctypes.c_uint64()
        self._do("len", *_name(name), *_word(path), ctypes.byref(count), type=self._of(name), path=path)
        return count.value

    def see(self, name: str, path: str) -> None:
        """Raises NoSuchPart where the path fits the type, and the value has no such part."""
        count = ctypes.c_uint64()
        status, fault = self._status("ssz_session_len", *_name(name), *_word(path), ctypes.byref(count))
        if status and not (status == Status.REFUSED and fault.code == _NOT_THAT):
            raise error_of(status, fault.code, fault.position, type=self._of(name), path=path)

    def fork(self, name: str, other: str) -> None:
        """Gives another name the value of a version: the same nodes, at no cost."""
        with self.lock:
            self._do("fork", *_name(name), *_name(other))
            self._types[other] = self._of(name)

    def upgrade(self, name: str, other: str, type: str) -> None:
        """Gives another name a value of a container, with the fields that a version has too and the defaults of the others."""
        with self.lock:
            self._do("upgrade", *_name(name), *_name(other), *_name(type), type=type)
            self._types[other] = type

    def drop(self, name: str) -> None:
        """Gives a version up. Its nodes stay until `compact`."""
        with self.lock:
            self._do("drop", *_name(name))
            self._types.pop(name, None)
            self.dropped += 1

    def compact(self) -> None:
        """Gives up the nodes that no version needs. Those that are needed are in memory twice while it runs."""
        self._do("compact")

    def nodes(self) -> int:
        """How many nodes there are, with those that no version needs any more: a measure of when to compact."""
        count = ctypes.c_uint64()
        self._do("nodes", ctypes.byref(count))
        return count.value

    def root(self, name: str) -> bytes:
        """The hash_tree_root of a version."""
        root = ctypes.create_string_buffer(32)
        self._do("root", *_name(name), root)
        return root.raw

    def node(self, name: str, path: str) -> bytes:
        """The chunk at the generalized index of a part that is there: of all but numbers, booleans and bits its hash_tree_root."""
        with self.lock:
            self.see(name, path)
            return self._filled("ssz_session_prove", *_name(name), *_word(path), type=self._of(name), path=path)[:32]

    def prove(self, name: str, *paths: str | int) -> Proof:
        """The multiproof of the parts at these paths or generalized indices."""
        with self.lock:
            return self._prove_at(name, [self._index(name, path) for path in paths], " ".join(map(str, paths)))

    def _index(self, name: str, path: str | int) -> int:
        """The generalized index that a path, a number or its digits say."""
        index = given.number_of(path)
        if index is None and isinstance(path, str):
            return self._gindex(name, path)
        if index is None or not 0 <= index < 1 << 128:
            raise error_of(Status.SYNTAX, 0, 0, type=self._of(name), path=str(path))
        return index

    def _gindex(self, name: str, path: str) -> int:
        """The generalized index of a path in a version."""
        type, index = self._of(name), Index()
        if not type:
            self.see(name, "/")
        self._do("gindex", *_name(type), *_word(path), ctypes.byref(index), type=type, path=path)
        return index.low | index.high << 64

    def _prove_at(self, name: str, indices: list[int], path: str) -> Proof:
        """The multiproof of the nodes at these generalized indices, of which the library tells how many entries it has."""
        asked = (Index * len(indices))(*(Index(index & (1 << 64) - 1, index >> 64) for index in indices))
        leaves, count = ctypes.c_uint64(), ctypes.c_uint64(128 * max(1, len(indices)))
        status, fault = int(Status.NO_ROOM), Fault()
        while status == Status.NO_ROOM:
            room = (Entry * count.value)()
            status, fault = self._status("ssz_session_prove_all", *_name(name), asked, len(asked), room, len(room),
                                         ctypes.byref(leaves), ctypes.byref(count))
        if status:
            raise error_of(status, fault.code, fault.position, type=self._of(name), path=path)
        return Proof.of_entries(room[: leaves.value], room[leaves.value : count.value])

    def names(self) -> list[str]:
        """The names of the versions."""
        return self._run("list").split()[1:]
