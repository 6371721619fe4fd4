"""SimpleSerialize from Python, over the static library of crates/ssz_c linked as a shared one.

    import ssz

    library = ssz.Library("./libssz_c.so")
    with library.schema(schema_bytes) as schema:
        state = schema.type("BeaconState")
        root = state.root(encoded)
        index = state.gindex("/finalized_checkpoint/root")
        slot = state.part(encoded, "/slot")
        opened = state.open(encoded)
    epoch = opened.part("/finalized_checkpoint/epoch")
    library.verify(root, proof_text)

    with library.session(schema_bytes) as session:
        session.run("new S BeaconState")
        session.run("set S /slot 0x0100000000000000")
        proof_text = session.run("prove S /slot")

A call that is refused raises an SszError, which carries the status, the fault's code and its
position.
"""

from __future__ import annotations

import ctypes
from enum import IntEnum
from types import TracebackType
from typing import Optional, Type, TypeVar


class Status(IntEnum):
    """What a call answers: the SSZ_ numbers of ssz.h."""

    OK = 0
    NO_HANDLE = 1
    NO_TYPE = 2
    TOO_LONG = 3
    INVALID = 4
    BAD_SCHEMA = 5
    SYNTAX = 6
    BAD_PATH = 7
    ABSENT = 8
    BAD_PROOF = 9
    UNLIKE = 10
    NO_MEMORY = 11
    NO_ROOM = 12
    REFUSED = 13
    NO_READ = 14
    NO_WRITE = 15
    NULL = 16
    NO_PLACE = 17
    BAD_JSON = 18


class SszError(Exception):
    """Why a call did not do what it was asked.

    Of INVALID the code is 1 to 11 for F1 to F11 and the position a byte; of BAD_SCHEMA the code is
    1 to 15 for S1 to S15 and the position the number of a definition; of what a session did not do
    the position is the number of the line. Else both are 0.
    """

    def __init__(self, status: Status, code: int = 0, position: int = 0) -> None:
        super().__init__(f"{status.name}, code {code}, position {position}")
        self.status = status
        self.code = code
        self.position = position


class Refused(SszError):
    """A session refused a line: the code is that of the reply, 1 to 18, and the position the line's
    number. The reply, as "refused 2 4 NameTaken", says the first fault of bytes too."""

    def __init__(self, reply: str) -> None:
        words = reply.split(" ")
        super().__init__(Status.REFUSED, int(words[2]), int(words[1]))
        self.name = words[3]
        self.reply = reply


class _Fault(ctypes.Structure):
    _fields_ = [
        ("status", ctypes.c_uint32),
        ("code", ctypes.c_uint32),
        ("position", ctypes.c_uint64),
    ]


class _Handle(ctypes.Structure):
    _fields_ = [("live", ctypes.c_uint64), ("held", ctypes.c_void_p)]


class _Index(ctypes.Structure):
    _fields_ = [("low", ctypes.c_uint64), ("high", ctypes.c_uint64)]


_BYTES = [ctypes.c_char_p, ctypes.c_size_t]
_HANDLE = [ctypes.POINTER(_Handle)]
_FAULT = [ctypes.POINTER(_Fault)]
_NUMBER = [ctypes.c_uint64]
_LENGTH = [ctypes.POINTER(ctypes.c_uint64)]

_CALLS = {
    "ssz_schema_read": _HANDLE + _BYTES + _FAULT,
    "ssz_schema_free": _HANDLE,
    "ssz_type": _HANDLE + _BYTES + _LENGTH + _FAULT,
    "ssz_check": _HANDLE + _NUMBER + _BYTES + _FAULT,
    "ssz_root": _HANDLE + _NUMBER + _BYTES + [ctypes.POINTER(ctypes.c_uint8 * 32)] + _FAULT,
    "ssz_gindex": _HANDLE + _NUMBER + _BYTES + [ctypes.POINTER(_Index)] + _FAULT,
    "ssz_verify": [ctypes.c_char_p] + _BYTES,
    "ssz_part": _HANDLE + _NUMBER + _BYTES + _BYTES + _BYTES + _LENGTH + _FAULT,
    "ssz_names": _HANDLE + _BYTES + _LENGTH + _FAULT,
    "ssz_slice_open": _HANDLE + _HANDLE + _NUMBER + _BYTES + _FAULT,
    "ssz_slice_part": _HANDLE + _BYTES + _BYTES + _LENGTH + _FAULT,
    "ssz_slice_close": _HANDLE,
    "ssz_session_start": _HANDLE + _BYTES + _FAULT,
    "ssz_session_start_on": _HANDLE + _HANDLE + _FAULT,
    "ssz_session_run": _HANDLE + _BYTES + _LENGTH + _FAULT,
    "ssz_session_reply": _HANDLE + _BYTES + _LENGTH + _FAULT,
    "ssz_session_end": _HANDLE,
}


class Library:
    """The shared library at a path."""

    def __init__(self, path: str) -> None:
        self._calls = ctypes.CDLL(path)
        for name, words in _CALLS.items():
            call = getattr(self._calls, name)
            call.argtypes = words
            call.restype = ctypes.c_uint32

    def schema(self, text: bytes) -> Schema:
        """The schema that the bytes of a schema file define."""
        return Schema(self._calls, "ssz_schema_read", text, len(text))

    def session(self, schema: bytes) -> Session:
        """A session over the schema that the bytes of a schema file define."""
        return Session(self._calls, "ssz_session_start", schema, len(schema))

    def verify(self, root: bytes, proof: bytes) -> bool:
        """Whether the multiproof that the text says leads to the root of 32 bytes."""
        if len(root) != 32:
            raise ValueError("a root has 32 bytes")
        status = Status(self._calls.ssz_verify(root, proof, len(proof)))
        if status in (Status.OK, Status.UNLIKE):
            return status == Status.OK
        raise SszError(status)


_Self = TypeVar("_Self", bound="_Held")


class _Held:
    """What a handle holds, which is given up by `close` or at the end of a `with`."""

    _end: str

    def __init__(self, calls: ctypes.CDLL, begin: str, *words: object) -> None:
        self._calls = calls
        self._handle = _Handle(0, None)
        self._call(begin, *words)

    def _call(self, name: str, *words: object) -> None:
        fault = _Fault()
        call = getattr(self._calls, name)
        status = Status(call(ctypes.byref(self._handle), *words, ctypes.byref(fault)))
        if status != Status.OK:
            raise SszError(status, fault.code, fault.position)

    def _filled(self, name: str, *words: object) -> bytes:
        """Makes a call that copies bytes, with more room where they need more."""
        room, count = ctypes.create_string_buffer(64), ctypes.c_uint64()
        try:
            self._call(name, *words, room, len(room), ctypes.byref(count))
        except SszError as error:
            if error.status != Status.NO_ROOM:
                raise
            room = ctypes.create_string_buffer(count.value)
            self._call(name, *words, room, len(room), ctypes.byref(count))
        return room.raw[: count.value]

    def close(self) -> None:
        """Frees what is held; a later call raises NO_HANDLE."""
        getattr(self._calls, self._end)(ctypes.byref(self._handle))

    def __del__(self) -> None:
        self.close()

    def __enter__(self: _Self) -> _Self:
        return self

    def __exit__(
        self,
        kind: Optional[Type[BaseException]],
        error: Optional[BaseException],
        trace: Optional[TracebackType],
    ) -> None:
        self.close()


class Schema(_Held):
    """A schema, which is freed by `close` or at the end of a `with`."""

    _end = "ssz_schema_free"

    def type(self, name: str) -> SszType:
        """The type of this name."""
        text = name.encode()
        number = ctypes.c_uint64()
        self._call("ssz_type", text, len(text), ctypes.byref(number))
        return SszType(self, number.value)

    def names(self) -> list[str]:
        """The names of all types, the built-in ones too, in byte order."""
        return self._filled("ssz_names").decode().splitlines()

    def session(self) -> Session:
        """A session over this schema, of which it has a copy."""
        return Session(self._calls, "ssz_session_start_on", ctypes.byref(self._handle))


class Session(_Held):
    """Versions of values under names, edited by statements, one line at a time; ended by `close` or
    at the end of a `with`."""

    _end = "ssz_session_end"

    def run(self, line: str) -> str:
        """Does the statement that a line says, and returns the reply without its line feed: the line
        that `ssz run` prints, or nothing for a line that is blank or a comment.

        Raises Refused where the statement is refused, and SszError with NO_READ or NO_WRITE where it
        comes to read or to write a file, which a session does not have. No version is then changed.
        """
        text = line.encode()
        count = ctypes.c_uint64()
        try:
            self._call("ssz_session_run", text, len(text), ctypes.byref(count))
        except SszError as error:
            if error.status == Status.REFUSED:
                raise Refused(self._reply(count.value)) from None
            raise
        return self._reply(count.value)

    def _reply(self, count: int) -> str:
        room = ctypes.create_string_buffer(max(1, count))
        self._call("ssz_session_reply", room, count, ctypes.byref(ctypes.c_uint64()))
        return room.raw[:count].decode().rstrip("\n")


class Slice(_Held):
    """Bytes that were checked once as a value of a type, of which many parts are asked; given up by
    `close` or at the end of a `with`. It has a copy of the bytes and shares the schema."""

    _end = "ssz_slice_close"

    def part(self, path: str) -> bytes:
        """The encoding of the part at a path."""
        text = path.encode()
        return self._filled("ssz_slice_part", text, len(text))


class SszType:
    """A type of a schema."""

    def __init__(self, schema: Schema, number: int) -> None:
        self._schema = schema
        self._number = number

    def check(self, encoded: bytes) -> None:
        """Raises INVALID with the first fault of bytes that encode no value of the type."""
        self._schema._call("ssz_check", self._number, encoded, len(encoded))

    def root(self, encoded: bytes) -> bytes:
        """The hash_tree_root of the value that the bytes encode."""
        root = (ctypes.c_uint8 * 32)()
        self._schema._call(
            "ssz_root", self._number, encoded, len(encoded), ctypes.byref(root)
        )
        return bytes(root)

    def gindex(self, path: str) -> int:
        """The generalized index of the part at a path."""
        text = path.encode()
        index = _Index()
        self._schema._call(
            "ssz_gindex", self._number, text, len(text), ctypes.byref(index)
        )
        return index.low | index.high << 64

    def open(self, encoded: bytes) -> Slice:
        """The bytes, checked once."""
        schema = self._schema
        handle = ctypes.byref(schema._handle)
        return Slice(
            schema._calls, "ssz_slice_open", handle, self._number, encoded, len(encoded)
        )

    def part(self, encoded: bytes, path: str) -> bytes:
        """The encoding of the part at a path of the value that the bytes encode."""
        text = path.encode()
        # Room for a slice of the whole, a bit or a length; too little would raise NO_ROOM.
        room = ctypes.create_string_buffer(max(8, len(encoded)))
        count = ctypes.c_uint64()
        self._schema._call(
            "ssz_part",
            self._number,
            encoded,
            len(encoded),
            text,
            len(text),
            room,
            len(room),
            ctypes.byref(count),
        )
        return room.raw[: count.value]
