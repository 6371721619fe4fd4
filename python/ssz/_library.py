"""The shared library libssz.so.0, and what its calls take (include/ssz.h)."""

from __future__ import annotations

import ctypes
import functools
import os
from pathlib import Path

SONAME = "libssz.so.0"
V3 = "glibc-hwcaps/x86-64-v3"
OWN_FOLDER = Path(__file__).resolve().parent / "lib"


class Fault(ctypes.Structure):
    """How a call ended."""

    _fields_ = [("status", ctypes.c_uint32), ("code", ctypes.c_uint32), ("position", ctypes.c_uint64)]


class Handle(ctypes.Structure):
    """A schema, a session or a slice of the library."""

    _fields_ = [("live", ctypes.c_uint64), ("held", ctypes.c_void_p)]


class Index(ctypes.Structure):
    """A generalized index."""

    _fields_ = [("low", ctypes.c_uint64), ("high", ctypes.c_uint64)]


class Stretch(ctypes.Structure):
    """Where the encoding of a part stands in that of the whole."""

    _fields_ = [("start", ctypes.c_uint64), ("len", ctypes.c_uint64)]


class Entry(ctypes.Structure):
    """A chunk of a proof, and its generalized index."""

    _fields_ = [("index", Index), ("chunk", ctypes.c_uint8 * 32)]


_BYTES = [ctypes.c_char_p, ctypes.c_size_t]
_ROOM = [ctypes.c_void_p, ctypes.c_size_t, ctypes.POINTER(ctypes.c_uint64)]
_HANDLE = [ctypes.POINTER(Handle)]
_FAULT = [ctypes.POINTER(Fault)]
_NUMBER = [ctypes.c_uint64]
_LENGTH = [ctypes.POINTER(ctypes.c_uint64)]
_CHUNK = [ctypes.c_void_p]
_ENTRIES = [ctypes.POINTER(Entry), ctypes.c_size_t]
_INDICES = [ctypes.POINTER(Index), ctypes.c_size_t]

_CALLS = {
    "ssz_version": [],
    "ssz_schema_read": _HANDLE + _BYTES + _FAULT,
    "ssz_schema_share": _HANDLE * 2 + _FAULT,
    "ssz_schema_free": _HANDLE,
    "ssz_type": _HANDLE + _BYTES + _LENGTH + _FAULT,
    "ssz_check": _HANDLE + _NUMBER + _BYTES + _FAULT,
    "ssz_root": _HANDLE + _NUMBER + _BYTES + _CHUNK + _FAULT,
    "ssz_gindex": _HANDLE + _NUMBER + _BYTES + [ctypes.POINTER(Index)] + _FAULT,
    "ssz_part": _HANDLE + _NUMBER + _BYTES * 2 + _ROOM + _FAULT,
    "ssz_place": _HANDLE + _NUMBER + _BYTES * 2 + [ctypes.POINTER(Stretch)] + _FAULT,
    "ssz_to_json": _HANDLE + _NUMBER + _BYTES + _ROOM + _FAULT,
    "ssz_of_json": _HANDLE + _NUMBER + _BYTES + _ROOM + _FAULT,
    "ssz_limit": _HANDLE + _NUMBER + _LENGTH + _FAULT,
    "ssz_names": _HANDLE + _ROOM + _FAULT,
    "ssz_type_name": _HANDLE + _NUMBER + _ROOM + _FAULT,
    "ssz_types": _HANDLE + _LENGTH + _FAULT,
    "ssz_slice_open": _HANDLE * 2 + _NUMBER + _BYTES + _FAULT,
    "ssz_slice_part": _HANDLE + _BYTES + _ROOM + _FAULT,
    "ssz_slice_place": _HANDLE + _BYTES + [ctypes.POINTER(Stretch)] + _FAULT,
    "ssz_slice_close": _HANDLE,
    "ssz_verify": [ctypes.c_char_p] + _BYTES,
    "ssz_verify_all": [ctypes.c_char_p] + _ENTRIES * 2,
    "ssz_session_start": _HANDLE + _BYTES + _FAULT,
    "ssz_session_start_on": _HANDLE * 2 + _FAULT,
    "ssz_session_end": _HANDLE,
    "ssz_session_run": _HANDLE + _BYTES + _LENGTH + _FAULT,
    "ssz_session_reply": _HANDLE + _ROOM + _FAULT,
    "ssz_session_new": _HANDLE + _BYTES * 2 + _FAULT,
    "ssz_session_load": _HANDLE + _BYTES * 3 + _FAULT,
    "ssz_session_bytes": _HANDLE + _BYTES * 2 + _ROOM + _FAULT,
    "ssz_session_len": _HANDLE + _BYTES * 2 + _LENGTH + _FAULT,
    "ssz_session_set": _HANDLE + _BYTES * 3 + _FAULT,
    "ssz_session_append": _HANDLE + _BYTES * 3 + _FAULT,
    "ssz_session_pop": _HANDLE + _BYTES * 2 + _FAULT,
    "ssz_session_choose": _HANDLE + _BYTES * 2 + [ctypes.c_uint8] + _BYTES + _FAULT,
    "ssz_session_fork": _HANDLE + _BYTES * 2 + _FAULT,
    "ssz_session_upgrade": _HANDLE + _BYTES * 3 + _FAULT,
    "ssz_session_drop": _HANDLE + _BYTES + _FAULT,
    "ssz_session_root": _HANDLE + _BYTES + _CHUNK + _FAULT,
    "ssz_session_gindex": _HANDLE + _BYTES * 2 + [ctypes.POINTER(Index)] + _FAULT,
    "ssz_session_prove": _HANDLE + _BYTES * 2 + _ROOM + _FAULT,
    "ssz_session_prove_all": _HANDLE + _BYTES + _INDICES + _ENTRIES + _LENGTH * 2 + _FAULT,
    "ssz_session_compact": _HANDLE + _FAULT,
    "ssz_session_nodes": _HANDLE + _LENGTH + _FAULT,
}


class LibraryMissing(ImportError):
    """The shared library was not found."""


def _is_v3() -> bool:
    """Whether the processor is an x86-64-v3, for which there may be a faster library."""
    try:
        lines = Path("/proc/cpuinfo").read_text().splitlines()
    except OSError:
        return False
    flags = next((line for line in lines if line.startswith("flags")), "").split()
    return {"avx2", "bmi1", "bmi2", "f16c", "fma", "abm", "movbe"} <= set(flags)


def _places() -> list[str]:
    """Where the library is looked for: the folder that SSZ_LIB_DIR names and no other, or the package's own and the system's."""
    named = os.environ.get("SSZ_LIB_DIR")
    folder = Path(named) if named else OWN_FOLDER
    files = [*([folder / V3 / SONAME] if _is_v3() else []), folder / SONAME]
    return [str(file) for file in files if file.exists()] or [str(folder / SONAME) if named else SONAME]


@functools.lru_cache(maxsize=None)
def _loaded() -> ctypes.CDLL:
    """The library, loaded once."""
    places = _places()
    for place in places:
        try:
            calls = ctypes.CDLL(place)
            break
        except OSError as error:
            why = str(error)
    else:
        raise LibraryMissing(
            f"{SONAME} could not be loaded from {' or '.join(places)} ({why}). Run ./install PREFIX in the repository, "
            f"and set SSZ_LIB_DIR=PREFIX/lib or build the wheel with it."
        )
    for name, words in _CALLS.items():
        call = getattr(calls, name)
        call.argtypes = words
        call.restype = ctypes.c_uint32
    return calls


def version() -> int:
    """The version of the library, as SSZ_VERSION of ssz.h."""
    return int(library().ssz_version())


def place() -> str:
    """The file of the library; its name where the system found it."""
    return str(library()._name)


class _Process:
    """Whether this process is the forked child of one that had loaded the library. In the child other threads are gone in the midst of
    calls, with what they had locked.
    """

    is_forked = False

    @classmethod
    def forked(cls) -> None:
        """Is called in a child, after the fork."""
        cls.is_forked = cls.is_forked or _loaded.cache_info().currsize > 0


if hasattr(os, "register_at_fork"):
    os.register_at_fork(after_in_child=_Process.forked)


def is_forked() -> bool:
    """Whether this process may make no call."""
    return _Process.is_forked


def library() -> ctypes.CDLL:
    """The library. Raises RuntimeError in the forked child of a process that had loaded it."""
    if _Process.is_forked:
        raise RuntimeError(
            "this process was forked from one that had loaded the library of ssz, and may not call it. Start processes by spawn: "
            'multiprocessing.get_context("spawn"), or subprocess.'
        )
    return _loaded()
