"""What callers hand in, judged and taken before anything is done with it.

An answer of None says that an object is not of the kind that was asked for; the caller says where, and what is wanted.
"""

from __future__ import annotations

import operator
import re
import sys
from collections.abc import Mapping, Set
from typing import Any, Optional

_DECIMAL = re.compile(r"0|[1-9][0-9]{0,77}")
_HEX = re.compile(r"0x(?:[0-9a-fA-F]{2})*")
_LITTLE = sys.byteorder == "little"
#: Items of buffers: numbers without a sign, bytes, and all whose bytes are taken as they stand in memory.
_UNSIGNED, _BYTES, _WHOLE = frozenset("BHILQN"), frozenset("Bc"), frozenset("?cbBhHiIlLqQnN")


def bytes_of(data: Any, what: str = "the bytes") -> bytes:
    """All bytes of an object of the buffer protocol. What can change is copied, since calls of the library run beside other threads."""
    if type(data) is bytes:
        return data
    try:
        view = memoryview(data)
    except (TypeError, ValueError, BufferError):
        raise TypeError(f"{what} are wanted as bytes, bytearray, memoryview or array, and {_kind(data)} was given. {_advice(data)}".rstrip()) from None
    with view:
        if not view.c_contiguous:
            raise TypeError(f"{what} are not side by side in this {_kind(data)}. Copy them first: bytes(..).")
        if view.ndim == 0 or not _is_whole(view):
            raise TypeError(f"{what} are wanted, and this {_kind(data)} has items of another kind ({view.format}).")
        return view.tobytes()


def _is_whole(view: memoryview) -> bool:
    """Whether the items of a buffer are whole numbers in the order of bytes that this machine has."""
    native = "<" if _LITTLE else ">"
    return view.format.lstrip("@=" + native) in _WHOLE or view.itemsize == 1 and view.format[-1:] in _WHOLE


def _kind(value: Any) -> str:
    return type(value).__name__


def _advice(value: Any) -> str:
    if isinstance(value, str):
        return "Of hexadecimal digits, bytes.fromhex(..) makes bytes."
    return "Give value.encode_bytes()." if hasattr(value, "encode_bytes") else ""


def word_of(text: Any, what: str) -> bytes:
    """The bytes of a text. What is no Unicode becomes bytes that the library refuses."""
    if not isinstance(text, str):
        raise TypeError(f"{what} is text (str), and {_kind(text)} was given.")
    return str.encode(text, "utf-8", "surrogatepass")


def is_truth(value: Any) -> bool:
    """Whether an object is a truth value, of Python or of numpy."""
    return is_truth_kind(type(value))


def is_truth_kind(kind: type) -> bool:
    """Whether the objects of a class are truth values."""
    return kind is bool or kind.__module__ == "numpy" and kind.__name__ in ("bool_", "bool")


def number_of(value: Any) -> Optional[int]:
    """The whole number that an object is, or that decimal digits say: without a sign, leading zeros or blanks."""
    if isinstance(value, str):
        return int(value) if _DECIMAL.fullmatch(value) else None
    if is_truth(value):
        return None
    try:
        return operator.index(value)
    except TypeError:
        return None


def truth_of(value: Any) -> Optional[bool]:
    """The truth value that an object is: True, False, 0, 1, or numpy's."""
    if is_truth(value):
        return bool(value)
    try:
        return {0: False, 1: True}.get(operator.index(value))
    except TypeError:
        return None


def hex_of(text: str) -> Optional[bytes]:
    """The bytes of a text of 0x and two hexadecimal digits for each."""
    return bytes.fromhex(text[2:]) if _HEX.fullmatch(text) else None


def is_bytes(value: Any) -> bool:
    """Whether an object is bytes, which are no list but one of bytes."""
    return isinstance(value, (bytes, bytearray)) or isinstance(value, memoryview) and value.format in _BYTES


def items_of(value: Any) -> Optional[list[Any]]:
    """All items of an iterable, in order. Text and bytes are none, and what has no order: sets and mappings."""
    if isinstance(value, (str, Set, Mapping)) or is_bytes(value):
        return None
    try:
        items = iter(value.tolist() if isinstance(value, memoryview) else value)
    except (TypeError, NotImplementedError):
        return None
    return list(items)


def machine_of(value: Any, size: int) -> Optional[bytes]:
    """The little-endian bytes of an array whose items are numbers without a sign, of so many bytes each."""
    if not _LITTLE or isinstance(value, (list, tuple)):
        return None
    try:
        view = memoryview(value)
    except (TypeError, ValueError, BufferError):
        return None
    with view:
        is_such = view.ndim == 1 and view.itemsize == size and (view.format in _UNSIGNED or view.format == "c")
        return view.tobytes() if is_such else None


def truths_of(value: Any) -> Optional[bytes]:
    """A byte for each bit of an iterable, 0 or 1."""
    items = items_of(value)
    if items is None:
        return None
    try:
        bits = bytes(items)
    except (TypeError, ValueError):
        found = [truth_of(item) for item in items]
        return None if None in found else bytes(found)  # type: ignore[arg-type]
    return bits if bits.count(0) + bits.count(1) == len(bits) else None


def are_numbers(items: list[Any]) -> bool:
    """Whether all objects are whole numbers, by their classes: truth values, texts and floats are none."""
    return all(hasattr(kind, "__index__") and not is_truth_kind(kind) for kind in set(map(type, items)))
