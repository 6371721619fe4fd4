"""Bytes compressed by snappy, as consensus-spec-tests have them: by python3-snappy where it is there, else by the code here.

Both say the same of all bytes: what python3-snappy may read in its own way is judged here.
"""

from __future__ import annotations

from typing import Any, Optional

#: In the place of a copy's offset: the element is a literal, whose bytes follow.
_LITERAL = -1
#: Three bytes make at most 64, as a copy with an offset of two bytes. No element makes more of its bytes.
_GIVEN, _MADE = 3, 64
#: The head of a literal of 2^32 bytes. Google's library counts modulo 2^32, and takes it for a literal of none.
_LONGEST_LITERAL = b"\xfc\xff\xff\xff\xff"


def decompress(data: bytes) -> bytes:
    """The bytes of a snappy block. Raises ValueError where it is none."""
    length, at = _length(data)
    if length * _GIVEN > (len(data) - at) * _MADE:
        raise ValueError(f"it tells a length of {length} bytes, and what follows makes fewer")
    uncompress = _uncompress()
    if uncompress is None or _LONGEST_LITERAL in data:
        return _decompressed(data)
    try:
        return bytes(uncompress(data))
    except MemoryError:
        raise
    except Exception as error:
        raise ValueError(str(error)) from None


def _uncompress() -> Optional[Any]:
    """The call of python3-snappy, or None where it is not there."""
    try:
        import snappy  # type: ignore[import]
    except ImportError:
        return None
    return getattr(snappy, "uncompress", None)


def _length(data: bytes) -> tuple[int, int]:
    """The length that a block tells, and where its elements begin."""
    length = 0
    for place, byte in enumerate(data[:5]):
        length |= (byte & 127) << 7 * place
        if byte < 128:
            break
    else:
        raise ValueError("it tells no length")
    if length >= 1 << 32:
        raise ValueError("it tells a length of 2^32 bytes or more")
    return length, place + 1


def _number(data: bytes, at: int, size: int) -> int:
    """The number of so many bytes."""
    if at + size > len(data):
        raise ValueError("it ends in the midst of an element")
    return int.from_bytes(data[at : at + size], "little")


def _element(data: bytes, at: int) -> tuple[int, int, int]:
    """Of the element at a byte: how many bytes it makes, the offset of its copy or _LITERAL, and where it goes on."""
    kind, count = data[at] & 3, data[at] >> 2
    if kind == 0:
        size = max(count - 59, 0)
        return (_number(data, at + 1, size) if size else count) + 1, _LITERAL, at + 1 + size
    if kind == 1:
        return (count & 7) + 4, (count >> 3) << 8 | _number(data, at + 1, 1), at + 2
    size = 2 if kind == 2 else 4
    return count + 1, _number(data, at + 1, size), at + 1 + size


def _copied(out: bytearray, offset: int, count: int) -> bytes:
    """The bytes of a copy, which begins so far before the end. One that reaches the end goes on with its own first bytes."""
    if not 0 < offset <= len(out):
        raise ValueError("a copy has offset 0, or begins before the first byte")
    start = len(out) - offset
    if count <= offset:
        return out[start : start + count]
    return (out[start:] * (count // offset + 1))[:count]


def _decompressed(data: bytes) -> bytes:
    """The bytes of a block (google/snappy, format_description.txt). They never become more than it tells."""
    length, at = _length(data)
    out = bytearray()
    while at < len(data):
        count, offset, at = _element(data, at)
        if count > length - len(out):
            raise ValueError("it holds more bytes than it tells")
        if offset != _LITERAL:
            out += _copied(out, offset, count)
        elif count > len(data) - at:
            raise ValueError("it ends in the midst of a literal")
        else:
            out += data[at : at + count]
            at += count
    if len(out) != length:
        raise ValueError("it holds fewer bytes than it tells")
    return bytes(out)
