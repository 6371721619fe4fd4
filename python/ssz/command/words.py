"""The words of a command line: schemas, values and texts, from files, standard input and digits."""

from __future__ import annotations

import collections
import json
import os
import re
import sys
from pathlib import Path
from typing import Any

from .. import ethereum
from ..errors import SszError
from ..schema import Schema, Type
from . import snappy
from .progress import Progress

_ROOT = re.compile(rb"(?:root )?(?:0x)?([0-9a-fA-F]{64})\s*")
_DIGITS = re.compile(rb"\s*(0x)?([0-9a-fA-F]{2}\s*)+")


class Problem(Exception):
    """What a word does not do, and what to do about it."""


def problem(word: str, why: str, advice: str = "") -> Problem:
    """The problem with a word of the command line."""
    return Problem(f"{'standard input' if word == '-' else word}: {why.rstrip('.')}. {advice}".rstrip())


def content(word: str) -> bytes:
    """The bytes of a file, or of standard input."""
    try:
        with Progress(f"reading {word}"):
            return sys.stdin.buffer.read() if word == "-" else Path(word).read_bytes()
    except FileNotFoundError:
        raise problem(word, "there is no such file", f"This is looked for in {os.getcwd()}; bytes as digits begin with 0x.") from None
    except IsADirectoryError:
        raise problem(word, "this is a folder", "Name the file in it.") from None
    except OSError as error:
        raise problem(word, f"it can't be read ({error.strerror})") from None


def schema_of(word: str) -> Schema:
    """The schema of a file, or of a fork by its name."""
    if word != "-" and not os.path.exists(word):
        if word.removeprefix("minimal/") in ethereum.FORKS:
            return ethereum.fork(word)
        raise problem(word, "there is no such file, and no fork of this name",
                      f"The forks are {', '.join(ethereum.FORKS)}, and minimal/phase0 and so on.")
    try:
        return Schema(content(word))
    except SszError as error:
        raise problem(word, f"this is no schema: {error}") from None


def type_of(schema: str, name: str) -> Type:
    """The type of a schema."""
    try:
        return schema_of(schema).type(name)
    except SszError as error:
        raise problem(name, f"{schema} has no such type", error.advice) from None


def is_digits(word: str) -> bool:
    """Whether a word is bytes as digits, and no file."""
    return word[:2] in ("0x", "0X") and not os.path.exists(word)


def value_of(word: str, as_hex: bool = False) -> bytes:
    """The bytes of a value: of a file, of standard input, or of digits."""
    if is_digits(word):
        return unhex(word, word)
    data = content(word)
    if as_hex:
        return unhex(data.decode("ascii", "replace"), word)
    if word.endswith("_snappy"):
        try:
            return snappy.decompress(data)
        except ValueError as error:
            raise problem(word, f"this is not compressed by snappy ({error})") from None
    return data


def unhex(text: str, word: str) -> bytes:
    """The bytes of hexadecimal digits, with blanks and line feeds between them."""
    digits = "".join(text.split())
    digits = digits[2:] if digits[:2] in ("0x", "0X") else digits
    try:
        return bytes.fromhex(digits)
    except ValueError:
        bad = next((digit for digit in digits if digit not in "0123456789abcdefABCDEF"), None)
        why = f"{bad!r} is no hexadecimal digit" if bad else f"there are {len(digits)} digits, and two make a byte"
        raise problem(word if len(word) < 40 else word[:37] + "...", why) from None


def checked(kind: Type, word: str, as_hex: bool = False) -> bytes:
    """The bytes of a value that are known to encode one of the type."""
    data = value_of(word, as_hex)
    try:
        with Progress(f"checking {len(data):,} bytes"):
            kind.check(data)
    except SszError as error:
        hint = ""
        if not as_hex and not is_digits(word) and _DIGITS.fullmatch(data[:64]):
            hint = " The file holds hexadecimal digits: add --hex."
        raise Problem(f"{'standard input' if word == '-' else word}: {error}{hint}") from None
    return data


def json_of(word: str) -> Any:
    """The JSON of a file, of standard input, or of the word itself."""
    text = word.encode("utf-8", "surrogateescape") if word[:1] in ("{", "[", '"') else content(word)
    try:
        return json.loads(text, object_pairs_hook=_object)
    except ValueError as error:
        raise problem(word[:40], f"this is no JSON ({error})") from None
    except RecursionError:
        raise problem(word[:40], "arrays and objects stand too deep in one another") from None


def _object(members: list[tuple[str, Any]]) -> dict[str, Any]:
    """An object of JSON, none of whose members is lost."""
    counts = collections.Counter(name for name, _ in members)
    if len(counts) < len(members):
        raise ValueError(f"an object has the member {counts.most_common(1)[0][0]!r} twice")
    return dict(members)


def write(data: bytes, out: str | None) -> None:
    """Writes bytes to a file; with no name as digits to standard output, and to - as they are."""
    if out is None:
        print(f"0x{data.hex()}")
    elif out == "-":
        sys.stdout.buffer.write(data)
    else:
        try:
            Path(out).write_bytes(data)
        except OSError as error:
            raise problem(out, f"it can't be written ({error.strerror})") from None


def root_of(word: str) -> bytes:
    """A root: digits, or a file with the line that `ssz root` prints, with digits, or with its 32 bytes."""
    text = word.encode() if is_digits(word) else content(word)
    if not is_digits(word) and len(text) == 32:
        return text
    found = _ROOT.fullmatch(text)
    if not found:
        raise problem(word[:40], "this is no root", "A root is 0x and 64 hexadecimal digits, or a file with that.")
    return bytes.fromhex(found[1].decode())
