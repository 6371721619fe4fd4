"""Commands on values: check, root, decode, encode, part, tree, diff, api-json."""

from __future__ import annotations

import argparse
import json
from typing import Any

from ..errors import SszError
from ..forms import Boolean, Uint
from ..schema import Type
from . import tree
from .progress import Progress
from .words import checked, json_of, problem, type_of, write

Given = argparse.Namespace


def check(given: Given) -> int:
    """Says whether bytes encode a value, and its root; or what is wrong, and where."""
    kind = type_of(given.schema, given.type)
    data = checked(kind, given.value, given.hex)
    with Progress(f"hashing {len(data):,} bytes"):
        root = kind.hash_tree_root(data)
    print(f"valid: {kind.name} in {len(data):,} bytes, root 0x{root.hex()}")
    return 0


def root(given: Given) -> int:
    """Prints the hash_tree_root of a value, or of a part of it."""
    kind = type_of(given.schema, given.type)
    data = checked(kind, given.value, given.hex)
    with Progress(f"hashing {len(data):,} bytes"):
        print(f"0x{root_at(kind, data, given.path).hex()}")
    return 0


def root_at(kind: Type, data: bytes, path: str) -> bytes:
    """The root of the part at a path. One of a basic type may share its chunk with others, and is a chunk of its own here."""
    if path == "/":
        return kind.hash_tree_root(data)
    if isinstance(kind.form_at(path), (Uint, Boolean)):
        return kind.part(data, path).ljust(32, b"\0")
    with kind.schema.session() as session:
        session.load("V", kind.name, data)
        return session.node("V", path)


def show_json(value: Any, is_short: bool) -> None:
    """Prints an object as JSON."""
    print(json.dumps(value, separators=(",", ":")) if is_short else json.dumps(value, indent=2))


def decode(given: Given) -> int:
    """Prints a value as JSON, as the specifications' test vectors have it."""
    kind = type_of(given.schema, given.type)
    data = checked(kind, given.value, given.hex)
    with Progress(f"decoding {len(data):,} bytes"):
        form = kind.form if given.path == "/" else kind.form_at(given.path)
        value = form.shown(form.decode(data if given.path == "/" else kind.part(data, given.path)))
    show_json(value, given.short)
    return 0


def encode(given: Given) -> int:
    """Writes the bytes of a value that is given as JSON."""
    kind = type_of(given.schema, given.type)
    value = json_of(given.json)
    with Progress("encoding"):
        data = encoded(kind, value, given.json)
    write(data, given.out)
    return 0


def encoded(kind: Type, value: Any, word: str) -> bytes:
    """The bytes of an object from a word of the command line."""
    try:
        return kind.encode_bytes(value)
    except SszError as error:
        raise problem(word[:40], f"this is no {kind.name}: {error}") from None


def part(given: Given) -> int:
    """Writes the bytes of a part of a value."""
    kind = type_of(given.schema, given.type)
    write(kind.part(checked(kind, given.value, given.hex), given.path), given.out)
    return 0


def show_tree(given: Given) -> int:
    """Lists the parts of a value: path, generalized index, where in the bytes, type and value."""
    kind = type_of(given.schema, given.type)
    data = checked(kind, given.value, given.hex)
    kind.gindex(given.path)
    try:
        lines = tree.table(kind, data, given.path, given.depth, given.most)
        print("\n".join([tree.HEAD, *lines]))
    except LookupError as error:
        raise problem(given.path, str(error)) from None
    return 0


def diff(given: Given) -> int:
    """Lists the parts in which two values differ; the status is then 1."""
    kind = type_of(given.schema, given.type)
    one, other = checked(kind, given.value, given.hex), checked(kind, given.other, given.hex)
    found = False
    with Progress("comparing"):
        for line in tree.differences(kind.form, one, other):
            print(line)
            found = True
    return int(found)


def api_json(given: Given) -> int:
    """Prints a value as the Beacon API's JSON, or with --back writes the bytes of such JSON."""
    kind = type_of(given.schema, given.type)
    if not given.back:
        data = checked(kind, given.value, given.hex)
        with Progress(f"decoding {len(data):,} bytes"):
            value = kind.form.shown(kind.form.decode(data), api=True)
        show_json(value, given.short)
        return 0
    value = json_of(given.value)
    if isinstance(value, dict) and "data" in value and "data" not in kind.fields:
        value = value["data"]
    write(encoded(kind, value, given.value), given.out)
    return 0
