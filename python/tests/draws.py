"""Types and values drawn at random, of every form."""

from __future__ import annotations

import random
from typing import Any

from ssz.forms import Bits, Boolean, Container, Form, Series, Uint, Union

BASIC = ["boolean", "byte", "uint8", "uint16", "uint32", "uint64", "uint128", "uint256"]
KINDS = ["basic", "bytes", "vector", "list", "bitvector", "bitlist", "container", "union"]


def spelled(draw: random.Random, depth: int, kind: str = "") -> Any:
    """A form of a schema, as deep as told, of a kind or of any."""
    kind = kind or draw.choice(KINDS if depth else ["basic", "bytes", "bitvector", "bitlist"])
    if kind == "basic":
        return draw.choice(BASIC)
    if kind == "bytes":
        return {draw.choice(["vector", "list"]): ["byte", draw.choice([1, 4, 32, 48, 100])]}
    if kind in ("bitvector", "bitlist"):
        return {kind: draw.choice([1, 7, 8, 9, 255, 256, 300])}
    if kind == "vector":
        return {kind: [spelled(draw, depth - 1), draw.randint(1, 5)]}
    if kind == "list":
        return {kind: [spelled(draw, depth - 1), draw.choice([1, 3, 9, 1000, 1 << 20])]}
    if kind == "container":
        return {kind: [[f"f{place}", spelled(draw, depth - 1)] for place in range(draw.randint(1, 5))]}
    options: list[Any] = [spelled(draw, depth - 1) for _ in range(draw.randint(1, 3))]
    return {kind: [None, *options] if draw.random() < 0.5 else options}


def schema(draw: random.Random, count: int) -> dict[str, Any]:
    """A schema of so many types, T0 and on, of all kinds in turn."""
    types = [[f"T{place}", spelled(draw, 3, KINDS[place % len(KINDS)])] for place in range(count)]
    return {"ssz": 1, "types": types}


def value(draw: random.Random, form: Form) -> Any:
    """A value of a type, as Python's own object."""
    if isinstance(form, Uint):
        return draw.choice([0, 1, (1 << 8 * form.size) - 1, draw.getrandbits(8 * form.size)])
    if isinstance(form, Boolean):
        return draw.random() < 0.5
    if isinstance(form, Bits):
        count = draw.randint(0, form.length) if form.is_list else form.length
        return [draw.random() < 0.5 for _ in range(count)]
    if isinstance(form, Series):
        count = draw.randint(0, min(form.length, 9)) if form.is_list else form.length
        return bytes(draw.randbytes(count)) if form.is_bytes else [value(draw, form.element) for _ in range(count)]
    if isinstance(form, Container):
        return {name: value(draw, each) for name, each in form.fields.items()}
    assert isinstance(form, Union)
    selector = draw.randrange(len(form.options))
    chosen = form.options[selector]
    return selector, None if chosen is None else value(draw, chosen)


def changed(draw: random.Random, data: bytes) -> bytes:
    """Bytes like others, most of which encode no value."""
    bytes_ = bytearray(data)
    for _ in range(draw.randint(1, 2)):
        way = draw.randrange(4)
        if way == 0 and bytes_:
            del bytes_[draw.randrange(len(bytes_)):]
        elif way == 1:
            bytes_ += draw.randbytes(draw.randint(1, 40))
        elif bytes_:
            bytes_[draw.randrange(min(len(bytes_), 40))] = draw.randrange(256)
    return bytes(bytes_)


def part(draw: random.Random, form: Form, data: bytes) -> tuple[str, Form]:
    """The path of a part of a value, and its type."""
    path, start, end = "", 0, len(data)
    while draw.random() < 0.8:
        below = list(form.parts(data, start, end))
        if not below:
            break
        step, form, start, end = draw.choice(below)
        path = f"{path}/{step}"
    return path or "/", form
