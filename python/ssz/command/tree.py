"""The parts of a value: with path, type, generalized index, and where their bytes stand; and the parts in which two values differ."""

from __future__ import annotations

import itertools
from typing import Iterator, NamedTuple

from ..forms import Form, Part, Series
from ..schema import Type

_SHOWN = 44


class Row(NamedTuple):
    """A part as the table has it."""

    path: str
    form: Form
    start: int
    end: int


def short(text: str, most: int = _SHOWN) -> str:
    """A text, cut where it is long."""
    return text if len(text) <= most else text[: most - 3] + "..."


def said(form: Form, data: bytes) -> str:
    """A part's value in a few words."""
    shown = form.shown(form.decode(data)) if is_leaf(form) else None
    if shown is not None:
        return short(str(shown).lower() if isinstance(shown, bool) else str(shown))
    count = sum(1 for _ in form.parts(data, 0, len(data)))
    return f"{count} {'elements' if isinstance(form, Series) else 'parts'}"


def is_leaf(form: Form) -> bool:
    """Whether the part is shown as one value: a number, a boolean, bytes or bits."""
    return type(form).parts is Form.parts or isinstance(form, Series) and form.is_bytes


def rows(form: Form, data: bytes, path: str, start: int, end: int, depth: int, most: int) -> Iterator[Row | str]:
    """The part and those below it, so many levels deep and at most so many a list; a text tells of what is left out."""
    yield Row(path or "/", form, start, end)
    if depth == 0 or is_leaf(form):
        return
    parts = form.parts(data, start, end)
    for part in itertools.islice(parts, most) if isinstance(form, Series) else parts:
        yield from rows(part.form, data, f"{path}/{part.step}", part.start, part.end, depth - 1, most)
    left = sum(1 for _ in parts)
    if left:
        yield f"{path}/..: {left:,} more (--most N shows more)"


def table(kind: Type, data: bytes, path: str, depth: int, most: int) -> Iterator[str]:
    """The lines of the tree below a path."""
    form, start, end = kind.form, 0, len(data)
    for step in path.split("/")[1:] if path != "/" else []:
        part = next((each for each in form.parts(data, start, end) if each.step == step), None)
        if part is None:
            raise LookupError(f"{path} is in no bytes of its own, or not there")
        form, start, end = part.form, part.start, part.end
    for row in rows(form, data, "" if path == "/" else path, start, end, depth, most):
        if isinstance(row, str):
            yield row
            continue
        place = f"{row.start}..{row.end}"
        yield f"{row.path:<40} {kind.gindex(row.path):>20} {place:>15}  {short(row.form.name, 32):<32} {said(row.form, data[row.start:row.end])}"


HEAD = f"{'path':<40} {'index':>20} {'bytes':>15}  {'type':<32} value"


def differences(form: Form, one: bytes, other: bytes, path: str = "") -> Iterator[str]:
    """The parts in which two values differ, a line each."""
    if one == other:
        return
    if is_leaf(form):
        yield f"{path or '/'}: {said(form, one)} -> {said(form, other)}"
        return
    pairs = itertools.zip_longest(form.parts(one, 0, len(one)), form.parts(other, 0, len(other)))
    for first, second in pairs:
        if first is None or second is None:
            yield f"{path}/{(first or second).step}: {_of(first, one)} -> {_of(second, other)}"
        elif first.step != second.step:
            yield f"{path or '/'}: option {first.step} -> option {second.step}"
        else:
            inner = one[first.start : first.end], other[second.start : second.end]
            yield from differences(first.form, *inner, f"{path}/{first.step}")


def _of(part: Part | None, data: bytes) -> str:
    """A part in words, or that there is none."""
    return "none" if part is None else said(part.form, data[part.start : part.end])

