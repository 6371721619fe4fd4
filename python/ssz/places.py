"""In which part of a value the first fault of its bytes lies (docs/formats.md, The bytes of a value).

The head of a scope is its selector, its offsets and its parts of fixed size. A fault that lies there is the scope's own, but for
those that parts of fixed size have: BadBool and PaddingBits. Where the fault lies after the head, the head has none, and its
offsets ascend. So each step of a path is found by a division or a bisection, and no other part is looked at.

A part without bytes has its fault where the next part begins, and where the part before it ends. Faults at the end of that one
come first.
"""

from __future__ import annotations

import itertools
import weakref
from bisect import bisect_left, bisect_right
from typing import Callable, NamedTuple, Optional, Sequence

from .forms import Container, Form, Part, Series, Union, offset_at

_OFFSET = 4
#: BadBool and PaddingBits, which parts of fixed size have.
_OF_FIXED = (3, 9)
#: Short and NoDelimiter, which parts without bytes have: all but lists.
_OF_EMPTY = (1, 10)


class _Found(NamedTuple):
    """Parts one level down that a fault may be in: one that ends where it lies, and after that one that has the byte there, or
    that begins there without bytes."""

    before: Optional[Part] = None
    at: Optional[Part] = None


def place_of(form: Form, data: bytes, position: int, code: int) -> str:
    """The path of the part that has the first fault of the bytes, of which the library tells the position and the code."""
    steps: list[str] = []
    part: Optional[Part] = Part("", form, 0, len(data))
    while part is not None and part.start <= position <= part.end:
        steps.append(part.step)
        before, part = _parts_at(part, data, position, code)
        at_end = _steps_at_end(before, data, code)
        if at_end:
            steps, part = steps + at_end, None
    return "/".join(steps) or "/"


def _steps_at_end(part: Optional[Part], data: bytes, code: int) -> list[str]:
    """The steps to the first fault of a part without bytes at the end of this part; none where there is no such fault."""
    steps: list[str] = []
    found: list[str] = []
    while part is not None:
        steps.append(part.step)
        part, empty = _parts_at(part, data, part.end, code)
        if empty is not None:
            found = [*steps, empty.step]
    return found


def _parts_at(scope: Part, data: bytes, position: int, code: int) -> _Found:
    """The parts one level down that the fault may be in, or none where it is the scope's own."""
    form = scope.form
    if isinstance(form, Container):
        return _fields_at(scope, _head_of(form), data, position, code)
    if isinstance(form, Series):
        return _elements_at(scope, form.element, data, position, code)
    return _option_at(scope, form, data, position) if isinstance(form, Union) else _Found()


def _option_at(scope: Part, form: Union, data: bytes, position: int) -> _Found:
    """The option of a union that the fault may be in."""
    for option in form.parts(data, scope.start, scope.end):
        if option.start < option.end == position:
            return _Found(before=option)
        if option.start <= position and not (option.start == option.end and _is_list(option.form)):
            return _Found(at=option)
    return _Found()


def _elements_at(scope: Part, element: Form, data: bytes, position: int, code: int) -> _Found:
    """The elements of a vector or a list that the fault may be in."""
    if element.size is not None:
        number = (position - scope.start) // element.size
        start = scope.start + number * element.size
        return _Found(at=Part(str(number), element, start, start + element.size) if code in _OF_FIXED else None)
    size = max(offset_at(data, scope.start), _OFFSET)
    if position < scope.start + size:
        return _Found()
    offsets, is_list = range(0, size, _OFFSET), _is_list(element)
    elements = _Variable(scope, data, offsets, lambda number: (str(number), element))
    return elements.at(position, code, lambda number: len(offsets) if is_list else number)


def _fields_at(scope: Part, head: _Head, data: bytes, position: int, code: int) -> _Found:
    """The fields of a container that the fault may be in."""
    if position >= scope.start + head.size:
        return _Variable(scope, data, head.offsets, head.variable.__getitem__).at(position, code, head.faulty.__getitem__)
    number = bisect_right(head.starts, position - scope.start) - 1
    name, form = head.fields[number]
    start = scope.start + head.starts[number]
    return _Found(at=Part(name, form, start, start + form.size) if form.size is not None and code in _OF_FIXED else None)


class _Variable(Sequence[int]):
    """The parts of variable size of a scope. As a sequence, where they begin, and after that where the last one ends: the offsets
    are read when they are asked for."""

    def __init__(self, scope: Part, data: bytes, offsets: Sequence[int], named: Callable[[int], tuple[str, Form]]) -> None:
        self._scope, self._data, self._offsets, self._named = scope, data, offsets, named

    def __len__(self) -> int:
        return len(self._offsets)

    def __getitem__(self, number: int) -> int:  # type: ignore[override]
        if number == len(self._offsets):
            return self._scope.end
        return self._scope.start + offset_at(self._data, self._scope.start + self._offsets[number])

    def _part(self, number: int) -> Part:
        return Part(*self._named(number), self[number], self[number + 1])

    def at(self, position: int, code: int, faulty: Callable[[int], int]) -> _Found:
        """Those that the fault may be in. `faulty` tells of a number the first part from it on that has a fault where it has no bytes."""
        last = bisect_right(self, position) - 1
        if code not in _OF_EMPTY:
            return _Found(at=self._part(last) if last >= 0 else None)
        first = bisect_left(self, position)
        before = self._part(first - 1) if first > 0 and self[first] == position else None
        number = min(faulty(first), last)
        is_there = number >= 0 and (number == faulty(first) or position < self[number + 1])
        return _Found(before, self._part(number) if is_there else None)


class _Head(NamedTuple):
    """What of a container's head its type alone tells."""

    #: How many bytes it has.
    size: int
    #: The fields, and where in it each begins.
    fields: Sequence[tuple[str, Form]]
    starts: Sequence[int]
    #: The fields of variable size, and where in it their offsets begin.
    variable: Sequence[tuple[str, Form]]
    offsets: Sequence[int]
    #: Of each of them the number of the first one from it on that has a fault where it has no bytes.
    faulty: Sequence[int]


_HEADS: weakref.WeakKeyDictionary[Container, _Head] = weakref.WeakKeyDictionary()


def _head_of(form: Container) -> _Head:
    """The head of a container, made once a type."""
    head = _HEADS.get(form)
    if head is None:
        head = _HEADS[form] = _made_head(list(form.fields.items()))
    return head


def _made_head(fields: Sequence[tuple[str, Form]]) -> _Head:
    """The head of a container of these fields."""
    sizes = (_OFFSET if form.size is None else form.size for _, form in fields)
    starts = list(itertools.accumulate(sizes, initial=0))
    numbers = [number for number, (_, form) in enumerate(fields) if form.size is None]
    variable = [fields[number] for number in numbers]
    faulty = [len(variable)]
    for number in reversed(range(len(variable))):
        faulty.append(faulty[-1] if _is_list(variable[number][1]) else number)
    return _Head(starts[-1], fields, starts[:-1], variable, [starts[number] for number in numbers], faulty[::-1])


def _is_list(form: Form) -> bool:
    """Whether the type is a list, which has no fault where it has no bytes."""
    return isinstance(form, Series) and form.is_list
