"""Values of Python's classes, each beside the plain model's value of it."""

from __future__ import annotations

import json
from typing import Any, Callable

import ssz

from . import objects
from .drawn import Round
from .objects import below, is_plain, shown, spelled
from .plain import ssz as plain


class Differs(Exception):
    """How Python differs from the model."""


def differ(what: str, found: Any, wanted: Any) -> None:
    """Raises where what was found is not what the model has."""
    if not (found == wanted):
        raise Differs(f"{what}: {found!r:.300} was found, and {wanted!r:.300} is wanted")


class Value:
    """A value as a view, and as the model has it."""

    def __init__(self, view: Any, form: Any, t: Any, value: Any) -> None:
        self.view, self.form, self.t, self.value = view, form, t, value

    def check(self, kind: ssz.Type) -> None:
        """All that a view shows is the model's value."""
        data = plain.encode(self.t, self.value)
        differ("encode_bytes", self.view.encode_bytes(), data)
        differ("to_obj", self.view.to_obj(), shown(self.form, self.value))
        differ("hash_tree_root", self.view.hash_tree_root(), kind.hash_tree_root(data))


class Part:
    """A part of a value: its path, its type and value in the model, and its form."""

    def __init__(self, value: Value, path: list[Any], t: Any, part: Any) -> None:
        self.path, self.t, self.value, self.form = path, t, part, value.form
        #: Whether it is in a part that is Python's own.
        self.is_inside = False
        for step in path:
            self.is_inside |= is_plain(self.form)
            self.form = below(self.form, step)


class Beside:
    """A round of values."""

    def __init__(self, seed: str, number: int) -> None:
        self.round = Round(f"{seed}/values", number)
        self.draw = self.round.draw
        self.schema = ssz.Schema(self.round.text)
        self.forms = objects.forms_of(self.round.text)
        self.name = self.draw.choice([name for name in self.round.named if not is_plain(self.forms[name])])
        self.kind, self.cls, self.form, self.t = self.schema.type(self.name), self.schema[self.name], self.forms[self.name], self.round.types[self.name]
        self.values = [self.begun()]
        #: What was done, for people.
        self.done: list[str] = []

    def begun(self) -> Value:
        """A value, made in one of the ways that there are."""
        value, data = self.round.value(self.t)
        way = self.draw.randrange(7)
        if way == 0:
            return Value(self.cls(), self.form, self.t, plain.default(self.t))
        if way == 1:
            view = self.cls.decode_bytes(self.draw.choice([bytes, bytearray, memoryview])(data))
        elif way == 2:
            view = self.cls.from_obj(spelled(self.draw, self.form, value))
        elif way == 6:
            view = self.made(value)
        elif way in (3, 4):
            other = self.cls.decode_bytes(data)
            view = self.cls.from_obj(json.loads(json.dumps(other.to_api() if way == 3 else other.to_obj())))
        else:
            view = self.cls.from_obj(self.cls.decode_bytes(data))
        return Value(view, self.form, self.t, value)

    def made(self, value: Any) -> Any:
        """A value made of its parts: fields by place and by name, a selector and its value, or elements."""
        kind, of = objects.kind_of(self.form)
        if kind == "container":
            parts = [spelled(self.draw, field, part) for (_, field), part in zip(of, value)]
            count = self.draw.randint(0, len(of))
            return self.cls(*parts[:count], **{name: part for (name, _), part in list(zip(of, parts))[count:]})
        if kind == "union":
            return self.cls(value[0], None if of[value[0]] is None else spelled(self.draw, of[value[0]], value[1]))
        return self.cls(spelled(self.draw, self.form, value))

    def value(self) -> Value:
        return self.draw.choice(self.values)

    def part(self, value: Value, fits: Callable[[Any, Any], bool], is_view: bool = True) -> Part | None:
        """A part of a kind, which has a view of its own."""
        for _ in range(4):
            found = self.round.found(value.t, value.value, fits)
            part = Part(value, *found[1:]) if found else None
            if part and not part.is_inside and not (is_view and is_plain(part.form)):
                return part
        return None

    def reached(self, view: Any, path: list[Any]) -> Any:
        """What stands at a path, had as attribute, in brackets, or as the union's value."""
        for step in path:
            if isinstance(step, tuple):
                view = view.value
            elif isinstance(step, str):
                is_attribute = step in vars(type(view)) and self.draw.random() < 0.7
                view = getattr(view, step) if is_attribute else view[step]
            else:
                view = view[step - len(view)] if self.draw.random() < 0.3 else view[step]
        return view

    def object(self, form: Any, t: Any, value: Any) -> Any:
        """An object of a value; sometimes a view of it, by a value of its own."""
        name = next((name for name, some in self.forms.items() if some == form and not is_plain(form)), None)
        if name and self.draw.random() < 0.3:
            return self.schema[name].decode_bytes(plain.encode(t, value))
        return spelled(self.draw, form, value)

    def edited(self, value: Value, path: list[Any], edit: Any) -> None:
        """Does an edit in the model."""
        value.value = plain.edited(value.t, value.value, path, edit)

    def check(self) -> None:
        for value in self.values:
            value.check(self.kind)
