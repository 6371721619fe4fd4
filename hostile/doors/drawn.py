"""What a round is drawn from: the seed and its number alone. It has a schema, and versions that the plain model knows as whole values."""

from __future__ import annotations

import json
import random
from typing import Any, Callable, Iterator, Optional

from tests import draws

from .plain import form_of, ssz as plain
from .steps import Step

#: Kinds of types, or any; unions and lists have most to edit.
KINDS = ["", "union", "union", "list", "bitlist", "container", "vector"]
NAMES = ["V", "W", "X1", "_y", "Z" * 64]
FIELDS = ["copy", "encode_bytes", "to_obj", "fields", "cls", "self", "prove", "_a", "set", "A" * 64, "F0", "z_9"]
#: Values above so many bytes are drawn again.
MOST = 6000

#: How many levels a type may have in the first format.
LEVELS = 63

Maker = Callable[["Round"], Optional[Step]]


def levels(t: Any) -> int:
    """The levels of a type: the longest path of its tree."""
    if plain.is_basic(t):
        return 0
    parts = plain.field_types(t) if t[0] == "container" else t[1] if t[0] == "union" else [t[1]] if plain.is_sequence(t) else []
    return plain.depth(t) + (t[0] in ("list", "bitlist", "union")) + max((levels(part) for part in parts if part is not None), default=0)


def first_names(types: list[list[Any]]) -> dict[str, str]:
    """Of each name the first one in byte order of its type; a name for a name is one of the same type, `byte` and `uint8` are one."""
    same = {name: name for name in plain.BUILT_IN} | {"byte": "uint8"}
    for name, form in types:
        same[name] = same[form] if isinstance(form, str) else name
    return {name: min(other for other, of in same.items() if of == same[name]) for name in same}


class Round:
    """What a round is drawn from: its generator, its types, and its versions, each a type's name, the type and the value."""

    def __init__(self, seed: str, number: int) -> None:
        self.draw = random.Random(f"{seed}/{number}")
        self.types: dict[str, Any] = {}
        self.text = self._schema()
        self.versions: dict[str, tuple[str, Any, Any]] = {}

    def _schema(self) -> bytes:
        """The text of a schema: some types of any form, and containers that name them and share fields."""
        draw = self.draw
        types = [[f"T{place}", draws.spelled(draw, draw.choice([1, 2, 2, 3]), draw.choice(KINDS))] for place in range(draw.randint(1, 3))]
        names = [name for name, _ in types] + ["uint8", "uint64", "boolean", "byte"]
        fields = [[name, draw.choice(names)] for name in draw.sample(FIELDS, draw.randint(2, 5))]
        others = [[name, form if draw.random() < 0.7 else draw.choice(names)] for name, form in draw.sample(fields, draw.randint(1, len(fields)))]
        types += [["C", {"container": fields}], ["D", {"container": [*others, ["more", draw.choice(names)]]}]]
        types.append(["E", draw.choice([name for name, _ in types])])
        version = draw.choice([1, 2])
        self.types = plain.types_of(json.dumps({"types": types}))
        if max(map(levels, self.types.values())) > LEVELS:
            version = 2
        text = json.dumps({"ssz": version, "types": types}).encode()
        self.named = [name for name, _ in types]
        self.first_names = first_names(types)
        return text

    def type(self) -> tuple[str, Any]:
        """A type and its name; most often one of the schema's own."""
        name = self.draw.choice(self.named) if self.draw.random() < 0.9 else self.draw.choice(["uint8", "uint256", "boolean", "byte"])
        return name, self.types[name]

    def data(self, t: Any) -> bytes:
        """The encoding of a value of a type, which is not a very long one where there are others."""
        form = form_of(t)
        for _ in range(4):
            data = form.encode(draws.value(self.draw, form))
            if len(data) <= MOST:
                return data
        return plain.encode(t, plain.default(t))

    def value(self, t: Any) -> tuple[Any, bytes]:
        """A value of a type, and its encoding."""
        data = self.data(t)
        return plain.decode(t, data), data

    def version(self) -> str:
        """The name of a version that is there; `""` where there is none."""
        return self.draw.choice(list(self.versions)) if self.versions else ""

    def free(self) -> str:
        """A name that no version has; `""` where all are taken."""
        return self.draw.choice([name for name in NAMES if name not in self.versions] or [""])

    def seen(self, t: Any, value: Any) -> Iterator[tuple[list[Any], Any, Any]]:
        """The parts on a way from the whole down: path, type and value."""
        path: list[Any] = []
        yield path, t, value
        while True:
            step = self.step(t, value)
            if step is None:
                return
            t, value, path = plain.step_type(t, step), plain.inner(t, value, step), [*path, step]
            yield path, t, value

    def step(self, t: Any, value: Any) -> Any:
        """A step to a part that is there, not to a length or selector; None where there is none."""
        if t[0] == "container":
            return self.draw.choice(t[1])[0]
        if t[0] == "union":
            return None if value[1] is None else ("option", value[0])
        if t[0] in ("vector", "list", "bitvector", "bitlist") and value:
            return self.draw.choice([0, len(value) - 1, self.draw.randrange(len(value))])
        return None

    def found(self, t: Any, value: Any, fits: Callable[[Any, Any], bool] = lambda t, value: True) -> tuple[str, list[Any], Any, Any] | None:
        """A part that is there and is of a kind: its path as text and as steps, its type and its value."""
        for _ in range(4):
            parts = [part for part in self.seen(t, value) if fits(part[1], part[2])]
            if parts:
                path, t, value = self.draw.choice(parts)
                return plain.text_of_path(path), path, t, value
        return None

    def place(self, fits: Callable[[Any, Any], bool] = lambda t, value: True) -> tuple[str, str, list[Any], Any, Any] | None:
        """A part of a version: the version's name, and what `found` tells."""
        for name in self.draw.sample(list(self.versions), len(self.versions)):
            found = self.found(*self.versions[name][1:], fits)
            if found:
                return (name, *found)
        return None

    def changed(self, name: str, path: list[Any], edit: Any) -> None:
        """Does an edit in the model."""
        type_name, t, value = self.versions[name]
        self.versions[name] = type_name, t, plain.edited(t, value, path, edit)


def step_of(op: str, *words: str | bytes | int, wanted: str = "ok", misuse: str = "") -> Step:
    """A step of words that are texts, numbers or bytes."""
    return Step(op, [word if isinstance(word, bytes) else str(word).encode() for word in words], wanted, misuse)


def is_sized(t: Any, _: Any) -> bool:
    return t[0] in ("vector", "list", "bitvector", "bitlist")


def is_grown(t: Any, _: Any) -> bool:
    return t[0] in ("list", "bitlist")
