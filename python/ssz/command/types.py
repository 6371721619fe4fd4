"""What a schema defines: names, forms and sizes."""

from __future__ import annotations

import argparse
from typing import Iterator

from ..forms import Container, Form
from ..schema import Type
from .words import problem, schema_of

_HEAD = f"{'name':<40} {'bytes':>15}  form"


def types(given: argparse.Namespace) -> int:
    """Lists the types of a schema, or the fields of one, with their sizes in bytes and their forms."""
    schema = schema_of(given.schema)
    rows = fields(schema.type(given.type)) if given.type else ((name, schema.type(name).form) for name in schema.names)
    lines = [f"{name:<40} {size_of(form):>15}  {form_of(form, name)}" for name, form in rows]
    if not lines:
        raise problem(given.type or given.schema, "there is nothing to list" if given.type else "the schema defines no type")
    print("\n".join([_HEAD, *lines]))
    return 0


def fields(kind: Type) -> Iterator[tuple[str, Form]]:
    """The parts of a type one level down that have names or one form."""
    if isinstance(kind.form, Container):
        yield from kind.form.fields.items()
    else:
        yield kind.name, kind.form


def size_of(form: Form) -> str:
    """How long an encoding is: one number, or from the least on."""
    return f"{form.size:,}" if form.size is not None else f"{form.least:,} or more"


def form_of(form: Form, name: str) -> str:
    """A form in words; a container by its number of fields."""
    if isinstance(form, Container) and form.name == name:
        return f"Container of {len(form.fields)} field{'s' * (len(form.fields) != 1)}"
    return form.name
