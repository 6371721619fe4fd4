"""Where a text is at fault: what the library tells of JSON and of schemas, with lines, columns and names."""

from __future__ import annotations

import json
from typing import Any, Optional

from .errors import BadJson, BadSchema, SszError
from .forms import BUILT_IN, like

_MARKS = {b"\xef\xbb\xbf": "a byte order mark (EF BB BF) stands before the text", b"\xff\xfe": "the text is UTF-16", b"\xfe\xff": "the text is UTF-16"}
#: The faults of a schema that its document has as a whole, and that of a name which is not defined.
_NOT_JSON, _OF_ALL, _UNKNOWN = 1, (1, 2, 15), 5


def where(text: bytes) -> Optional[tuple[str, str]]:
    """Why a text is no JSON, and what to do; None where Python reads it, or reads too deep."""
    mark = next((said for start, said in _MARKS.items() if text.startswith(start)), None)
    if mark:
        return mark, "Save the file as UTF-8 without a byte order mark."
    if not text.strip():
        return "the text is empty", "See whether this is the file that was meant."
    try:
        json.loads(text.decode())
    except UnicodeDecodeError as error:
        return f"byte {error.start} is no UTF-8", "Save the file as UTF-8."
    except json.JSONDecodeError as error:
        return f"this is no JSON at line {error.lineno}, column {error.colno} ({error.msg})", "Look there for a comma too many, or one that is missing."
    except (ValueError, RecursionError):
        pass
    return None


def of_json(error: SszError, text: bytes) -> SszError:
    """The error of a value's JSON, with its line and column."""
    found = where(text) if error.code == _NOT_JSON else None
    return error if found is None else _other(BadJson, error, *found, f"J1 {error.name}")


def of_schema(error: SszError, text: bytes) -> SszError:
    """The error of a schema, with a line and a column, or with the name of the definition."""
    if error.code in _OF_ALL:
        found = where(text) if error.code == _NOT_JSON else None
        return error if found is None else _other(BadSchema, error, *found, f"S1 {error.name}")
    try:
        types = json.loads(text)["types"]
        name, form = types[error.position]
    except (ValueError, RecursionError, LookupError, TypeError):
        return error
    what, advice = error.what, error.advice
    if error.code == _UNKNOWN:
        known = {**BUILT_IN, **{each[0]: None for each in types[: error.position]}}
        unknown = next((word for word in _names_in(form) if word not in known), "")
        what, advice = f"a form uses {unknown}, which is not defined before it", f"{like(unknown, list(known))} {advice}"
    place = f"S{error.code} {error.name}, definition {error.position} ({name}), counted from 0"
    return _other(BadSchema, error, what, advice, place)


def _names_in(form: Any) -> Any:
    """The names of types that a form uses, in order."""
    if isinstance(form, str):
        yield form
    elif isinstance(form, dict):
        for kind, given in form.items():
            parts = [field[1] for field in given] if kind == "container" else given if kind == "union" else given[:1] if isinstance(given, list) else []
            for part in parts:
                yield from _names_in(part)


def _other(kind: type[SszError], error: SszError, what: str, advice: str, place: str) -> SszError:
    """The error in other words."""
    return kind(what, advice, status=error.status, code=error.code, name=error.name, position=error.position, type=error.type, place=place)
