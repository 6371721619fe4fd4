"""Classes of misuse: each makes a step that is refused, and says how. None of them changes a version."""

from __future__ import annotations

import re
from typing import Any

from tests import draws

from .drawn import Maker, Round, is_grown, step_of
from .plain import fault_of, ssz as plain
from .spoilt import wrong_branch, wrong_entries, wrong_json, wrong_proof, wrong_schema
from .steps import Step

#: The names of the first faults of bytes, by code.
FAULTS = ["", "short", "extra", "boolean of 2", "first offset", "offset range", "offset order", "ragged", "too many", "padding bits",
          "no delimiter", "selector byte"]
WRONG_NAMES = ["", "V W", "9V", "V-", "A" * 65, " V", "V\n", "V\t"]
WRONG_PATHS = ["", "a", "f0", "//", "/0/", "/ 0", "/0 /1", "/\t", "/0\n", "/01", "/00", "/-1", "/+1", "/0x1", "/1_0", "/18446744073709551616",
               "/" + "9" * 4000, "/#256", "/#01", "/#", "/#length", "/a-b", "/" + "a" * 65, "./", "/*"]
NOT_TEXT = [b"\xff", b"\0", b"\x80V", b"V\0", b"\xc3\xa9", b"\xed\xa0\x80"]


def spoilt(round: Round) -> tuple[str, Any, bytes, tuple[int, int]] | None:
    """A type, and bytes that have a fault for it."""
    name, t = round.type()
    for _ in range(4):
        data = draws.changed(round.draw, round.data(t))
        fault = fault_of(t, data)
        if fault:
            return name, t, data, fault
    return None


def bytes_at_fault(round: Round) -> Step | None:
    """Bytes that encode no value, in each call that takes some."""
    found, op = spoilt(round), round.draw.choice(["check", "root", "part", "slice", "json", "share", "load"])
    if not found:
        return None
    name, _, data, (code, position) = found
    words: list[Any] = [name, data, *(["/"] if op in ("part", "slice") else [])]
    if op == "load":
        words.insert(0, round.free())
        if not words[0]:
            return None
    return step_of(op, *words, wanted=f"INVALID {code} {position}", misuse=FAULTS[code])


def part_at_fault(round: Round) -> Step | None:
    """Bytes that encode no value of a part."""
    found = round.place()
    if not found:
        return None
    name, path, _, t, value = found
    op, of = "set", t
    if is_grown(t, value) and len(value) < t[-1] and round.draw.random() < 0.5:
        op, of = "append", t[1] if t[0] == "list" else plain.BOOLEAN
    data = round.draw.choice([b"", b"\2", draws.changed(round.draw, round.data(of)), draws.changed(round.draw, round.data(of))])
    fault = fault_of(of, data)
    if not fault:
        return None
    return step_of(op, name, path, data, wanted=f"INVALID {fault[0]} {fault[1]}", misuse="no bytes" if not data else FAULTS[fault[0]])


def unknown_type(round: Round) -> Step:
    name = round.draw.choice(["T9", "c", "uint24", "", "C ", "Uint8", "byte\0", "A" * 100])
    op = round.draw.choice(["check", "root", "gindex", "part", "json", "unjson", "default", "describe", "share", "slice"])
    every: dict[str, list[Any]] = {"check": [b"\0"], "root": [b"\0"], "gindex": ["/"], "part": [b"\0", "/"], "json": [b"\0"], "unjson": ["0"], "share": [b""],
             "slice": [b"\0", "/"]}
    return step_of(op, name, *every.get(op, []), wanted="NO_TYPE", misuse="unknown type")


def other_schemas_type(round: Round) -> Step | None:
    """A version of a type of another schema."""
    op = round.draw.choice(["new", "load", "sgindex"])
    name = round.free()
    if not name:
        return None
    every: dict[str, list[Any]] = {"new": [name, "BeaconState"], "load": [name, "BeaconState", b"\0"], "sgindex": ["BeaconState", "/"]}
    return step_of(op, *every[op], wanted="REFUSED 2", misuse="another schema's type")


def on_path(round: Round, op: str, name: str, path: str | bytes) -> Step:
    """A session's step of a version and a path."""
    data: list[Any] = [b"\0"] if op in ("set", "append") else [0, b"\0"] if op == "choose" else [0] if op == "choose_default" else []
    return step_of(op, name, path, *data)


PATHS = ["get", "jsonof", "len", "set", "append", "pop", "choose", "choose_default", "prove", "prove_paths"]


def wrong_path(round: Round) -> Step | None:
    """A text that spells no path."""
    path, op = round.draw.choice(WRONG_PATHS), round.draw.choice([*PATHS, "gindex", "part", "slice", "sgindex"])
    name, t = round.type()
    if op in ("gindex", "sgindex"):
        step = step_of(op, name, path)
    elif op in ("part", "slice"):
        step = step_of(op, name, round.data(t), path)
    else:
        if not round.versions:
            return None
        step = on_path(round, op, round.version(), path)
    step.wanted, step.misuse = "ok SYNTAX" if op == "slice" else "SYNTAX", "no path: " + kind_of(path)
    return step


def kind_of(path: str) -> str:
    """Which kind of wrong path it is."""
    if re.search(r"\s", path):
        return "blanks"
    if not path.startswith("/"):
        return "no slash" if path else "empty"
    digits = re.fullmatch(r"/([+-]?)(\d+)", path)
    if digits:
        return "sign" if digits[1] else "leading zeros" if digits[2][0] == "0" else "number too large"
    return "steps"


def path_to_nothing(round: Round) -> Step | None:
    """A path that does not fit the type."""
    op = round.draw.choice([*PATHS, "gindex", "part", "slice"])
    if op not in PATHS:
        name, t = round.type()
        data = round.data(t)
        step = step_of("gindex", name, "/nothing") if op == "gindex" else step_of(op, name, data, "/nothing/3")
        step.wanted, step.misuse = "ok BAD_PATH" if op == "slice" else "BAD_PATH", "path to nothing"
        return step
    found = round.place()
    if not found:
        return None
    name, path, _, t, _ = found
    beyond = {"vector": t[-1], "list": t[-1], "bitvector": t[-1], "bitlist": t[-1]}.get(t[0], "nothing")
    step = on_path(round, op, name, f"{path.rstrip('/')}/{beyond}")
    step.wanted, step.misuse = "REFUSED 5", "path to nothing"
    return step


def absent_part(round: Round) -> Step | None:
    """A path that fits, to an element or an option that is not there."""
    found = round.place(lambda t, value: is_grown(t, value) and len(value) < t[-1] or t[0] == "union" and len(other_options(t, value)) > 0)
    if not found:
        return None
    name, path, _, t, value = found
    step = f"#{round.draw.choice(other_options(t, value))}" if t[0] == "union" else str(round.draw.choice([len(value), t[-1] - 1]))
    made = on_path(round, round.draw.choice(PATHS[:-2]), name, f"{path.rstrip('/')}/{step}")
    made.wanted, made.misuse = "REFUSED 6", "absent part"
    return made


def other_options(t: Any, value: Any) -> list[int]:
    """The options of a union that the value has not, but for None."""
    return [number for number, option in enumerate(t[1]) if option is not None and number != value[0]]


def wrong_name(round: Round) -> Step:
    """A text that is no name."""
    name = round.draw.choice(WRONG_NAMES)
    op = round.draw.choice([*PATHS, "new", "load", "fork", "upgrade", "drop", "sroot", "prove_all"])
    step = with_name(round, op, name.encode())
    step.wanted, step.misuse = "SYNTAX", "empty name" if not name else "name with a blank" if re.search(r"\s", name) else "no name"
    return step


def with_name(round: Round, op: str, name: bytes) -> Step:
    """A step of any kind with a version's name."""
    if op in PATHS:
        return step_of(op, name, *on_path(round, op, "V", "/").words[1:])
    known = round.version() or "V"
    every: dict[str, list[Any]] = {"new": [name, "C"], "load": [name, "uint8", b"\0"], "fork": [known, name], "upgrade": [known, name, "C"], "drop": [name],
             "sroot": [name], "prove_all": [name, 1]}
    return step_of(op, *every[op])


def no_text(round: Round) -> Step | None:
    """Bytes that are no text of ASCII, in a name or a path: broken UTF-8, NUL, letters beyond."""
    text = round.draw.choice(NOT_TEXT)
    if round.draw.random() < 0.5:
        step = with_name(round, round.draw.choice([*PATHS, "new", "load", "fork", "drop", "sroot"]), text)
    elif not round.versions:
        return None
    else:
        step = on_path(round, round.draw.choice(PATHS), round.version(), b"/" + text)
    step.wanted, step.misuse = "SYNTAX", "NUL" if b"\0" in text else "no ASCII"
    return step


def unknown_version(round: Round) -> Step | None:
    """A name that no version has."""
    name = round.free()
    if not name:
        return None
    op = round.draw.choice([*PATHS, "drop", "sroot", "prove_all"])
    step = with_name(round, op, name.encode())
    step.wanted, step.misuse = "REFUSED 3", "unknown name"
    return step


def twice(round: Round) -> Step | None:
    """A name that is taken."""
    name = round.version()
    if not name:
        return None
    step = with_name(round, round.draw.choice(["new", "load", "fork"]), name.encode())
    step.wanted, step.misuse = "REFUSED 4", "name taken"
    return step


def not_that(round: Round) -> Step | None:
    """A call on a part of another kind."""
    op = round.draw.choice(["append", "pop", "len", "choose", "choose_default", "set"])
    kinds = {"append": ("list", "bitlist"), "pop": ("list", "bitlist"), "len": ("list", "bitlist", "vector", "bitvector"),
             "choose": ("union",), "choose_default": ("union",), "set": ()}[op]
    found = round.place(lambda t, _: t[0] not in kinds and (op != "set" or t[0] in ("list", "bitlist", "union")))
    if not found:
        return None
    name, path, _, t, _ = found
    if op == "set":
        path = path.rstrip("/") + ("/#sel" if t[0] == "union" else "/#len")
    step = on_path(round, op, name, path)
    step.wanted, step.misuse = "REFUSED 7", "part of another kind"
    return step


def full(round: Round) -> Step | None:
    found = round.place(lambda t, value: is_grown(t, value) and len(value) == t[-1])
    if not found:
        return None
    name, path, _, t, _ = found
    data = round.data(t[1] if t[0] == "list" else plain.BOOLEAN)
    return step_of("append", name, path, data, wanted="REFUSED 8", misuse="list over its limit")


def empty(round: Round) -> Step | None:
    found = round.place(lambda t, value: is_grown(t, value) and not value)
    return step_of("pop", found[0], found[1], wanted="REFUSED 9", misuse="pop of nothing") if found else None


def wrong_selector(round: Round) -> Step | None:
    found = round.place(lambda t, _: t[0] == "union")
    if not found:
        return None
    selector = round.draw.choice([len(found[3][1]), 128, 255])
    step = on_path(round, round.draw.choice(["choose", "choose_default"]), found[0], found[1])
    step.words[2] = str(selector).encode()
    step.wanted, step.misuse = "REFUSED 10", "selector out of range"
    return step


def no_container(round: Round) -> Step | None:
    name, other = round.version(), round.free()
    if not name or not other or round.versions[name][1][0] == "container":
        return None
    return step_of("upgrade", name, other, "C", wanted="REFUSED 16", misuse="upgrade of no container")


def far_index(round: Round) -> Step | None:
    """An index that the tree does not have, or that is none."""
    name = round.version()
    if not name:
        return None
    index, wanted, misuse = round.draw.choice([
        ("0", "REFUSED 13", "index 0"), (str(1 << 127), "REFUSED 13", "index of 2^127"), (str((1 << 128) - 1), "REFUSED 13", "index of 2^127"),
        (str(1 << 128), "SYNTAX", "index of 2^128"), ("9" * 5000, "SYNTAX", "index of 2^128"), ("-1", "SYNTAX", "signed index"),
        ("+1", "SYNTAX", "signed index"), ("01", "SYNTAX", "index with zeros"), ("1 1", "SYNTAX", "index with a blank"),
        ("1.0", "SYNTAX", "no index"), ("0x1", "SYNTAX", "no index")])
    op = "prove_all" if wanted != "SYNTAX" and round.draw.random() < 0.5 else round.draw.choice(["prove", "prove_paths"])
    return step_of(op, name, index, wanted=wanted, misuse=misuse)


def nested(round: Round) -> Step | None:
    name = round.version()
    if not name or plain.children(plain.tree(*round.versions[name][1:])) is None:
        return None
    return step_of("prove_all", name, *round.draw.choice([(1, 2), (3, 1), (2, 3, 1)]), wanted="REFUSED 14", misuse="nested leaves")


def no_index(round: Round) -> Step | None:
    name = round.version()
    return step_of(round.draw.choice(["prove_all", "prove_paths"]), name, wanted="SYNTAX", misuse="no index at all") if name else None


# ---- handles, pointers, files


def closed(round: Round) -> Step:
    """A call on what was closed, or never was there."""
    return step_of("closed", round.draw.choice(["schema", "session", "slice"]), wanted="NO_HANDLE", misuse="handle closed")


def null(round: Round) -> Step:
    """Each pointer of a call null in turn."""
    return step_of("null", wanted="ok", misuse="null pointer")


def itself(round: Round) -> Step:
    return step_of("itself", wanted="ok", misuse="share with itself")


def careless(round: Round) -> Step | None:
    """An object of another kind, in Python alone."""
    version = round.version()
    return step_of("careless", version, round.draw.randrange(1 << 20), wanted="ok", misuse="object of another kind") if version else None


def no_file(round: Round) -> Step:
    """A statement that reads or writes a file, which sessions have not."""
    version = round.version()
    if version and round.draw.random() < 0.5:
        return step_of("run", f"save {version} f", wanted="NO_WRITE", misuse="statement with a file")
    free = round.free()
    line = f"load {free} C f" if free else "load V C f"
    return step_of("run", line, wanted="NO_READ" if free else "REFUSED 4", misuse="statement with a file")


def no_statement(round: Round) -> Step:
    lines = ["frob", "List", "list # x", "lit V C 0x0", "lit V C 0X00", "new V", "bytes V /01", "choose V / 256", "prove V", "root", "list\0", "hashes x",
             "set V / 0xgg", "new 9V C", "drop V W", "gindex C", "root V;", "json V", "pop V / 0"]
    return step_of("run", round.draw.choice(lines), wanted="SYNTAX", misuse="no statement")


def too_long(round: Round) -> Step | None:
    """A path of more than 2^26 bytes; seldom, for it takes as many."""
    if round.draw.random() > 0.005:
        return None
    return step_of("long", round.type()[0], wanted="TOO_LONG", misuse="path of over 2^26 bytes")


CLASSES: list[tuple[Maker, int]] = [
    (bytes_at_fault, 8), (part_at_fault, 6), (unknown_type, 2), (other_schemas_type, 2), (wrong_path, 5), (path_to_nothing, 3), (absent_part, 3),
    (wrong_name, 3), (no_text, 3), (unknown_version, 2), (twice, 2), (not_that, 2), (full, 2), (empty, 2), (wrong_selector, 2), (no_container, 1),
    (far_index, 3), (nested, 1), (no_index, 1), (wrong_proof, 6), (wrong_entries, 2), (wrong_branch, 2), (wrong_json, 5), (wrong_schema, 1), (closed, 1), (null, 1),
    (itself, 1), (careless, 2), (no_file, 1), (no_statement, 2), (too_long, 1),
]
