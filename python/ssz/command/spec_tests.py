"""The specifications' test vectors on SSZ (consensus-spec-tests, unpacked): ssz_static and ssz_generic."""

from __future__ import annotations

import collections
import re
from pathlib import Path
from typing import Any, Iterator, NamedTuple, Optional

from .. import ethereum
from ..errors import SszError
from ..schema import Schema, Type
from . import snappy
from .progress import Progress

_FILE = "serialized.ssz_snappy"
_ELEMENTS = {"bool": "boolean", **{f"uint{bits}": f"uint{bits}" for bits in (8, 16, 32, 64, 128, 256)}}
_CONTAINERS: dict[str, list[Any]] = {
    "SingleFieldTestStruct": [["A", "byte"]],
    "SmallTestStruct": [["A", "uint16"], ["B", "uint16"]],
    "FixedTestStruct": [["A", "uint8"], ["B", "uint64"], ["C", "uint32"]],
    "VarTestStruct": [["A", "uint16"], ["B", {"list": ["uint16", 1024]}], ["C", "uint8"]],
    "ComplexTestStruct": [
        ["A", "uint16"], ["B", {"list": ["uint16", 128]}], ["C", "uint8"], ["D", {"list": ["byte", 256]}], ["E", "VarTestStruct"],
        ["F", {"vector": ["FixedTestStruct", 4]}], ["G", {"vector": ["VarTestStruct", 2]}]],
    "BitsStruct": [
        ["A", {"bitlist": 5}], ["B", {"bitvector": 2}], ["C", {"bitvector": 1}], ["D", {"bitlist": 6}], ["E", {"bitvector": 8}]],
}


class Case(NamedTuple):
    """A case: its folder, its type (None: one that is no type, as a vector of length 0), and whether its bytes are a value."""

    folder: Path
    kind: Optional[Type]
    is_valid: bool


class Tally:
    """What the cases came to."""

    def __init__(self) -> None:
        self.passed, self.failed = 0, 0
        self.left_out: collections.Counter[str] = collections.Counter()


def generic_form(handler: str, name: str) -> Any:
    """The form of a case of ssz_generic, by its name; None of one that is not known."""
    words = name.split("_")
    if handler == "uints" and words[0] == "uint":
        return f"uint{words[1]}"
    if handler == "boolean":
        return "boolean"
    if handler == "basic_vector" and words[0] == "vec":
        return {"vector": [_ELEMENTS[words[1]], int(words[2])]}
    if handler == "bitvector" and words[0] == "bitvec":
        return {"bitvector": int(words[1])}
    if handler == "bitlist" and words[0] == "bitlist":
        return {"bitlist": 0 if words[1] == "no" else int(words[1])}
    return words[0] if handler == "containers" and words[0] in _CONTAINERS else None


def generic_type(form: Any) -> Optional[Type]:
    """The type of a form, or None where the form is none, as a vector of length 0."""
    named = [[name, {"container": fields}] for name, fields in _CONTAINERS.items()]
    try:
        return Schema({"ssz": 1, "types": [*named, ["Case", form]]}).type("Case")
    except SszError:
        return None


def case_of(folder: Path, tally: Tally) -> Optional[Case]:
    """The case in a folder; None, and the reason counted, of one that there is no type for."""
    words = ("", "", "", "", "", *folder.resolve().parts)[-6:]
    preset, fork, runner, name, suite = words[:5]
    if runner == "ssz_generic":
        form = generic_form(name, words[5])
        if form is None:
            tally.left_out[f"ssz_generic/{name}: no form is known of {words[5].split('_')[0]}"] += 1
            return None
        return Case(folder, generic_type(form), suite == "valid")
    if runner != "ssz_static":
        tally.left_out[f"{runner}: no test of SSZ"] += 1
        return None
    try:
        schema = ethereum.fork(fork if preset == "mainnet" else f"{preset}/{fork}")
        return Case(folder, schema.type(name), True)
    except FileNotFoundError:
        tally.left_out[f"{preset}/{fork}: no schema"] += 1
    except SszError:
        tally.left_out[f"{preset}/{fork}/{name}: no type of this name"] += 1
    return None


def wanted_root(folder: Path) -> bytes:
    """The root that a case names."""
    for name in ("roots.yaml", "meta.yaml"):
        if (folder / name).exists():
            found = re.search(r"root: *['\"]?0x([0-9a-f]{64})", (folder / name).read_text())
            if found:
                return bytes.fromhex(found[1])
    raise FileNotFoundError(f"{folder} names no root")


def wanted_value(folder: Path) -> Any:
    """The value that a case names, where there is one and PyYAML to read it; else None."""
    try:
        import yaml
    except ImportError:
        return None
    file = folder / "value.yaml"
    return yaml.load(file.read_text(), getattr(yaml, "CBaseLoader", yaml.BaseLoader)) if file.exists() else None


def texts(value: Any) -> Any:
    """An object with all numbers as texts, as BaseLoader reads them."""
    if isinstance(value, dict):
        return {str(name): texts(each) for name, each in value.items()}
    if isinstance(value, (list, tuple)):
        return [texts(each) for each in value]
    return str(value).lower() if isinstance(value, bool) else "null" if value is None else str(value)


def fault_of(case: Case) -> str:
    """What is wrong with how a case came out; nothing where it is as it should be."""
    data = snappy.decompress((case.folder / _FILE).read_bytes())
    try:
        if case.kind is None:
            return "no type" if case.is_valid else ""
        root = case.kind.hash_tree_root(data)
    except SszError as error:
        return str(error) if case.is_valid else ""
    if not case.is_valid:
        return "the bytes are taken, and are to be refused"
    if root != wanted_root(case.folder):
        return f"the root is 0x{root.hex()}"
    shown = case.kind.form.shown(case.kind.decode_bytes(data))
    value = wanted_value(case.folder)
    if value is not None and texts(shown) != value:
        return "the value is another one than value.yaml has"
    return "" if case.kind.encode_bytes(shown) == data else "the value is encoded to other bytes"


def lines(top: Path) -> Iterator[str]:
    """Runs all cases below a folder, and tells of those that differ, of those left out, and the numbers."""
    tally, folders = Tally(), sorted(file.parent for file in top.rglob(_FILE))
    with Progress("running cases", len(folders)) as progress:
        for folder in folders:
            progress.step()
            case = case_of(folder, tally)
            fault = fault_of(case) if case else ""
            tally.passed += bool(case and not fault)
            tally.failed += bool(fault)
            if fault:
                yield f"{folder.relative_to(top)}: {fault}"
    for reason, count in sorted(tally.left_out.items()):
        yield f"left out: {reason} ({count})"
    yield f"{tally.passed} passed, {tally.failed} failed"
