"""The plain model of rows/ssz.py under a name of its own, since Python's package is called ssz too; and what it says of proofs."""

from __future__ import annotations

import importlib.util
import re
from functools import lru_cache
from pathlib import Path
from typing import Any

TOP = Path(__file__).resolve().parents[2]


def _loaded() -> Any:
    """The module rows/ssz.py."""
    spec = importlib.util.spec_from_file_location("plain_ssz", TOP / "rows" / "ssz.py")
    assert spec and spec.loader
    module = importlib.util.module_from_spec(spec)
    spec.loader.exec_module(module)
    return module


ssz = _loaded()
_NODE = rb" (?:[1-9][0-9]*)=0x[0-9a-fA-F]{64}"
_PROOF = re.compile(rb"proof((?:%s)+) /((?:%s)*)\n?" % (_NODE, _NODE))


@lru_cache(maxsize=4096)
def form_of(t: Any) -> Any:
    """The package's form of a type of the model."""
    from ssz.forms import form_of as of_spelled

    return of_spelled(ssz.form_of(t), {})


def fault_of(t: Any, data: bytes) -> tuple[int, int] | None:
    """The first fault of bytes, or None of a value."""
    try:
        ssz.decode(t, data)
    except ssz.Fault as fault:
        return fault.code, fault.position
    return None


def hexed(data: bytes) -> str:
    return "0x" + data.hex()


def place_of(t: Any, data: bytes, path: list[Any]) -> tuple[int, int] | None:
    """Where a part stands in the encoding of a value, and how long it is; None of a bit or a length."""
    start, end = 0, len(data)
    for step in path:
        if step == ssz.LEN or ssz.is_bits(t):
            return None
        if step == ssz.SEL:
            return start, 1
        if isinstance(step, tuple):
            start, t = start + 1, ssz.step_type(t, step)
            continue
        start, end = _element_of(t, data[start:end], step, start)
        t = ssz.step_type(t, step)
    return start, end - start


def _element_of(t: Any, data: bytes, step: Any, start: int) -> tuple[int, int]:
    """Where a field or an element begins and ends, of a scope that begins at a place."""
    if t[0] == "container":
        parts, number = ssz.field_types(t), ssz.field_number(t, step)
    else:
        size = ssz.fixed_size(t[1])
        count = len(data) // size if size else int.from_bytes(data[:4], "little") // 4
        parts, number = [t[1]] * count, step
    begin, end = ssz.scopes(parts, data)[number]
    return start + begin, start + end


def proof_text(t: Any, value: Any, indices: list[int]) -> str:
    """The line of the multiproof of these generalized indices."""
    tree = ssz.tree(t, value)

    def entries(some: list[int]) -> str:
        return "".join(f" {index}={hexed(ssz.root(ssz.at(tree, index)))}" for index in some)

    leaves = sorted(set(indices))
    return f"proof{entries(leaves)} /{entries(ssz.helper_indices(leaves))}"


def nodes_of(words: bytes) -> list[tuple[int, bytes]]:
    """The entries that words of a proof's line are."""
    pairs = (word.split(b"=0x") for word in words.split())
    return [(int(index), bytes.fromhex(digits.decode())) for index, digits in pairs]


def entries_of(text: bytes) -> tuple[list[tuple[int, bytes]], list[tuple[int, bytes]]] | None:
    """The leaves and the nodes of a line that is a multiproof; None of another one."""
    found = _PROOF.fullmatch(text)
    if not found:
        return None
    leaves, nodes = nodes_of(found[1]), nodes_of(found[2])
    return (leaves, nodes) if is_proof(leaves, nodes) else None


def is_proof(leaves: list[tuple[int, bytes]], nodes: list[tuple[int, bytes]]) -> bool:
    """Whether the nodes are those that the leaves need, in order."""
    indices = [index for index, _ in leaves]
    is_flat = len(set(indices)) == len(indices) > 0 and all(0 < index < 1 << 128 for index in indices) and ssz.are_flat(indices)
    return is_flat and [index for index, _ in nodes] == ssz.helper_indices(indices)


def verdict_of_entries(root: bytes, leaves: list[tuple[int, bytes]], nodes: list[tuple[int, bytes]]) -> str:
    """What is to be said of leaves and nodes beside a root."""
    if not is_proof(leaves, nodes):
        return "BAD_PROOF"
    return "ok" if ssz.calculated(dict(leaves + nodes)) == root else "UNLIKE"


def verdict(root: bytes, text: bytes) -> str:
    """What is to be said of a proof's line beside a root."""
    found = entries_of(text)
    return verdict_of_entries(root, *found) if found else "BAD_PROOF"


def branch_root(index: int, leaf: bytes, nodes: list[bytes]) -> bytes:
    """The root that a branch leads to, as is_valid_merkle_branch calculates it."""
    for level, node in enumerate(nodes):
        leaf = ssz.sha(node, leaf) if index >> level & 1 else ssz.sha(leaf, node)
    return leaf
