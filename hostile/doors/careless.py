"""What only Python's callers can do wrong: objects of other kinds in the place of texts, bytes, numbers and roots.

Each call raises a TypeError or a ValueError, and changes nothing.
"""

from __future__ import annotations

import copy
import pickle
from array import array
from typing import TYPE_CHECKING, Any, Callable

import ssz

if TYPE_CHECKING:
    from .by_python import Door

#: What is no text.
NO_NAMES: list[Any] = [5, None, b"V", ["V"], ("V", "W"), bytearray(b"V"), 1.5]


class Lying:
    """Its length is another number than that of its bytes, of which it is no buffer."""

    def __len__(self) -> int:
        return 100_000

    def __bytes__(self) -> bytes:
        return b"\1\2"


#: What is no buffer of whole numbers side by side.
NO_BYTES: list[Any] = [5, True, None, "0x00", "\0", [0], {0: 0}, {0}, 1.5, Lying(), array("d", [1.0]), memoryview(bytes(8))[::2],
                       memoryview(array("f", [0.0])), iter(b"\0"), range(3)]
#: What is no root and no chunk.
NO_ROOTS: list[Any] = [32, None, bytes(31), bytes(33), "00" * 31, "0x" + "0" * 63, "0x " + "0" * 63, ("01 " * 32).strip(), array("H", bytes(32)), [0] * 32,
                       "0X" + "0" * 64, "٠" * 64]
NO_INDICES: list[Any] = [True, 1.0, None, b"1", [1], -1, 1 << 128]
NO_NODES: list[Any] = [[], [bytes(32)] * 2, {1: bytes(32)}, {bytes(32)}, bytes(32), "00" * 32, None, 5]
NO_SELECTORS: list[Any] = ["1", None, 1.0, True, b"1"]
NO_SCHEMAS: list[Any] = [5, None, Lying(), array("d", [1.0]), ["x"], {}, "{}"]
PROOF = "proof 1=0x" + "00" * 32 + " /"

Calls = dict[str, tuple[list[Any], Callable[[Any], Any]]]


def of_session(session: Any, name: str) -> Calls:
    """Calls of a session with a version of this name: what may be wrong, and the call with it."""
    return {
        "new": (NO_NAMES, lambda it: session.new(it, "uint8")),
        "new of": (NO_NAMES, lambda it: session.new("Q", it)),
        "load": (NO_BYTES, lambda it: session.load("Q", "uint8", it)),
        "get": (NO_NAMES, lambda it: session.get(it, "/")),
        "get at": (NO_NAMES, lambda it: session.get(name, it)),
        "set": (NO_BYTES, lambda it: session.set(name, "/", it)),
        "set at": (NO_NAMES, lambda it: session.set(name, it, b"\0")),
        "append": (NO_BYTES, lambda it: session.append(name, "/", it)),
        "pop": (NO_NAMES, lambda it: session.pop(name, it)),
        "choose": (NO_SELECTORS, lambda it: session.choose(name, "/", it, b"")),
        "choose bytes": (NO_BYTES, lambda it: session.choose(name, "/", 0, it)),
        "length": (NO_NAMES, lambda it: session.length(name, it)),
        "root": (NO_NAMES, lambda it: session.root(it)),
        "fork": (NO_NAMES, lambda it: session.fork(name, it)),
        "drop": (NO_NAMES, lambda it: session.drop(it)),
        "run": (NO_NAMES, lambda it: session.run(it)),
        "pickle": ([session], pickle.dumps),
        "copy": ([session], copy.deepcopy),
    }


def of_type(schema: Any) -> Calls:
    """Calls of a type."""
    kind = schema.type("uint8")
    return {
        "check": (NO_BYTES, kind.check),
        "hash_tree_root": (NO_BYTES, kind.hash_tree_root),
        "part": (NO_BYTES, lambda it: kind.part(it, "/")),
        "part at": (NO_NAMES, lambda it: kind.part(b"\0", it)),
        "gindex": (NO_NAMES, kind.gindex),
        "open": (NO_BYTES, kind.open),
        "decode": (NO_BYTES, kind.decode_bytes),
        "schema": (NO_SCHEMAS, type(schema)),
        "pickled schema": ([schema], pickle.dumps),
        "copied schema": ([schema], copy.deepcopy),
    }


def of_proof() -> Calls:
    """Calls of proofs."""
    proof: Any = ssz.Proof
    return {
        "verify": (NO_ROOTS, lambda it: ssz.verify(it, PROOF)),
        "verify text": (NO_BYTES, lambda it: ssz.verify(bytes(32), it)),
        "index": (NO_INDICES, lambda it: proof({it: bytes(32)}, {})),
        "chunk": (NO_ROOTS, lambda it: proof({1: it}, {})),
        "leaves": (NO_NAMES, lambda it: proof(it, {})),
        "no leaves": ([{}], lambda it: proof(it, {}).verify(bytes(32))),
        "no nodes": ([{}], lambda it: proof({2: bytes(32)}, it).branch()),
        "index of a branch": (NO_INDICES, lambda it: proof.of_branch(it, bytes(32), [])),
        "nodes of a branch": (NO_NODES, lambda it: proof.of_branch(2, bytes(32), it)),
    }


def answer(door: Door, name: str, number: int) -> str:
    """The answer of a careless call, chosen by a number."""
    calls = {**of_session(door.session, name), **of_type(door.schema), **of_proof()}
    what = sorted(calls)[number % len(calls)]
    things, call = calls[what]
    thing = things[number // len(calls) % len(things)]
    try:
        call(thing)
    except (TypeError, ValueError):
        return "ok"
    return f"TAKEN {what}: {thing!r:.80}"
