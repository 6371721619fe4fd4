"""Multiproofs: leaves of a tree of hashes, and the nodes from which, together with them, the root follows.

What a proof is, the library judges: of a text by its grammar, of leaves and nodes by their indices.
"""

from __future__ import annotations

import numbers
import re
import reprlib
import struct
from collections.abc import Iterable, Mapping, Set
from dataclasses import dataclass
from types import MappingProxyType
from typing import Any

from ._library import Entry, library
from .errors import BadProof, Status, error_of

_DIGITS = re.compile(r"(?:0x)?([0-9a-fA-F]{64})")
#: An entry in memory: the lower and the upper half of its index, and its chunk.
_ENTRY = struct.Struct("=QQ32s")
_HALF = (1 << 64) - 1
_ANY_ROOT = bytes(32)


@dataclass(frozen=True)
class Branch:
    """The proof of one leaf, as light clients pass it on: the nodes are ordered from the leaf up."""

    index: int
    leaf: bytes
    nodes: list[bytes]


def as_chunk(root: bytes | str, what: str = "a root") -> bytes:
    """The 32 bytes of a root, given as bytes, or as text of 64 hexadecimal digits, perhaps after 0x."""
    chunk = _of_digits(root) if isinstance(root, str) else _of_bytes(root)
    if chunk is None:
        kind = ValueError if isinstance(root, (str, bytes, bytearray, memoryview)) else TypeError
        raise kind(f"{what} is 32 bytes, or text of 64 hexadecimal digits, perhaps after 0x, and not {_said(root)}")
    return chunk


def _of_digits(text: str) -> bytes | None:
    """The chunk that a text says, or None."""
    found = _DIGITS.fullmatch(text)
    return bytes.fromhex(found[1]) if found else None


def _of_bytes(given: Any) -> bytes | None:
    """The chunk that an object of 32 items of one byte is, or None."""
    try:
        view = memoryview(given)
    except (TypeError, ValueError, BufferError):
        return None
    return view.tobytes() if view.itemsize == 1 and view.shape == (32,) else None


def _said(given: object) -> str:
    """An object in a few words."""
    if isinstance(given, (bytes, bytearray)):
        return f"{len(given)} bytes"
    return reprlib.repr(given) if isinstance(given, str) else f"an object of type {type(given).__name__}"


def _refused(what: str, advice: str) -> BadProof:
    """The error of what is no proof."""
    return BadProof(what, advice, status=Status.BAD_PROOF, name=Status.BAD_PROOF.name)


def _index(given: object) -> int:
    """The generalized index that an object is."""
    if isinstance(given, bool) or not isinstance(given, (int, numbers.Integral)):
        raise _refused(f"{_said(given)} is no generalized index", "Give a whole number from 1 to 2^128 - 1.")
    number = int(given)
    if not 0 < number < 1 << 128:
        raise _refused("a generalized index is out of range", "Give a whole number from 1 to 2^128 - 1.")
    return number


def _chunk_at(index: int, given: object) -> bytes:
    """The chunk that an object is, at an index."""
    chunk = _of_bytes(given)
    if chunk is None:
        raise _refused(f"{_said(given)} is no chunk, at index {index}", "Give 32 bytes.")
    return chunk


def _nodes(given: object) -> Mapping[int, bytes]:
    """Nodes by their generalized indices, which nobody can change."""
    if not isinstance(given, Mapping):
        raise TypeError(f"the leaves and the helpers of a proof are dicts of chunks by generalized index, and not {_said(given)}")
    return MappingProxyType({_index(index): _chunk_at(index, chunk) for index, chunk in given.items()})


def _named(words: Iterable[str]) -> dict[int, bytes]:
    """The nodes that words of a proof's line name."""
    pairs = (word.split("=0x") for word in words)
    return {int(index): bytes.fromhex(digits) for index, digits in pairs}


def _word_of(index: int, chunk: bytes) -> str:
    """A node as a proof's line has it."""
    return f"{index}=0x{chunk.hex()}"


def _entries(nodes: Iterable[tuple[int, bytes]]) -> Any:
    """Nodes as calls take them."""
    data = b"".join(_ENTRY.pack(index & _HALF, index >> 64, chunk) for index, chunk in nodes)
    return (Entry * (len(data) // _ENTRY.size)).from_buffer_copy(data)


def _node(entry: Entry) -> tuple[int, bytes]:
    """A node, by its generalized index."""
    low, high, chunk = _ENTRY.unpack(entry)
    return low | high << 64, chunk


def _line(text: object) -> bytes:
    """The bytes of a proof's line."""
    if isinstance(text, (bytes, bytearray, memoryview)):
        return bytes(text)
    if not isinstance(text, str):
        raise TypeError(f"a proof is a Proof, or the line of one as text or bytes, and not {_said(text)}")
    try:
        return text.encode("ascii")
    except UnicodeEncodeError:
        raise error_of(Status.BAD_PROOF, 0, 0) from None


def _leads(status: int) -> bool:
    """Whether a proof leads to a root, by the status of the call that judged both."""
    if status not in (Status.OK, Status.UNLIKE):
        raise error_of(status, 0, 0)
    return status == Status.OK


@dataclass(frozen=True)
class Proof:
    """A multiproof: chunks by their generalized indices. `str(proof)` is the line that `ssz verify` takes."""

    leaves: Mapping[int, bytes]
    helpers: Mapping[int, bytes]

    def __post_init__(self) -> None:
        object.__setattr__(self, "leaves", _nodes(self.leaves))
        object.__setattr__(self, "helpers", _nodes(self.helpers))

    @classmethod
    def parse(cls, text: bytes | str) -> Proof:
        """The proof that a line says. Raises BadProof where `ssz verify` says badproof."""
        line = _line(text)
        _leads(library().ssz_verify(_ANY_ROOT, line, len(line)))
        leaves, _, helpers = line.decode("ascii").partition("/")
        return cls(_named(leaves.split()[1:]), _named(helpers.split()))

    @classmethod
    def of_entries(cls, leaves: Iterable[Entry], helpers: Iterable[Entry]) -> Proof:
        """The proof of these leaves and nodes, as calls give them."""
        return cls(dict(map(_node, leaves)), dict(map(_node, helpers)))

    @classmethod
    def of_branch(cls, index: int, leaf: bytes | str, nodes: Iterable[bytes | str]) -> Proof:
        """The proof that a branch is, its nodes ordered from the leaf up."""
        number, leaf = _index(index), _part_of_branch(leaf, "a leaf")
        if isinstance(nodes, (str, bytes, bytearray, memoryview, Mapping, Set)) or not isinstance(nodes, Iterable):
            raise ValueError(f"the nodes of a branch are a list of chunks, ordered from the leaf up, and not {_said(nodes)}")
        chunks = [_part_of_branch(node, "a node") for node in nodes]
        if number.bit_length() - 1 != len(chunks):
            raise ValueError(f"a branch of index {number} has {number.bit_length() - 1} nodes, and {len(chunks)} were given")
        return cls({number: leaf}, {(number >> level) ^ 1: chunk for level, chunk in enumerate(chunks)})

    def branch(self) -> Branch:
        """The proof of one leaf as a branch. Raises BadProof where it has not the nodes that its leaf needs."""
        if len(self.leaves) > 1:
            raise ValueError(f"a branch has one leaf, and this proof has {len(self.leaves)}")
        self._leads_to(_ANY_ROOT)
        ((index, leaf),) = self.leaves.items()
        return Branch(index, leaf, [self.helpers[(index >> level) ^ 1] for level in range(index.bit_length() - 1)])

    def verify(self, root: bytes | str) -> bool:
        """Whether the proof leads to the root. Raises BadProof where it has not the nodes that its leaves need."""
        return self._leads_to(as_chunk(root))

    def _leads_to(self, root: bytes) -> bool:
        leaves, helpers = _entries(self.leaves.items()), _entries(self._in_order())
        status = library().ssz_verify_all(root, leaves, len(leaves), helpers, len(helpers))
        if status == Status.BAD_PROOF:
            raise _refused("the leaves and helpers are no multiproof",
                           "Give leaves none of which is above another, and exactly the nodes that they need.")
        return _leads(status)

    def _in_order(self) -> list[tuple[int, bytes]]:
        """The helpers, from the greatest index down."""
        return sorted(self.helpers.items(), reverse=True)

    def __str__(self) -> str:
        leaves = [_word_of(index, chunk) for index, chunk in sorted(self.leaves.items())]
        return " ".join(["proof", *leaves, "/", *(_word_of(index, chunk) for index, chunk in self._in_order())])

    def __repr__(self) -> str:
        return f"Proof(leaves={dict(self.leaves)!r}, helpers={dict(self.helpers)!r})"

    def __hash__(self) -> int:
        return hash((frozenset(self.leaves.items()), frozenset(self.helpers.items())))

    def __reduce__(self) -> tuple[Any, ...]:
        return type(self), (dict(self.leaves), dict(self.helpers))


def _part_of_branch(given: bytes | str, what: str) -> bytes:
    """The 32 bytes of a leaf or a node of a branch."""
    try:
        return as_chunk(given, what)
    except TypeError as error:
        raise ValueError(str(error)) from None


def verify(root: bytes | str, proof: Proof | bytes | str) -> bool:
    """Whether a proof, or the line of one, leads to the root. Raises BadProof where it is none."""
    if isinstance(proof, Proof):
        return proof.verify(root)
    chunk, line = as_chunk(root), _line(proof)
    return _leads(library().ssz_verify(chunk, line, len(line)))
