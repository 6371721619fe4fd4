"""SimpleSerialize (SSZ), the encoding and the hash tree of Ethereum's consensus layer, over a library each function of which is proved.

    from ssz.ethereum import deneb

    state = deneb.BeaconState.decode_bytes(data)
    state.validators[7].effective_balance = 32 * 10**9
    root = state.hash_tree_root()
    assert state.prove("/validators/7/effective_balance").verify(root)

`Schema` reads the types of a schema file, `Type` tells what holds of bytes, `Slice` is bytes that were checked once, to ask for many
parts, `Session` has the calls below the values' classes, and `Proof` is a multiproof.
"""

from __future__ import annotations

from typing import Any

from ._library import LibraryMissing
from .errors import (BadJson, BadPath, BadProof, BadSchema, BadValue, InvalidBytes, NoSuchPart, NoSuchType, Refused, Status, SszError)
from .proof import Branch, Proof, verify
from .schema import Schema, Slice, Type
from .session import Session
from .values import View

__version__ = "0.1.0"
__all__ = [
    "BadJson", "BadPath", "BadProof", "BadSchema", "BadValue", "Branch", "InvalidBytes", "LibraryMissing", "NoSuchPart", "NoSuchType", "Proof",
    "Refused", "Schema", "Session", "Slice", "Status", "SszError", "Type", "View", "decode", "encode", "get_hash_tree_root", "verify",
]


def encode(value: View) -> bytes:
    """The encoding of a value."""
    return value.encode_bytes()


def decode(data: bytes, kind: Any) -> Any:
    """The value of a class, as `deneb.BeaconState`, that the bytes encode."""
    return kind.decode_bytes(data)


def get_hash_tree_root(value: View) -> bytes:
    """The root of a value."""
    return value.hash_tree_root()
