"""The consensus layer's types in the minimal preset: `from ssz.ethereum.minimal import deneb`."""

from __future__ import annotations

from . import FORKS, fork
from ..schema import Schema


def __getattr__(name: str) -> Schema:
    if name not in FORKS:
        raise AttributeError(f"there is no fork {name}: the forks are {', '.join(FORKS)}")
    return fork(f"minimal/{name}")


def __dir__() -> list[str]:
    return list(FORKS)
