"""The consensus layer's types on mainnet: `from ssz.ethereum import deneb`. Those of the minimal preset are in ssz.ethereum.minimal."""

from __future__ import annotations

from pathlib import Path

from ..schema import Schema
from ..session import Lock

FORKS = ("phase0", "altair", "bellatrix", "capella", "deneb", "electra", "fulu")

_PACKAGE = Path(__file__).resolve().parents[1]
_FOLDERS = (_PACKAGE / "schemas", _PACKAGE.parents[1] / "schemas", _PACKAGE.parents[1] / "examples" / "ethereum")


def folder() -> Path:
    """The folder of the schemas' files: the package's own, the one of ./install, or that of a checkout of the repository."""
    return next((each for each in _FOLDERS if each.is_dir()), _FOLDERS[0])


_lock = Lock()
_schemas: dict[str, Schema] = {}


def fork(name: str) -> Schema:
    """The schema of a fork: "deneb", or "minimal/deneb". It is read once, so that all threads have the same classes."""
    with _lock:
        if name not in _schemas:
            _schemas[name] = Schema.read(folder() / f"{name}.json")
        return _schemas[name]


def __getattr__(name: str) -> Schema:
    if name not in FORKS:
        raise AttributeError(f"there is no fork {name}: the forks are {', '.join(FORKS)}")
    return fork(name)


def __dir__() -> list[str]:
    return [*FORKS, "FORKS", "folder", "fork", "minimal"]
