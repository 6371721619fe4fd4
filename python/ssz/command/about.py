"""What this is: the version of the package and of the library, and what the library was built of."""

from __future__ import annotations

import argparse
from pathlib import Path
from typing import Any

from .. import _library

#: What ./install writes beside the schemas, and the wheel takes along: the commit and the sums of what was built.
_BUILT = "built.txt"


class Version(argparse.Action):
    """Prints what this is, and ends."""

    def __init__(self, option_strings: Any, dest: str, **_: Any) -> None:
        super().__init__(option_strings, dest, nargs=0, help="the versions of the package and of the library, and what they were built of")

    def __call__(self, parser: argparse.ArgumentParser, *_: Any) -> None:
        try:
            print(told())
        except _library.LibraryMissing as error:
            parser.exit(1, f"ssz: {error}\n")
        parser.exit(0)


def told() -> str:
    """The lines of --version."""
    from .. import __version__

    number, place = _library.version(), _library.place()
    lines = [f"ssz {__version__} for Python",
             f"libssz {number >> 16}.{number >> 8 & 255}.{number & 255} for {'x86-64-v3' if _library.V3 in place else 'x86-64-v2'}, {place}"]
    if not Path(place).is_absolute():
        return "\n".join(lines)
    folder = Path(place).parents[2 if _library.V3 in place else 0]
    built = next((file for file in (folder / _BUILT, folder.parent / "share" / "ssz" / _BUILT) if file.is_file()), None)
    return "\n".join(lines + (built.read_text().splitlines()[:2] if built else []))
