"""The calls of ssz.py over files, printed as the program `ssz` prints them; the replies of a session
to the lines of a script; and the names of all types.

    example.py LIBRARY SCHEMA TYPE FILE PATH PROOF
    example.py LIBRARY SCHEMA SCRIPT
    example.py LIBRARY SCHEMA
"""

import sys
from pathlib import Path

from ssz import Library, Refused, SszError, Status

REFUSED = {
    Status.NO_TYPE: "refused 0 2 NoType",
    Status.BAD_PATH: "refused 0 5 BadPath",
    Status.ABSENT: "refused 0 6 Absent",
    Status.BAD_PROOF: "badproof",
}


def line_of(error: SszError) -> str:
    """The line that the program prints."""
    if error.status == Status.INVALID:
        return f"invalid F{error.code} {error.position}"
    if error.status == Status.BAD_SCHEMA:
        where = f" {error.position}" if 3 <= error.code <= 14 else ""
        return f"schema S{error.code}{where}"
    return REFUSED.get(error.status, f"status {int(error.status)}")


def show(library: str, schema: str, name: str, file: str, path: str, proof: str) -> int:
    """Prints the root, the index, the part and the verdict."""
    calls = Library(library)
    encoded = Path(file).read_bytes()
    with calls.schema(Path(schema).read_bytes()) as types:
        kind = types.type(name)
        kind.check(encoded)
        root = kind.root(encoded)
        print(f"root 0x{root.hex()}")
        print(f"gindex {kind.gindex(path)}")
        part = kind.part(encoded, path)
        print(f"bytes 0x{part.hex()}")
        opened = kind.open(encoded)
    if opened.part(path) != part:
        print("another part of the slice")
    holds = calls.verify(root, Path(proof).read_bytes())
    print("valid" if holds else "unlike")
    return 0 if holds else 1


def run(library: str, schema: str, script: str) -> int:
    """Prints the replies of a session to the lines of a script."""
    status = 0
    with Library(library).schema(Path(schema).read_bytes()) as types:
        session = types.session()
    with session:
        for line in Path(script).read_text().split("\n"):
            try:
                reply = session.run(line)
            except Refused as refusal:
                reply, status = refusal.reply, 1
            if reply:
                print(reply)
    return status


def name(library: str, schema: str) -> int:
    """Prints the names of all types."""
    with Library(library).schema(Path(schema).read_bytes()) as types:
        print("\n".join(types.names()))
    return 0


def main(*words: str) -> int:
    """Does what the words ask for."""
    try:
        if len(words) == 2:
            return name(*words)
        return run(*words) if len(words) == 3 else show(*words)
    except SszError as error:
        print(line_of(error))
        return 3 if error.status == Status.BAD_SCHEMA else 1


if __name__ == "__main__":
    sys.exit(main(*sys.argv[1:]))
