"""Scripts by a session: the replies of `ssz run`, and in words what is refused, or which file of which line is not there."""

from __future__ import annotations

import argparse
import sys
from pathlib import Path
from typing import Callable

from ..errors import SszError, Status
from ..schema import Schema
from ..session import Session
from .progress import Progress
from .words import Problem, content, problem, schema_of


class Cut(Exception):
    """Why a run ends before its last line."""


class Run:
    """A script as it runs."""

    def __init__(self, schema: Schema) -> None:
        self._schema, self._session = schema, schema.session()
        self.refused = 0
        self._files: dict[str, Callable[..., None]] = {"load": self._load, "loadjson": self._load_json, "save": self._save}

    def line(self, number: int, line: bytes) -> None:
        """Does a line, and prints its reply."""
        try:
            reply = self._reply(line)
        except SszError as error:
            if error.status == Status.NO_MEMORY:
                raise Cut(str(error)) from None
            self._refuse(number, error)
            return
        if reply:
            print(reply)

    def _reply(self, line: bytes) -> str:
        """The reply to a line; of one that comes to a file what the file then does."""
        text = line.decode("latin-1")
        try:
            return self._session.run(text)
        except SszError as error:
            if error.status not in (Status.NO_READ, Status.NO_WRITE):
                raise
        kind, *words = text.split()
        self._files[kind](*words)
        return "ok"

    def _load(self, name: str, type: str, file: str) -> None:
        self._session.load(name, type, self._content(file))

    def _load_json(self, name: str, type: str, file: str) -> None:
        self._session.load(name, type, self._schema.type(type).of_json(self._content(file)))

    def _save(self, name: str, file: str) -> None:
        data = self._session.get(name)
        try:
            Path(file).write_bytes(data)
        except OSError as error:
            raise Cut(f"{file} can't be written ({error.strerror})") from None

    @staticmethod
    def _content(file: str) -> bytes:
        try:
            # (a file of a script may be named -, and is then no standard input)
            return content(f"./{file}" if file == "-" else file)
        except Problem as why:
            raise Cut(str(why)) from None

    def _refuse(self, number: int, error: SszError) -> None:
        """Prints the reply to a line that was refused, and says why."""
        self.refused += 1
        print(f"refused {number} {_codes(error)}")
        sys.stdout.flush()
        print(f"ssz: line {number}: {error}", file=sys.stderr)


def _codes(error: SszError) -> str:
    """The codes of a refusal, as `ssz run` prints them."""
    if error.status == Status.INVALID:
        return f"11 BadLiteral F{error.code} {error.position}"
    if error.status == Status.BAD_JSON:
        return f"18 BadJson J{error.code} {error.position}"
    return "12 TooLong" if error.status == Status.TOO_LONG else f"{error.code} {error.name}"


def lines_of(text: bytes) -> list[bytes]:
    """The lines of a script. A carriage return before a line feed is none of a line's bytes."""
    *ended, last = text.split(b"\n")
    return [line.removesuffix(b"\r") for line in ended] + [last] * bool(last)


def run(given: argparse.Namespace) -> int:
    """Runs a script, and says of each line that is refused why, and which file of which line is not there."""
    work, lines = Run(schema_of(given.schema)), lines_of(content(given.script))
    with Progress(f"running {given.script}", len(lines)) as progress:
        for number, line in enumerate(lines, 1):
            progress.step()
            try:
                work.line(number, line)
            except Cut as why:
                raise problem(f"{given.script}, line {number}", str(why), "The lines before it were done.") from None
    return int(work.refused > 0)
