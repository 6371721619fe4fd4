"""The program `ssz`, which the doors are compared with: a round is one script of `ssz run`, and sometimes commands of their own."""

from __future__ import annotations

import subprocess
from pathlib import Path

from .plain import ssz as plain
from .steps import Step, of_reply

#: The version that stands for bytes of which the schema alone is asked.
ASIDE = "Q9"
#: What a refusal of a statement is where the schema is asked.
OF_SCHEMA = {"REFUSED 2": "NO_TYPE", "REFUSED 5": "BAD_PATH", "REFUSED 6": "ABSENT"}
#: The most seconds that a run may take.
LONGEST = 300
READS_FILE = ("load ", "loadjson ", "save ")


class Crashed(Exception):
    """The program ended otherwise than it may, or said other lines than it must."""


def is_blank(line: str) -> bool:
    """Whether a line has no reply."""
    return not line.strip(" \t") or line.lstrip(" \t").startswith("#")


def aside(step: Step, file: str) -> list[str] | None:
    """The statements that ask what a step asks the schema; None where there are none."""
    words = step.words
    name = words[0].decode("latin-1") if words else ""
    if not plain.NAME.match(name):
        return None
    if step.op in ("check", "root", "part", "json", "share"):
        path = words[2].decode("latin-1") if step.op == "part" else ""
        shown = {"root": [f"root {ASIDE}"], "part": [f"bytes {ASIDE} {path}"], "json": [f"json {ASIDE} /"]}.get(step.op, [])
        lines = [f"lit {ASIDE} {name} 0x{words[1].hex()}", *shown]
    elif step.op == "default":
        lines = [f"new {ASIDE} {name}", f"bytes {ASIDE} /"]
    elif step.op == "unjson":
        lines = [f"loadjson {ASIDE} {name} {file}", f"bytes {ASIDE} /"]
    elif step.op == "gindex":
        lines = [f"gindex {name} {words[1].decode('latin-1')}"]
    else:
        return None
    counts = [len(line.split(" ")) for line in lines]
    is_clean = all(all("!" <= letter <= "~" or letter == " " for letter in line) for line in lines)
    return lines if is_clean and "" not in " ".join(lines).split(" ") and counts == [_counts(line) for line in lines] else None


def _counts(line: str) -> int:
    """How many words a statement has."""
    return {"lit": 4, "root": 2, "bytes": 3, "json": 3, "new": 3, "loadjson": 4, "gindex": 3}[line.split(" ")[0]]


class Program:
    """Runs of the program in a folder."""

    def __init__(self, path: Path, room: Path) -> None:
        self.path, self.room = str(path), room

    def put(self, name: str, data: bytes) -> str:
        (self.room / name).write_bytes(data)
        return name

    def ran(self, *words: str) -> tuple[int, str]:
        """The status and the lines of a run."""
        try:
            done = subprocess.run([self.path, *words], cwd=self.room, capture_output=True, timeout=LONGEST)
        except subprocess.TimeoutExpired:
            raise Crashed(f"ssz {' '.join(words)[:200]}: no end within {LONGEST} s") from None
        if done.returncode not in (0, 1, 2, 3) or done.stderr:
            raise Crashed(f"ssz {' '.join(words)[:200]}: status {done.returncode}, {done.stderr[:500]!r}")
        return done.returncode, done.stdout.decode("latin-1")

    def answers(self, schema: bytes, steps: list[Step]) -> list[str | None]:
        """What the program answers to the steps of a round; None where it has no words for one."""
        lines, places = self._script(steps)
        self.put("schema", schema)
        self.put("script", "".join(line + "\n" for line in lines).encode("latin-1"))
        said = self.ran("run", "schema", "script")[1].split("\n")[:-1]
        if len(said) != sum(not is_blank(line) for line in lines):
            raise Crashed(f"a script of {len(lines)} lines has {len(said)} replies")
        replies = iter(said)
        by_line = ["" if is_blank(line) else next(replies) for line in lines]
        return [None if some is None else self._answer(step, by_line[some]) for step, some in zip(steps, places)]

    def _script(self, steps: list[Step]) -> tuple[list[str], list[slice | None]]:
        """The script of a round, first what its session is asked, and the lines that are of each step."""
        lines: list[str] = []
        places: list[slice | None] = [None] * len(steps)
        for number, step in enumerate(steps):
            line = step.line()
            if line is not None and not line.startswith(READS_FILE):
                places[number] = slice(len(lines), len(lines) + 1)
                lines.append(line)
        for number, step in enumerate(steps):
            asked = aside(step, f"text{number}")
            if asked is None:
                continue
            if step.op == "unjson":
                self.put(f"text{number}", step.words[1])
            places[number] = slice(len(lines), len(lines) + len(asked))
            lines += [*asked, f"drop {ASIDE}"]
        return lines, places

    def _answer(self, step: Step, replies: list[str]) -> str:
        """The first refusal, or the last reply."""
        answers = [of_reply(reply) for reply in replies]
        answer = next((answer for answer in answers if not answer.startswith("ok")), answers[-1])
        return OF_SCHEMA.get(answer, answer) if aside(step, "f") is not None else answer

    # ---- commands of their own

    def command(self, schema: bytes, step: Step) -> str | None:
        """What a command answers to a step; None where there is no command for it."""
        words = step.words
        if step.op == "schema":
            self.put("schema", words[0])
            return self._said("root", "--", "schema", "uint8", self.put("value", b"\0"))
        if step.op == "verify":
            return self._said("verify", "--", words[0].hex(), self.put("proof", words[1]))
        if step.op not in ("check", "root", "part") or any(b"\0" in word for word in (words[0], *words[2:])):
            return None
        self.put("schema", schema)
        name, file = words[0].decode("latin-1"), self.put("value", words[1])
        return self._said(*([step.op if step.op == "part" else "root", "--", "schema", name, file, *(word.decode("latin-1") for word in words[2:])]))

    def _said(self, *words: str) -> str:
        """The line of a command as an answer."""
        status, line = self.ran(*words)
        said = line.split()
        if status == 2:
            return "SYNTAX"
        if said[0] == "schema":
            return f"BAD_SCHEMA {said[1][1:]} {(said + ['0'])[2]}"
        if said[0] == "invalid":
            return f"INVALID {said[1][1:]} {said[2]}"
        if said[0] == "refused":
            answer = f"REFUSED {said[2]}"
            return OF_SCHEMA.get(answer, answer)
        return {"valid": "ok", "unlike": "UNLIKE", "badproof": "BAD_PROOF"}.get(said[0], " ".join(["ok", *said[1:]]))
