"""Rounds as they are run: drawn, asked of each door, and compared."""

from __future__ import annotations

import collections
import subprocess
import traceback
from concurrent.futures import ThreadPoolExecutor
from pathlib import Path
from typing import Iterator

from . import good, misuse, plain
from .by_python import Door
from .drawn import Maker, Round
from .program import Crashed, Program
from .steps import NONE, Step, chunks_of, fits, of_reply, wire

#: How much is misuse, and how many rounds begin with a version.
MISUSE, FIRST = 0.45, 0.8
#: The most seconds that a driver may take for a batch of rounds.
LONGEST = 1200
#: Of so many rounds one is asked by commands, too.
COMMANDS = 16


class Drawn:
    """A round: its number, its schema and its steps."""

    def __init__(self, seed: str, number: int) -> None:
        self.number = number
        round = Round(seed, number)
        self.schema, self.types = round.text, round.types
        self.steps = list(_steps(round))


def _steps(round: Round) -> Iterator[Step]:
    """The steps of a round, and in the end what each living version is."""
    for place in range(round.draw.randint(4, 12)):
        is_misuse, is_first = round.draw.random() < MISUSE, place == 0 and round.draw.random() < FIRST
        step = _one(round, good.FIRST if is_first else misuse.CLASSES if is_misuse else good.GOOD)
        step.as_line = step.line() is not None and round.draw.random() < 0.15
        yield step
    yield Step("list", [], " ".join(["ok", *sorted(round.versions)]))
    for name, (_, t, value) in round.versions.items():
        yield Step("get", [name.encode(), b"/"], f"ok {plain.hexed(plain.ssz.encode(t, value))}")
        yield Step("sroot", [name.encode()], "ok")
    yield Step("hashes")
    yield Step("nodes")


def _one(round: Round, table: list[tuple[Maker, int]]) -> Step:
    """A step by one of some makers that can make one."""
    makers, weights = zip(*table)
    step = None
    while step is None:
        step = round.draw.choices(makers, weights)[0](round)
    return step


class Tally:
    """What was asked and compared, and which rounds differ."""

    def __init__(self, seed: str) -> None:
        self.seed = seed
        self.rounds, self.steps, self.compared, self.values = 0, 0, 0, 0
        self.differ: dict[int, list[str]] = collections.defaultdict(list)
        self.classes: collections.Counter[str] = collections.Counter()

    def wrong(self, number: int, what: str) -> None:
        """Tells of a difference in a round, the first few at length."""
        if sum(map(len, self.differ.values())) < 40:
            print(f"DIFFERS: --seed {self.seed} --round {number}: {what}", flush=True)
        self.differ[number].append(what)


class Doors:
    """The program and the drivers."""

    def __init__(self, program: Path, drivers: dict[str, list[str]], room: Path) -> None:
        self.program, self.drivers = Program(program, room), drivers

    def run(self, rounds: list[Drawn], tally: Tally) -> list[list[dict[str, str | None]]]:
        """Asks all doors, and returns the answers of each step of each round by door."""
        with ThreadPoolExecutor(1) as beside:
            others = beside.submit(self._by_processes, rounds, tally)
            said = {"python": [self._by_python(round, tally) for round in rounds], **others.result()}
        return [[{door: said[door][at][place] for door in said} for place in range(len(round.steps))] for at, round in enumerate(rounds)]

    def _by_processes(self, rounds: list[Drawn], tally: Tally) -> dict[str, list[list[str | None]]]:
        """The answers of the drivers and of the program, while Python has its own."""
        said = {door: self.driven(door, words, rounds, tally) for door, words in self.drivers.items()}
        return {**said, "program": [self._by_program(round, tally) for round in rounds]}

    def _by_program(self, round: Drawn, tally: Tally) -> list[str | None]:
        try:
            return self.program.answers(round.schema, round.steps)
        except Crashed as error:
            tally.wrong(round.number, f"the program: {error}")
            return [None] * len(round.steps)

    def _by_python(self, round: Drawn, tally: Tally) -> list[str | None]:
        answers: list[str | None] = []
        try:
            door = Door(round.schema)
        except Exception:
            tally.wrong(round.number, f"python, the schema: {traceback.format_exc(limit=-3)}")
            return [None] * len(round.steps)
        for step in round.steps:
            try:
                answers.append(door.answer(step))
            except Exception:
                tally.wrong(round.number, f"python, {step.said()}: {traceback.format_exc(limit=-3)}")
                answers.append(None)
        door.close()
        return answers

    def driven(self, door: str, words: list[str], rounds: list[Drawn], tally: Tally) -> list[list[str | None]]:
        """The answers of a driver's process; where it crashes, the round in which it did is told, and the others go on without it."""
        answers: list[list[str | None]] = []
        while len(answers) < len(rounds):
            left = rounds[len(answers) :]
            lines, why = _ran(words, left, door)
            found = _by_round(left, lines, door)
            answers += found
            if len(found) < len(left):
                broken = left[len(found)]
                tally.wrong(broken.number, f"{door} crashed: {why}")
                answers.append([None] * len(broken.steps))
            elif why:
                tally.wrong(left[0].number, f"{door}, in one of {len(left)} rounds from here on: {why}")
        return answers


def _ran(words: list[str], rounds: list[Drawn], door: str) -> tuple[list[str], str]:
    """The lines of a driver, and why it ended where it did not well."""
    text = "".join(_asked(round, door) for round in rounds)
    try:
        done = subprocess.run(words, input=text.encode(), capture_output=True, timeout=LONGEST)
    except subprocess.TimeoutExpired as late:
        return (late.stdout or b"").decode("latin-1").split("\n")[:-1], f"no end within {LONGEST} s"
    lines = done.stdout.decode("latin-1").split("\n")[:-1]
    if done.returncode == 0 and not done.stderr:
        return lines, ""
    return lines, f"status {done.returncode}, {' '.join(lines[-1:])[:200]} {done.stderr.decode(errors='replace')[-3000:]}"


def _asked(round: Drawn, door: str) -> str:
    """A round as a driver reads it."""
    lines = [f"round {round.schema.hex()}", *(line for step in round.steps if (line := wire(step, door)))]
    return "".join(line + "\n" for line in lines)


def _by_round(rounds: list[Drawn], lines: list[str], door: str) -> list[list[str | None]]:
    """The answers of the rounds that a driver has answered whole."""
    found: list[list[str | None]] = []
    at = 0
    for round in rounds:
        wires = [wire(step, door) for step in round.steps]
        count = 1 + sum(line is not None for line in wires)
        if at + count > len(lines) or any(line.startswith("BROKEN") for line in lines[at : at + count]):
            break
        replies = iter(lines[at + 1 : at + count])
        found.append([NONE if line is None else _answer(next(replies)) for line in wires])
        if lines[at] != "ok":
            found[-1] = [f"the schema: {lines[at]}"] * len(wires)
        at += count
    return found


def _answer(line: str) -> str:
    """A driver's line as an answer; a reply to a statement is read as the program's."""
    return of_reply(line[6:]) if line.startswith("reply") else line.rstrip(" ")


def wanted_of(door: str, step: Step, reference: str) -> str:
    """What a door is to answer where the reference answers so."""
    if step.op == "prove" and door == "c" and not step.as_line:
        return chunks_of(reference)
    if step.op == "branch" and door != "c" and reference == "BAD_PROOF":
        return "BRANCH"
    return "NO_FILE" if door == "rust" and reference in ("NO_READ", "NO_WRITE") else reference


def branch_of(step: Step) -> str:
    """Whether the branch of a step is one of its index, and leads to its root."""
    root, digits, leaf, nodes = step.words
    index, chunks = int(digits), [nodes[at : at + 32] for at in range(0, len(nodes), 32)]
    if not index or len(nodes) != 32 * (index.bit_length() - 1):
        return "BAD_PROOF"
    return "ok" if plain.branch_root(index, leaf, chunks) == root else "UNLIKE"


def reference_of(step: Step, answers: dict[str, str | None]) -> str | None:
    """The program's answer, or what the model or the first door says where it has none."""
    if step.op == "branch":
        return branch_of(step)
    others = (answers[door] for door in ("program", "c", "python", "rust"))
    return next((answer for answer in others if answer not in (None, NONE)), None)


def compare(round: Drawn, answers: list[dict[str, str | None]], doors: Doors, tally: Tally) -> None:
    """Compares the answers to the steps of a round."""
    tally.rounds += 1
    for step, said in zip(round.steps, answers):
        tally.steps += 1
        tally.classes[step.misuse or "good"] += 1
        reference = reference_of(step, said)
        if reference is None:
            tally.wrong(round.number, f"{step.said()}: nobody answers")
            continue
        if not fits(reference, step.wanted):
            tally.wrong(round.number, f"{step.said()}: {reference[:300]} is answered, and {step.wanted[:300]} wanted")
        for door, answer in said.items():
            if answer is None or answer == NONE or door == "program":
                continue
            tally.compared += 1
            answer = "SYNTAX" if answer == "REFUSED 1" else answer
            if answer != wanted_of(door, step, reference):
                tally.wrong(round.number, f"{step.said()}: {door} answers {answer[:300]}, and {wanted_of(door, step, reference)[:300]} is wanted")
    if round.number % COMMANDS == 0:
        commands(round, answers, doors, tally)


def commands(round: Drawn, answers: list[dict[str, str | None]], doors: Doors, tally: Tally) -> None:
    """Asks commands of the program what their steps ask, and compares."""
    for step, said in zip(round.steps, answers):
        try:
            answer = doors.program.command(round.schema, step)
        except Crashed as error:
            tally.wrong(round.number, str(error))
            continue
        if answer is None:
            continue
        tally.compared += 1
        reference = reference_of(step, said) or ""
        same = fits(answer, reference) if step.op == "check" or reference == "UNLIKE" else answer == reference
        if not same:
            tally.wrong(round.number, f"{step.said()}: the command answers {answer[:300]}, and {reference[:300]} is wanted")
