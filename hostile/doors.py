#!/usr/bin/env python3
"""Drives the doors of the library, Python, Rust and C, side by side with the program, with drawn rounds of good use and misuse.

  hostile/doors.py --prefix PREFIX [--tree TREE] [--rounds N] [--seed S] [--jobs J] [--valgrind N]
  hostile/doors.py --prefix PREFIX --round K --seed S

  --prefix PREFIX   an installation: bin/ssz, include, lib
  --tree TREE       the repository whose python/ and rust/ are driven; this one where none is named
  --rounds N        how many rounds; 1000 where it is left out
  --seed S          what the rounds are drawn from; a new one where it is left out
  --jobs J          so many processes; 1 where it is left out
  --first K         the number of the first round
  --round K         this round alone, with all that it asks and is answered
  --valgrind N      the C driver of the first N rounds again, under valgrind
  --selftest        plants faults into copies of the packages, and tells in how many of the rounds each is found
  --classes         prints in the end how often each class of misuse was drawn

A round is a schema and a short program on it: each step is good or one of many classes of misuse (hostile/doors/misuse.py). All doors
must answer as the program does, or where it has no words for a step as one another, and as a plain model knows. The last line is
'N rounds, M differ'; the status is 1 where one differs, or nothing was run.
"""

from __future__ import annotations

import argparse
import os
import random
import re
import shutil
import subprocess
import sys
import tempfile
import time
from pathlib import Path
from typing import TYPE_CHECKING, NoReturn

if TYPE_CHECKING:
    from doors.rounds import Tally

HERE = Path(__file__).resolve().parent
#: So many rounds go through one process of a driver.
BATCH = 100


def words_of(argv: list[str]) -> argparse.Namespace:
    words = argparse.ArgumentParser(description=__doc__, formatter_class=argparse.RawDescriptionHelpFormatter, usage=argparse.SUPPRESS,
                                    allow_abbrev=False)
    words.add_argument("--prefix", type=Path, required=True)
    words.add_argument("--tree", type=Path, default=HERE.parent)
    words.add_argument("--rounds", type=int, default=1000)
    words.add_argument("--first", type=int, default=0)
    words.add_argument("--round", type=int)
    words.add_argument("--seed")
    words.add_argument("--jobs", type=int, default=1)
    words.add_argument("--valgrind", type=int, default=0)
    words.add_argument("--selftest", action="store_true")
    words.add_argument("--classes", action="store_true")
    words.add_argument("--drivers", type=Path, help=argparse.SUPPRESS)
    found = words.parse_args(argv)
    if found.seed is None:
        found.seed = str(random.SystemRandom().randrange(1 << 32))
    found.prefix, found.tree = found.prefix.resolve(), found.tree.resolve()
    return found


def nothing(why: str) -> NoReturn:
    """Ends without a round, which is no success."""
    print(f"{why}\n0 rounds, 0 differ")
    sys.exit(1)


def prepare(words: argparse.Namespace) -> None:
    """Lets Python find the package of the tree, and the package the library of the installation."""
    lacking = [str(file) for file in (words.prefix / "bin" / "ssz", words.prefix / "lib" / "libssz.a", words.prefix / "include" / "ssz.h",
                                      words.tree / "python" / "ssz", words.tree / "rust" / "Cargo.toml") if not file.exists()]
    if lacking:
        nothing(f"not there: {', '.join(lacking)}")
    os.environ["SSZ_LIB_DIR"] = str(words.prefix / "lib")
    sys.path[:0] = [str(words.tree / "python"), str(HERE)]


def drivers_of(words: argparse.Namespace, room: Path) -> dict[str, list[str]]:
    """The drivers, built or given."""
    from doors import built

    if words.drivers:
        return {"c": [str(words.drivers / "door_c")], "rust": [str(words.drivers / "rust" / "target" / "release" / "door")]}
    if built.missing():
        nothing(f"left out: all (no {', '.join(built.missing())})")
    try:
        return {"c": [str(built.c_driver(words.prefix, room))], "rust": [str(built.rust_driver(words.prefix, words.tree, room))]}
    except built.NotBuilt as error:
        nothing(str(error))


def told(tally: Tally, began: float, last: int) -> None:
    """Tells how far it is."""
    print(f"{tally.rounds} of {last} rounds, {len(tally.differ)} differ, {time.monotonic() - began:.0f} s",
          file=sys.stderr, flush=True)


def run(words: argparse.Namespace, drivers: dict[str, list[str]], room: Path) -> int:
    """Runs the rounds in this process."""
    from doors import values
    from doors.rounds import Doors, Drawn, Tally, compare

    tally, doors, began, shown = Tally(words.seed), Doors(words.prefix / "bin" / "ssz", drivers, room), time.monotonic(), 0.0
    for first in range(words.first, words.first + words.rounds, BATCH):
        rounds = [Drawn(words.seed, number) for number in range(first, min(first + BATCH, words.first + words.rounds))]
        for round, answers in zip(rounds, doors.run(rounds, tally)):
            compare(round, answers, doors, tally)
            values.run(round, tally)
        if time.monotonic() - shown > 5:
            shown = time.monotonic()
            told(tally, began, words.rounds)
    return ended(words, tally, time.monotonic() - began)


def ended(words: argparse.Namespace, tally: Tally, seconds: float) -> int:
    """The last lines, and the status."""
    classes = tally.classes
    if words.classes:
        for name, count in sorted(classes.items()):
            print(f"{count:8} {name}")
    print(f"{tally.steps} steps, {len(classes) - 1} classes of misuse, {tally.compared} answers and {tally.values} steps of values "
          f"compared, {seconds:.0f} s")
    print(f"{tally.rounds} rounds, {len(tally.differ)} differ")
    return int(bool(tally.differ) or not tally.compared)


def show(words: argparse.Namespace, drivers: dict[str, list[str]], room: Path) -> int:
    """One round, with all that is asked and answered."""
    from doors import values
    from doors.rounds import Doors, Drawn, Tally, compare, wanted_of

    tally, doors, round = Tally(words.seed), Doors(words.prefix / "bin" / "ssz", drivers, room), Drawn(words.seed, words.round)
    print(round.schema.decode())
    (answers,) = doors.run([round], tally)
    for step, said in zip(round.steps, answers):
        print(step.said())
        for door, answer in said.items():
            print(f"    {door:8} {(answer or 'nothing')[:500]}")
    compare(round, answers, doors, tally)
    values.run(round, tally, is_told=True)
    return ended(words, tally, 0)


def side_by_side(words: argparse.Namespace, room: Path) -> int:
    """Runs the rounds in some processes, and adds their counts up."""
    each, rounds, differ, bad = -(-words.rounds // words.jobs), 0, 0, 0
    jobs = []
    for first in range(words.first, words.first + words.rounds, each):
        count = min(each, words.first + words.rounds - first)
        jobs.append(subprocess.Popen([sys.executable, __file__, "--prefix", str(words.prefix), "--tree", str(words.tree), "--seed", words.seed,
                                      "--first", str(first), "--rounds", str(count), "--drivers", str(room)], stdout=subprocess.PIPE, text=True))
    for job in jobs:
        said = job.communicate()[0]
        print("\n".join(said.splitlines()[1:-1]))
        found = re.search(r"(\d+) rounds, (\d+) differ\Z", said.strip())
        rounds, differ = rounds + int(found[1] if found else 0), differ + int(found[2] if found else 1)
        bad |= job.returncode
    print(f"{rounds} rounds, {differ} differ")
    return int(bool(bad or differ or not rounds))


def valgrind(words: argparse.Namespace, room: Path) -> int:
    """The C driver without sanitizers, under valgrind."""
    from doors import built
    from doors.rounds import Doors, Drawn, Tally

    if not shutil.which("valgrind"):
        print("left out: valgrind")
        return 0
    made = [*"valgrind -q --leak-check=full --error-exitcode=9".split(), str(built.c_driver(words.prefix, room, plain=True))]
    tally, doors = Tally(words.seed), Doors(words.prefix / "bin" / "ssz", {"c": made}, room)
    rounds = [Drawn(words.seed, words.first + number) for number in range(words.valgrind)]
    doors.driven("c", made, rounds, tally)
    print(f"{len(rounds)} rounds under valgrind, {len(tally.differ)} with an error")
    return int(bool(tally.differ))


def main(argv: list[str]) -> int:
    words = words_of(argv)
    print(f"seed {words.seed}", flush=True)
    prepare(words)
    with tempfile.TemporaryDirectory() as folder:
        room = Path(folder)
        if words.selftest:
            from doors import planted

            return planted.run(words.prefix, words.tree, room, words.rounds, words.seed)
        drivers = drivers_of(words, room)
        if words.round is not None:
            return show(words, drivers, room)
        bad = valgrind(words, room) if words.valgrind else 0
        return (side_by_side(words, room) if words.jobs > 1 else run(words, drivers, room)) or bad


if __name__ == "__main__":
    sys.exit(main(sys.argv[1:]))
