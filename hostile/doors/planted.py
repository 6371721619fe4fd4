"""Faults that are planted into a copy of the packages, to see in how many rounds each is found."""

from __future__ import annotations

import re
import shutil
import subprocess
import sys
from pathlib import Path
from typing import NamedTuple


class Fault(NamedTuple):
    """What is wrong, and a text of a file with what stands there instead."""

    name: str
    file: str
    right: str
    wrong: str


FAULTS = [
    Fault("Python: a slice loses what an iterator gave before a wrong item", "python/ssz/forms.py", "        values = given.items_of(value)\n        if values is None:",
          "        if self.code and hasattr(value, '__next__'):\n            try:\n                return array(self.code, value).tobytes()\n"
          "            except (TypeError, OverflowError):\n                pass\n        values = given.items_of(value)\n        if values is None:"),
    Fault("Python: the length of an object in the place of that of its bytes", "python/ssz/session.py", "    return taken, len(taken)", "    return taken, len(data)"),
    Fault("Python: extend stops half-way", "python/ssz/values.py", "        new = self._taken(values)\n", "        for value in values:\n            self.append(value)\n        return\n"),
    Fault("Python: bits after the last of a bitvector are taken", "python/ssz/forms.py", "        elif len(data) != self.size or count > self.length:", "        elif False:"),
    Fault("Python: a view whose place is gone has a root", "python/ssz/session.py", "            self.see(name, path)\n            return self._filled", "            return self._filled"),
    Fault("Rust: a looser grammar of proofs", "rust/src/proof.rs", "        verdict(unsafe { ssz_verify(&ANY_ROOT, line.as_ptr(), line.len()) })?;\n", ""),
    Fault("Rust: more leaves than one are a branch", "rust/src/proof.rs", "            [(index, leaf)] =>", "            [(index, leaf), ..] =>"),
    Fault("Rust: a choice loses what is beyond 40 bytes", "rust/src/session.rs", "selector, data.as_ptr(), data.len(), fault",
          "selector, data.as_ptr(), data.len().min(40), fault"),
    Fault("C: a byte is appended where there are none", "include/ssz.h", "ssz_from(bytes), len, fault ? fault : &unseen);\n}\n#define ssz_session_append",
          "ssz_from(bytes), len + !len, fault ? fault : &unseen);\n}\n#define ssz_session_append"),
    Fault("C: a null pointer is not told", "include/ssz.h", "return ssz_ended(fault, SSZ_NULL);", "return ssz_ended(fault, SSZ_OK), SSZ_NULL;"),
]
LINE = re.compile(r"(\d+) rounds, (\d+) differ\Z")


def planted(fault: Fault, prefix: Path, tree: Path, room: Path) -> bool:
    """Makes a copy of the packages and the header with a fault in it; whether its text is there."""
    shutil.rmtree(room, ignore_errors=True)
    skip = shutil.ignore_patterns("target", "__pycache__")
    for package in ("python", "rust"):
        shutil.copytree(tree / package, room / package, ignore=skip)
    for part in ("bin", "lib", "include"):
        shutil.copytree(prefix / part, room / part)
    file = room / fault.file
    text = file.read_text()
    file.write_text(text.replace(fault.right, fault.wrong, 1))
    return fault.right in text


def found(room: Path, rounds: int, seed: str) -> int:
    """In how many rounds a fault is found."""
    words = [sys.executable, str(Path(__file__).resolve().parents[1] / "doors.py"), "--prefix", str(room), "--tree", str(room), "--rounds", str(rounds), "--seed", seed]
    said = subprocess.run(words, capture_output=True, text=True).stdout.strip()
    counts = LINE.search(said)
    return int(counts[2]) if counts and int(counts[1]) == rounds else -1


def run(prefix: Path, tree: Path, room: Path, rounds: int, seed: str) -> int:
    """Plants each fault in turn, and prints in how many rounds it is found; -1 where the rounds could not be run."""
    missed = 0
    for fault in FAULTS:
        count = found(room / "copy", rounds, seed) if planted(fault, prefix, tree, room / "copy") else -1
        missed += count <= 0
        print(f"{count:6} {fault.name}", flush=True)
    print(f"{len(FAULTS)} faults planted for {rounds} rounds each, {missed} not found")
    return int(missed > 0)
