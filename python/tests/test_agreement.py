"""1,000 drawn values of every form: Python, C, Rust and the program say the same of them."""

from __future__ import annotations

import json
import os
import random
import shutil
import subprocess
import tempfile
import unittest
from pathlib import Path
from typing import Any, NamedTuple

import ssz
from ssz.forms import Form

from . import draws

TOP = Path(__file__).resolve().parents[2]
TYPES, VALUES = 200, 1000
LIBRARIES = os.environ.get("SSZ_LIB_DIR", "")
PROGRAM = os.environ.get("SSZ_PROGRAM") or os.path.join(LIBRARIES, "..", "bin", "ssz")


class Case(NamedTuple):
    """A value in bytes, other bytes, and the part that is put in a place of it."""

    name: str
    value: bytes
    other: bytes
    path: str
    part: bytes

    def words(self) -> str:
        """The case as the programs of C and Rust read it."""
        return " ".join([self.name, self.value.hex() or "-", self.other.hex() or "-", self.path, self.part.hex() or "-"])


def cases(schema: ssz.Schema, seed: int) -> list[Case]:
    """The cases: values of all types in turn."""
    draw, found = random.Random(seed), []
    for number in range(VALUES):
        name = f"T{number % TYPES}"
        form = schema.type(name).form
        value = form.encode(draws.value(draw, form))
        path, of = draws.part(draw, form, value)
        found.append(Case(name, value, draws.changed(draw, value), path, of.encode(draws.value(draw, of))))
    return found


def by_python(schema: ssz.Schema, case: Case) -> list[str]:
    """What the package says of a case."""
    kind = schema.type(case.name)
    lines = [f"root 0x{kind.hash_tree_root(case.value).hex()}"]
    try:
        kind.check(case.other)
        lines.append("valid")
    except ssz.InvalidBytes as error:
        lines.append(f"F{error.code} {error.position}")
    with schema.session() as session:
        session.load("V", case.name, case.value)
        session.set("V", case.path, case.part)
        lines.append(f"root 0x{session.root('V').hex()}")
        lines.append(f"bytes 0x{session.get('V').hex()}")
        lines.append(str(session.prove("V", case.path)))
    return lines


def script(found: list[Case]) -> str:
    """The cases as a script for the program."""
    lines = []
    for case in found:
        lines += [f"lit V {case.name} 0x{case.value.hex()}", "root V", f"lit W {case.name} 0x{case.other.hex()}",
                  f"set V {case.path} 0x{case.part.hex()}", "root V", "bytes V /", f"prove V {case.path}", "drop V", "drop W"]
    return "\n".join(lines) + "\n"


def by_program(schema: Path, found: list[Case], room: Path) -> list[list[str]]:
    """What the program says of the cases."""
    (room / "script").write_text(script(found))
    said = subprocess.run([PROGRAM, "run", str(schema), str(room / "script")], capture_output=True, text=True).stdout.splitlines()
    lines = []
    for at in range(0, len(said), 9):
        _, root, other, _, after, encoding, proof = said[at : at + 7]
        lines.append([root, "valid" if other == "ok" else " ".join(other.split()[4:]), after, encoding, proof])
    return lines


def by_lines(words: list[str], found: list[Case], where: Path) -> list[list[str]]:
    """What a program of C or Rust says of the cases."""
    text = "\n".join(case.words() for case in found) + "\n"
    said = subprocess.run(words, input=text, capture_output=True, text=True, cwd=where, check=True).stdout.splitlines()
    return [said[at : at + 5] for at in range(0, len(said), 5)]


class Agreement(unittest.TestCase):
    """The same cases in all languages."""

    @classmethod
    def setUpClass(cls) -> None:
        cls._room = tempfile.TemporaryDirectory()
        cls.addClassCleanup(cls._room.cleanup)
        cls.room = Path(cls._room.name)
        types = draws.schema(random.Random(40), TYPES)
        cls.file = cls.room / "schema.json"
        cls.file.write_text(json.dumps(types))
        cls.schema = ssz.Schema(types)
        cls.cases = cases(cls.schema, 41)
        cls.wanted = [by_python(cls.schema, case) for case in cls.cases]

    def compare(self, said: list[list[str]]) -> None:
        self.assertEqual(len(said), len(self.wanted))
        for case, one, other in zip(self.cases, self.wanted, said):
            self.assertEqual(one, other, case.words())

    def test_draws_have_faults_and_none(self) -> None:
        faults = {lines[1].split()[0] for lines in self.wanted}
        self.assertGreaterEqual(faults, {"valid", *(f"F{code}" for code in range(1, 12))})

    @unittest.skipUnless(os.path.exists(PROGRAM), "no program: SSZ_PROGRAM says where it is")
    def test_the_program(self) -> None:
        self.compare(by_program(self.file, self.cases, self.room))

    @unittest.skipUnless(shutil.which("cc"), "no cc")
    def test_c(self) -> None:
        made = self.room / "agree"
        subprocess.run(["cc", "-O2", "-Wall", "-Wextra", "-Werror", f"-I{TOP}/include", "-o", made, TOP / "c" / "agree.c", f"{LIBRARIES}/libssz.a"],
                       check=True)
        self.compare(by_lines([str(made), str(self.file)], self.cases, self.room))

    @unittest.skipUnless(shutil.which("cargo"), "no cargo")
    def test_rust(self) -> None:
        words = ["cargo", "run", "-q", "--offline", "--example", "agree", "--target-dir", str(self.room / "target"), str(self.file)]
        self.compare(by_lines(words, self.cases, TOP / "rust"))

    def test_objects(self) -> None:
        for case in self.cases:
            kind = self.schema.type(case.name)
            plain = kind.decode_bytes(case.value)
            self.assertEqual(kind.encode_bytes(plain), case.value)
            for api in (False, True):
                shown = json.loads(json.dumps(kind.form.shown(plain, api)))
                self.assertEqual(kind.encode_bytes(shown), case.value)

    def test_classes(self) -> None:
        for case, lines in zip(self.cases, self.wanted):
            made: Any = self.schema[case.name]
            if not isinstance(made, ssz.Type):
                value = made.decode_bytes(case.value)
                self.assertEqual(f"root 0x{value.hash_tree_root().hex()}", lines[0])
                self.assertEqual(made.from_obj(value.to_obj()), value)


if __name__ == "__main__":
    unittest.main()
