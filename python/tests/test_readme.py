"""What README prints is what its blocks print."""

from __future__ import annotations

import os
import re
import subprocess
import sys
import tempfile
import unittest
from pathlib import Path
from typing import Iterator

PACKAGE = Path(__file__).resolve().parents[1]
README = (PACKAGE / "README.md").read_text()


def blocks() -> Iterator[tuple[str, str]]:
    """The blocks of Python, each with what is told of what it prints."""
    for code, said in re.findall(r"```python\n(.*?)```\n\nprints\n\n((?:    [^\n]*\n)+)", README, re.S):
        yield code, re.sub(r"(?m)^    ", "", said)


def commands() -> Iterator[tuple[str, str]]:
    """The commands behind `$`, each with what it prints."""
    for block in re.findall(r"```console\n(.*?)```", README, re.S):
        for text in re.split(r"(?m)^\$ ", block)[1:]:
            line, _, said = text.partition("\n")
            yield line, said


class Readme(unittest.TestCase):
    """Runs README's blocks in order in an empty folder."""

    def setUp(self) -> None:
        room = tempfile.TemporaryDirectory()
        self.addCleanup(room.cleanup)
        self.how = {"cwd": room.name, "capture_output": True, "text": True,
                    "env": {**os.environ, "PYTHONPATH": str(PACKAGE)}}

    def test_blocks(self) -> None:
        self.assertEqual(len(list(blocks())), 2)
        for code, said in blocks():
            ran = subprocess.run([sys.executable, "-c", code], **self.how)
            self.assertEqual((ran.stdout, ran.stderr), (said, ""))

    def test_commands(self) -> None:
        self.assertGreaterEqual(len(list(commands())), 4)
        for line, said in commands():
            ran = subprocess.run(line.replace("python3", sys.executable), shell=True, **self.how)
            self.assertEqual(ran.stdout + ran.stderr, said, line)


if __name__ == "__main__":
    unittest.main()
