"""Runs of the program in a folder of their own, with the shim of this folder before it."""
import argparse
import os
import subprocess
import sys
import tempfile

from rows import SSZ

HERE = os.path.dirname(os.path.abspath(__file__))
BEFORE = b"as before"


def words_of(about, *words):
    """The words of the command line, once the program is there. `about` is the script's own text."""
    parser = argparse.ArgumentParser(description=about, formatter_class=argparse.RawDescriptionHelpFormatter)
    for word in words:
        parser.add_argument(word, metavar=word.upper(), nargs="?", default="")
    given = parser.parse_args()
    if not os.access(SSZ, os.X_OK):
        sys.exit(f"no program {SSZ}: rt run in crates/ssz_cli makes it, and SSZ=FILE names another")
    return given


class Place:
    """A folder to run in, and the shim."""

    def __init__(self):
        self.room = tempfile.TemporaryDirectory()
        self.folder = self.room.name
        self.shim = os.path.join(self.folder, "shim.so")
        source = os.path.join(HERE, "shim.c")
        subprocess.run(["gcc", "-O2", "-shared", "-fPIC", "-o", self.shim, source], check=True)

    def path(self, name):
        return os.path.join(self.folder, name)

    def give(self, row):
        """Puts the files of a row into the folder, and something where it saves."""
        for name, data in {**row.files, **{name: BEFORE for name in row.saved}}.items():
            with open(self.path(name), "wb") as file:
                file.write(data)

    def held(self, name):
        with open(self.path(name), "rb") as file:
            return file.read()

    def run(self, words, out=subprocess.PIPE, **shim):
        """The status and the output, where the shim is told so."""
        told = {"SHIM_" + name.upper(): str(value) for name, value in shim.items()}
        told["LD_PRELOAD"] = self.shim
        ran = subprocess.run([SSZ, *words], cwd=self.folder, env=told, stdout=out,
                             stderr=subprocess.PIPE)
        if ran.stderr:
            raise SystemExit("%s: said %r beside its output" % (words, ran.stderr))
        return ran.returncode, ran.stdout or b""

    def counts(self, words):
        """The status, the output, and how often memory, reads and writes were asked for."""
        ended = self.run(words, counts=self.path("counts"))
        return ended, [int(count) for count in self.held("counts").split()]


class Tally:
    """How many runs were made, and which of them differed."""

    def __init__(self):
        self.runs, self.differed = 0, 0

    def check(self, what, good, told):
        self.runs += 1
        if not good:
            self.differed += 1
            print("DIFFERS: %s: %s" % (what, told))

    def end(self):
        print("%d runs, %d differed" % (self.runs, self.differed))
        raise SystemExit(1 if self.differed else 0)


def is_front(said, whole):
    """Whether whole lines in front of a text were printed, and nothing else."""
    return whole.startswith(said) and (not said or said.endswith(b"\n"))
