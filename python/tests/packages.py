#!/usr/bin/env python3
"""Runs the tests of the packages, over an installation.

  packages.py            installs into a folder of its own, and tests that
  packages.py PREFIX     tests what ./install PREFIX put in place

What they need is installed by apt-get where that may be; what is left out for want of a tool is said, and fails unless it
is one that the packages do not need. The last line is 'N passed, M failed'.
"""

import os
import re
import shutil
import subprocess
import sys
import tempfile
from pathlib import Path

TOP = Path(__file__).resolve().parents[2]
#: The tools of the packages: the package of Debian that has each, and whether the tests fail without it.
TOOLS = {"cc": ("gcc", True), "ld": ("binutils", True), "pkg-config": ("pkg-config", True), "cargo": ("cargo", True),
         "valgrind": ("valgrind", False)}


class Tally:
    """How many tests passed, and how many did not."""

    def __init__(self):
        self.passed, self.failed = 0, 0

    def add(self, name, passed, failed):
        """Counts a part, and says what it came to."""
        self.passed, self.failed = self.passed + passed, self.failed + failed
        print(f"{name}: {passed} passed, {failed} failed", flush=True)


def ran(*words, where=TOP, **variables):
    """Runs a command, shows what it prints, and returns that and the status."""
    print("$ " + " ".join(map(str, words)), flush=True)
    lines = []
    with subprocess.Popen([str(word) for word in words], cwd=where, env={**os.environ, **variables}, stdin=subprocess.DEVNULL,
                          stdout=subprocess.PIPE, stderr=subprocess.STDOUT, text=True, errors="replace") as process:
        for line in process.stdout:
            lines.append(line)
            print(line, end="", flush=True)
    return "".join(lines), process.returncode


def tools(tally):
    """Installs what is missing, where that may be, and counts what is missing still."""
    lacking = [tool for tool in TOOLS if not shutil.which(tool)]
    if lacking and os.geteuid() == 0 and shutil.which("apt-get"):
        ran("apt-get", "install", "-y", "--no-install-recommends", *(TOOLS[tool][0] for tool in lacking), DEBIAN_FRONTEND="noninteractive")
    for tool in [tool for tool in lacking if not shutil.which(tool)]:
        print(f"left out: what needs {tool} (Debian's {TOOLS[tool][0]}), which is not here and could not be installed")
        if TOOLS[tool][1]:
            tally.add(f"the tool {tool}", 0, 1)


def python(tally, libraries):
    """The tests of the package for Python, those that compare all languages among them."""
    said, status = ran(sys.executable, "-m", "unittest", "discover", "-s", "python/tests", "-t", "python", SSZ_LIB_DIR=libraries)
    count = int((re.findall(r"(?m)^Ran (\d+) tests?", said) or [0])[-1])
    bad = sum(map(int, re.findall(r"(?:failures|errors|skipped)=(\d+)", said)))
    tally.add("python", count - bad, bad or int(status != 0 or not count))


def rust(tally, libraries, room):
    """The tests of the crate for Rust, in debug and in release, and clippy's lints."""
    if not shutil.which("cargo"):
        return
    words = ("--offline", "--target-dir", room / "target")
    for profile in ("debug", "release"):
        said, status = ran("cargo", "test", *words, *["--release"] * (profile == "release"), where=TOP / "rust", SSZ_LIB_DIR=libraries)
        found = [tuple(map(int, pair)) for pair in re.findall(r"(?m)^test result: \w+\. (\d+) passed; (\d+) failed", said)]
        passed, failed = (sum(column) for column in zip(*found)) if found else (0, 0)
        tally.add(f"rust, {profile}", passed, failed or int(status != 0 or not passed))
    if subprocess.run(["cargo", "clippy", "--version"], stdout=subprocess.DEVNULL, stderr=subprocess.DEVNULL).returncode:
        print("left out: the lints of rust/ (no clippy)")
        return
    _, status = ran("cargo", "clippy", *words, "--all-targets", "--", "-D", "warnings", where=TOP / "rust", SSZ_LIB_DIR=libraries)
    tally.add("rust, clippy", int(status == 0), int(status != 0))


def c(tally, prefix, room):
    """The example of C, by the shared library and with the archive in it, and under valgrind."""
    if not shutil.which("cc") or not shutil.which("pkg-config"):
        return
    flags, _ = ran("pkg-config", "--cflags", "--libs", "ssz", PKG_CONFIG_PATH=f"{prefix}/lib/pkgconfig")
    ways = [flags.split(), [f"-I{prefix}/include", f"{prefix}/lib/libssz.a"]]
    wanted = shown("c")
    passed = failed = 0
    for number, way in enumerate(ways):
        made = room / f"example{number}"
        ran("cc", "-std=c11", "-Wall", "-Wextra", "-Werror", "-g", "-o", made, "examples/c/session.c", *way)
        runs = [[made]] + [["valgrind", "-q", "--leak-check=full", "--error-exitcode=9", made]] * bool(shutil.which("valgrind"))
        right = [made.exists() and ran(*words) == (wanted, 0) for words in runs]
        passed, failed = passed + sum(right), failed + len(right) - sum(right)
    tally.add("c", passed, failed)


def stacks(tally, prefix):
    """What each call takes of a stack, beside what the header says."""
    if not shutil.which("cc"):
        return
    said, status = ran(sys.executable, "hostile/stack.py", "--prefix", prefix)
    found = [tuple(map(int, pair)) for pair in re.findall(r"(?m)^(\d+) runs, (\d+) differed", said)] or [(0, 0)]
    runs, differed = found[-1]
    tally.add("stacks", runs - differed, differed or int(status != 0 or not runs))


def pages(tally, prefix):
    """The commands of README and of the pages of users, with the programs of the installation."""
    said, status = ran(sys.executable, "docs/run.py", "--without", "rt", PATH=f"{prefix}/bin:{os.environ['PATH']}")
    found = [tuple(map(int, pair)) for pair in re.findall(r"(?m)^(\d+) commands, (\d+) differ", said)] or [(0, 0)]
    count, differ = found[-1]
    tally.add("pages", count - differ, differ or int(status != 0 or not count))


def shown(package):
    """What the page of a package says that its example prints."""
    return re.search(r"prints\n\n((?:    .*\n)+)", (TOP / package / "README.md").read_text())[1].replace("    ", "")


def front(tally, prefix, room):
    """The commands of README, "From other languages", with the installation as ~/.local, in a folder of links to the repository."""
    if not all(map(shutil.which, ("cc", "pkg-config", "cargo"))):
        return
    home, top = room / "home", room / "top"
    home.mkdir()
    (home / ".local").symlink_to(prefix)
    top.mkdir()
    for name in ("examples", "python", "rust"):
        (top / name).symlink_to(TOP / name)
    # rustc finds its toolchain by HOME, unless it is told
    rustup = os.environ.get("RUSTUP_HOME") or os.path.expanduser("~/.rustup")
    section = (TOP / "README.md").read_text().split("\n## From other languages\n")[1].split("\n## ")[0]
    tables = {"cc": shown("c"), "(cd rust": shown("rust")}
    right = []
    for line in re.findall(r"(?m)^    (.+)$", section):
        said, status = ran("bash", "-c", line, where=top, HOME=str(home), CARGO_TARGET_DIR=str(room / "target"), RUSTUP_HOME=rustup)
        wanted = next((text for start, text in tables.items() if line.startswith(start)), said)
        right.append(status == 0 and said == wanted != "")
    tally.add("README", sum(right), len(right) - sum(right) or int(len(right) < 3))


def packages(tally, prefix, room):
    """An installation, where there is none yet, and the tests of what it has."""
    tools(tally)
    if prefix is None:
        prefix = room / "installed"
        _, status = ran("./install", prefix)
        tally.add("install", int(status == 0), int(status != 0))
        if status:
            return
    libraries = str(prefix / "lib")
    python(tally, libraries)
    rust(tally, libraries, room)
    c(tally, prefix, room)
    stacks(tally, prefix)
    pages(tally, prefix)
    front(tally, prefix, room)


def main(words):
    if {"-h", "--help"} & set(words):
        return print(__doc__)
    if len(words) > 1 or words and words[0].startswith("-"):
        sys.exit(__doc__)
    tally = Tally()
    with tempfile.TemporaryDirectory() as room:
        packages(tally, Path(words[0]).absolute() if words else None, Path(room))
    print(f"{tally.passed} passed, {tally.failed} failed")
    return int(tally.failed > 0 or tally.passed == 0)


if __name__ == "__main__":
    sys.exit(main(sys.argv[1:]))
