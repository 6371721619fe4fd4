#!/usr/bin/env python3
"""Sees that each script of the repository tells what it is for, and refuses a word that it has not, before it does anything.

  python3 docs/help.py             all scripts
  python3 docs/help.py SCRIPT ..   these

A script is run with --help, which prints something and ends with status 0, and with --no-such-word, which ends with another status
and leaves the repository as it is. Neither finds the kit, a compiler or a package manager. The last line is 'N tried, M wrong'.
"""
import os
import shutil
import subprocess
import sys
import tempfile

TOP = os.path.realpath(os.path.join(os.path.dirname(os.path.abspath(__file__)), ".."))
#: Called by others alone, or by who tests this repository.
INNER = {".ci/run", "bench/unproved/clang", "bench/unproved/kit", "test"}
TOOLS = "sh bash env python3 dirname basename realpath sed cat git mktemp rm head tail grep id pwd node".split()
WORDS = "--help", "--no-such-word"


def scripts():
    """The scripts that are kept: what begins with #! and is no source of Rust."""
    kept = subprocess.run(["git", "ls-files"], cwd=TOP, stdout=subprocess.PIPE, text=True, check=True).stdout.split()
    for name in kept:
        with open(f"{TOP}/{name}", "rb") as file:
            if name not in INNER and file.read(3) in (b"#!/", b"#! "):
                yield name


def wrong(name, word, room):
    """What is wrong with how a script takes a word; nothing where it is right."""
    before = changed()
    try:
        ran = subprocess.run([f"{TOP}/{name}", word], cwd=room, stdin=subprocess.DEVNULL, stdout=subprocess.PIPE, stderr=subprocess.PIPE,
                             env={"PATH": room, "HOME": room}, timeout=30)
    except subprocess.TimeoutExpired:
        return "goes on after 30 seconds"
    except PermissionError:
        return "may not be run"
    if changed() != before:
        return "changes the repository"
    if b"Traceback" in ran.stderr:
        return "ends with a traceback"
    if word == "--help":
        return "" if ran.returncode == 0 and ran.stdout.strip() else f"has status {ran.returncode}, and prints {len(ran.stdout)} bytes"
    return "" if ran.returncode and ran.stdout + ran.stderr else f"has status {ran.returncode}"


def changed():
    return subprocess.run(["git", "status", "--porcelain"], cwd=TOP, stdout=subprocess.PIPE).stdout


def main(names):
    if set(names) & {"-h", "--help"}:
        print(__doc__)
        return 0
    known = list(scripts())
    unknown = [name for name in names if name not in known]
    if unknown:
        sys.exit(f"no script {', '.join(unknown)}")
    tried = bad = 0
    with tempfile.TemporaryDirectory() as room:
        for tool in TOOLS:
            if shutil.which(tool):
                os.symlink(os.path.realpath(shutil.which(tool)), f"{room}/{tool}")
        for name in names or known:
            for word in WORDS:
                said = wrong(name, word, room)
                tried, bad = tried + 1, bad + bool(said)
                if said:
                    print(f"{name} {word}: {said}", flush=True)
    print(f"{tried} tried, {bad} wrong")
    return int(bad > 0 or not tried)


if __name__ == "__main__":
    sys.exit(main(sys.argv[1:]))
