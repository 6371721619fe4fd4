#!/usr/bin/env python3
"""Gives a checkout the libraries that `rt ci` kept on this machine, so that rt run and rt lib prove only what stands above them.

  ./kept.py [FOLDER]     FOLDER: a checkout, or a copy of its crates; this one where none is named

`rt ci` keeps what it proved by the checksums of all that the proofs read; rt check, rt run and rt lib look elsewhere, and would
prove the same once more. The kit's own functions find what was kept and mark it as built. Where this kit has others, or nothing was
kept, nothing is given, and all is proved: that costs time alone.
"""
import importlib.machinery
import importlib.util
import os
import shutil
import subprocess
import sys
from pathlib import Path

TOP = Path(__file__).resolve().parent


def kit():
    """The kit's command as a module."""
    place = Path(subprocess.run(["rt", "doc"], check=True, stdout=subprocess.PIPE, text=True).stdout.strip()).parent / "bin"
    loader = importlib.machinery.SourceFileLoader("rt_of_the_kit", str(place / "rt"))
    rt = importlib.util.module_from_spec(importlib.util.spec_from_loader(loader.name, loader))
    sys.path.insert(0, str(place))
    loader.exec_module(rt)
    return rt


def lowest_first(crates):
    """The libraries among crates that others may use, each behind those that it uses."""
    left, done = [crate for crate in crates if not crate.is_program and not crate.is_static], set()
    while left:
        ready = [crate for crate in left if all(below.name in done for below in crate.below())]
        yield from ready
        done |= {crate.name for crate in ready}
        left = [crate for crate in left if crate.name not in done]


def is_given(rt, kept, crate):
    """Whether the library of a crate stands in its out/, or could be put there."""
    stamp = Path(crate.folder, "out", "rlib", "stamp")
    if not stamp.is_file() or stamp.read_text() != crate.stamp():
        key = kept.key(crate)
        if not os.path.isdir(kept.place(crate, False, key)):
            return False
        shutil.rmtree(stamp.parent, ignore_errors=True)
        if not kept.give(crate, False, key):
            return False
        stamp.write_text(crate.stamp())
        # (what bench/edits copies takes it from here)
        rt.offer(crate, crate.stamp())
    kept.is_built(crate)
    return True


def give(folder):
    """Gives the libraries that are there; returns the names of those that are not."""
    here = os.getcwd()
    try:
        rt = kit()
        os.chdir(folder)
        rt.Crate.cuts_libraries = True
        rt.Crate.allowed = rt.handles_of(str(folder))
        crates = rt.crates_of(str(folder))
        kept, lacking = rt.Kept(crates), set()
        for crate in lowest_first(crates):
            if any(below.name in lacking for below in crate.below()) or not is_given(rt, kept, crate):
                lacking.add(crate.name)
        return sorted(lacking)
    except (OSError, AttributeError, TypeError, subprocess.CalledProcessError, SystemExit) as why:
        print(f"nothing that was kept could be taken: {why}", file=sys.stderr)
        return None
    finally:
        os.chdir(here)


def main(words):
    if len(words) > 1 or words and words[0].startswith("-"):
        sys.exit(__doc__)
    lacking = give(Path(words[0] if words else TOP).resolve())
    if lacking is not None:
        print("not kept: " + " ".join(lacking) if lacking else "every library was kept")


if __name__ == "__main__":
    if {"-h", "--help"} & set(sys.argv[1:]):
        sys.exit(print(__doc__))
    main(sys.argv[1:])
