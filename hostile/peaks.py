#!/usr/bin/env python3
"""Measures that the package for Python gives memory back: the peak of a process that does a thing a few times, and many times.

  hostile/peaks.py [--prefix PREFIX] [--tree FOLDER] [NAME ..]

The loops stand in python/tests/test_memory.py, with how much greater the second peak may be, and those that take longer below.
PREFIX is an installation (./install PREFIX); SSZ_LIB_DIR names its libraries where it is left out. The last line is
'N measured, M above'.
"""

import argparse
import importlib.util
import os
import sys
from pathlib import Path

TOP = Path(__file__).resolve().parents[1]

#: A state of 2^20 validators, whose balances change one by one.
STATE = """
zeros = deneb.BeaconState()
validator = deneb.Validator(pubkey=bytes(range(48)), effective_balance=32 * 10**9).encode_bytes()
zeros.balances = range(32 * 10**9, 32 * 10**9 + (1 << 20))
with zeros._version as name:
    zeros._version.session.set(name, "/validators", validator * (1 << 20))
del validator
data = zeros.encode_bytes()
del zeros
state = deneb.BeaconState.decode_bytes(data)
del data
root = state.hash_tree_root()
balances = state.balances
"""
LONG = {
    "a million balances of a state set": (STATE, "balances[turn * 7919 % (1 << 20)] = turn", 0, 1_000_000, 1.5),
    "a million balances of a list set": (
        'kinds = ssz.Schema({"ssz": 1, "types": [["Longs", {"list": ["uint64", 1 << 40]}]]})\nlongs = kinds.Longs(range(1 << 20))',
        "longs[turn * 7919 % (1 << 20)] = turn", 0, 1_000_000, 1.5),
}


def loops_of(tree):
    """The module of the tests of memory of a tree, with its loops."""
    spec = importlib.util.spec_from_file_location("loops", tree / "python" / "tests" / "test_memory.py")
    module = importlib.util.module_from_spec(spec)
    spec.loader.exec_module(module)
    return module


def main():
    parser = argparse.ArgumentParser(prog="hostile/peaks.py", description=__doc__, formatter_class=argparse.RawDescriptionHelpFormatter)
    parser.add_argument("names", nargs="*", metavar="NAME", help="a word of the loops to be measured (all)")
    parser.add_argument("--prefix", type=Path, help="an installation")
    parser.add_argument("--tree", type=Path, default=TOP, help="the checkout whose package is measured")
    given = parser.parse_args()
    if given.prefix:
        os.environ["SSZ_LIB_DIR"] = str(given.prefix / "lib")
    sys.path.insert(0, str(given.tree / "python"))
    tests = loops_of(given.tree)
    loops = {name: loop for name, loop in {**tests.LOOPS, **LONG}.items() if not given.names or any(word in name for word in given.names)}
    above = 0
    print(f"{'what':40} {'times':>16} {'MiB':>16} {'ratio':>6} {'most':>5}", flush=True)
    for name, (before, body, few, many, most) in loops.items():
        peaks = [tests.peak(before, body, count) / 1024 for count in (few, many)]
        above += peaks[1] > most * peaks[0]
        print(f"{name:40} {few:>6} {many:>9,} {peaks[0]:>7.1f} {peaks[1]:>8.1f} {peaks[1] / peaks[0]:6.2f} {most:5}", flush=True)
    print(f"{len(loops)} measured, {above} above")
    return int(above > 0 or not loops)


if __name__ == "__main__":
    sys.exit(main())
