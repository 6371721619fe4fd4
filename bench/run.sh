#!/bin/sh
# Processor time and peak of memory of scripts, by the program: edits of a list of 2^20 uint64 with
# a root after each, beside as many pairs in a bare loop as they hash; and a load of numbers, its
# root, and a save. Each time is the least of some rounds.
# Run it after 'rt run' in crates/ssz_cli and in crates/bench, which build the programs:
# bench/run.sh [ROUNDS]
set -eu
takes=numbers
. "$(dirname "$0")/words"
cd "$(dirname "$0")/.."
exec env PYTHONPATH=bench python3 - "$@" <<'PY'
import os, tempfile
from measure import BENCH, FAR, SSZ, least, numbers, print_load, run

rounds, = numbers(3)
COUNT = 1 << 20

# How many pairs a script says that were hashed.
def hashes(script):
    return int(run(SSZ, "run", "s", script).last.split()[1])

print_load()
with tempfile.TemporaryDirectory() as room:
    os.chdir(room)
    with open("s", "w") as file:
        file.write('{"ssz":1,"types":[["L",{"list":["uint64",1099511627776]}]]}')
    print("%-12s %9s %9s %9s %7s %9s" % ("statements", "seconds", "pairs", "bare", "ratio", "peak MiB"))
    with open("v", "wb") as file:
        file.write(b"\1" * 8 * COUNT)
    with open("none", "w") as file:
        file.write("load V L v\nroot V\nhashes\n")
    for edits in 1000, 10000, 100000, 500000:
        with open("all", "w") as file:
            file.write("load V L v\nroot V\n")
            for i in range(edits):
                file.write("set V /%d 0x%016x\nroot V\n" % (i * FAR % 2**64 % COUNT, i))
            file.write("hashes\n")
        pairs = hashes("all") - hashes("none")
        turns = [(run(SSZ, "run", "s", "all"), run(SSZ, "run", "s", "none"), run(BENCH, "pairs", pairs))
                 for _ in range(rounds)]
        whole, before, bare = map(least, zip(*turns))
        script = whole - before
        print("%-12d %9.3f %9d %9.3f %7.2f %9.1f"
              % (2 * edits, script, pairs, bare, script / bare, turns[0][0].peak / 2**20), flush=True)
    print("%-12s %9s %9s %9s %9s" % ("MiB", "load", "and root", "and save", "peak MiB"))
    for size in 16, 64, 256:
        with open("v", "wb") as file:
            for _ in range(size):
                file.write(os.urandom(1 << 20))
        row = []
        for script in "load V L v\n", "load V L v\nroot V\n", "load V L v\nroot V\nsave V w\n":
            with open("all", "w") as file:
                file.write(script)
            row.append(min(run(SSZ, "run", "s", "all") for _ in range(rounds)))
        print("%-12d %9.3f %9.3f %9.3f %9.1f"
              % (size, *(one.seconds for one in row), row[0].peak / 2**20), flush=True)
print_load()
PY
