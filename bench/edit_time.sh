#!/bin/sh
# Processor time of edits of a list of uint64 with a root after each: by the calls of ssz_edit and
# Arena::root, by the statements of a script, and as many bare pairs as the edits hash. Other work on the
# machine only ever adds to a time, so that each is the least of many short rounds, which take turns.
# Run it after 'rt run' in crates/bench and crates/ssz_cli: bench/edit_time.sh [ROUNDS]
set -eu
takes=numbers
. "$(dirname "$0")/words"
cd "$(dirname "$0")/.."
exec env PYTHONPATH=bench python3 - "$@" <<'PY'
import os, tempfile
from measure import BENCH, FAR, SSZ, TYPES, least, numbers, print_load, run

rounds, = numbers(60)
# so few that the rounds are short
EDITS = 2000

def statement(how, i, length):
    if how == "pop":
        return "pop V /\nroot V\n"
    place = "set V /%d" % (i * FAR % 2**64 % length) if how == "set" else "append V /"
    return "%s 0x%016x\nroot V\n" % (place, i)

def row(how, length, edits):
    with open("none", "w") as file:
        file.write("load V L v\nroot V\n")
    with open("all", "w") as file:
        file.write("load V L v\nroot V\n")
        file.writelines(statement(how, i, length) for i in range(edits))
    words = BENCH, "edit", TYPES, "L", "v", "-", "-", length
    programs = [(*words, edits, how), (*words, 0, how), (SSZ, "run", "s", "all"), (SSZ, "run", "s", "none")]
    _, _, _, pairs, hashed = run(*programs[0]).last.split()
    programs.append((BENCH, "pairs", int(hashed) - int(pairs)))
    turns = [[run(*program) for program in programs] for _ in range(rounds)]
    whole, before, script, empty, bare = map(least, zip(*turns))
    calls, statements = whole - before, script - empty
    print("%8d %-6s %7d %9.3f %9.3f %9.3f %11.2f %16.2f"
          % (length, how, edits, bare, calls, statements, calls / bare, statements / calls), flush=True)

print_load()
print("%8s %-6s %7s %9s %9s %9s %11s %16s"
      % ("length", "edit", "edits", "bare, s", "calls, s", "script, s", "calls/bare", "script/calls"))
with tempfile.TemporaryDirectory() as room:
    os.chdir(room)
    with open("s", "w") as file:
        file.write('{"ssz":1,"types":[["L",{"list":["uint64",1099511627776]}]]}')
    for depth in 10, 14, 18:
        with open("v", "wb") as file:
            file.write(b"\1" * (8 << depth))
        for how in "set", "append", "pop":
            if how != "pop" or EDITS <= 1 << depth:
                row(how, 1 << depth, EDITS)
print_load()
PY
