#!/bin/sh
# Calls of C that take and give bytes beside what they are made of, in one run: the bytes of a state of deneb
# in, beside the statement `load`; an element of a list of numbers set and the root, beside ssz_edit::set and
# Arena::root; the bytes of the state out, beside ssz_writing::write_encoding; the root after a list of 2^20 numbers
# was set at once, as balances are in an epoch, beside as many bare pairs; and alone a session over the text of deneb's
# types, and a small call, which checks a boolean. As instructions, which callgrind counts and which
# do not depend on what else the machine does, or, with the word `time`, as processor time, the least of some
# rounds in turn. What a run takes without the calls is taken off. Wants a C compiler, and the two programs
# and the static library, built by `rt run` in crates/ssz_cli and crates/bench and by `rt lib` in crates/ssz_c:
# bench/sessions.sh [work|time [VALIDATORS [ROUNDS]]]
set -eu
takes=any
. "$(dirname "$0")/words"
cd "$(dirname "$0")/.."
out=$(mktemp -d)
trap 'rm -rf "$out"' EXIT
kit=$(dirname "$(rt doc)")
library=${BUILD:-crates/ssz_c/out}/libssz_c.a
cc -std=gnu11 -O2 -Iinclude -o "$out/sessions" bench/sessions.c "$library" "$kit/c/liblibc_c.a"
exec env PYTHONPATH=bench python3 - "$out" "$@" <<'PY'
import os, sys
from measure import BENCH, DENEB, SSZ, KEEP, counted, least_of, print_load
import states

out, how, validators, rounds = (sys.argv[1:] + ["work", "100000", "5"][len(sys.argv) - 2:])[:4]
rounds, sessions = int(rounds), os.path.join(out, "sessions")
os.chdir(out)

def work(*words):
    """The instructions of a run."""
    return counted(*words)[0]

def seconds(*words):
    """The least processor time of some runs."""
    return least_of(rounds, *words, env=KEEP)

taken, scale, unit = (work, 1, "instructions") if how == "work" else (seconds, 1e6, "us")

def each(times, run):
    """What a call takes of so many."""
    return (run(times) - run(0)) * scale / times

def script(lines):
    """A run of a script."""
    with open("script", "w") as file:
        file.write("".join(lines))
    return taken(SSZ, "run", DENEB, "script")

LENGTH = 1 << 18
with open("state", "wb") as file:
    file.write(states.drawn(states.TYPES["BeaconState"], int(validators)))
with open("list", "wb") as file:
    file.write(b"\1" * (8 * LENGTH))
with open("s", "w") as file:
    file.write('{"ssz":1,"types":[["L",{"list":["uint64",1099511627776]}],["C",{"container":[["l","L"]]}]]}')
EPOCH = 1 << 20
with open("epoch", "wb") as file:
    file.write(b"\4\0\0\0" + b"\1" * (8 * EPOCH))

# The chunks of a list of so many numbers are in a tree of depth 38; above it are its length and the container.
PAIRS = sum(-(-EPOCH // 4 // 2 ** level) for level in range(1, 39)) + 1

state, numbers, epoch = (DENEB, "BeaconState", "state"), ("s", "L", "list"), ("s", "C", "epoch")
many, few = (1000, 3) if how == "work" else (100000, 20)
rows = {
    "state in": (few, lambda n: taken(sessions, "load", *state, n),
                 lambda n: script(["load V BeaconState state\n"] + ["drop V\nload V BeaconState state\n"] * n)),
    "set and root": (many, lambda n: taken(sessions, "set", *numbers, n, LENGTH),
                     lambda n: taken(BENCH, "edit", *numbers, "-", "-", LENGTH, n, "set")),
    "state out": (few, lambda n: taken(sessions, "bytes", *state, n),
                  lambda n: taken(BENCH, "reading", "write", *state, n)),
    "root of an epoch": (few, lambda n: taken(sessions, "epoch", *epoch, n) - taken(sessions, "whole", *epoch, n),
                         lambda n: taken(BENCH, "pairs", PAIRS * n)),
    "session over deneb": (few, lambda n: taken(sessions, "start", DENEB, "boolean", "one", n), None),
    "small call": (1000 * many, lambda n: taken(sessions, "check", DENEB, "boolean", "one", n), None),
}
with open("one", "wb") as file:
    file.write(b"\1")

print_load()
print("%-20s %14s %14s %7s  (%s; the state has %d bytes)" % ("call", "by C", "beside", "ratio", unit, os.path.getsize("state")))
for name, (times, call, beside) in rows.items():
    mine = each(times, call)
    other = each(times, beside) if beside else None
    print("%-20s %14.3f %14s %7s" % (name, mine, "%.3f" % other if other else "", "%.3f" % (mine / other) if other else ""), flush=True)
print_load()
PY
