#!/bin/sh
# Instructions of edits on nodes with a root after each, as callgrind counts them, which do not depend on
# what else the machine does: by the calls themselves (`bench edit`) and by the statements of a script, each
# beside as many bare pairs as they hash. What a run takes without edits is taken off.
# Wants valgrind, and 'rt run' in crates/ssz_cli and crates/bench before it, which builds the programs:
# bench/edit_work.sh [EDITS [DEPTH..]]
set -eu
takes=numbers
. "$(dirname "$0")/words"
cd "$(dirname "$0")/.."
exec env PYTHONPATH=bench python3 - "$@" <<'PY'
import os, sys, tempfile
from measure import BENCH, FAR, SSZ, counted, numbers

edits, = numbers(1000)
depths = [int(word) for word in sys.argv[2:]] or [10, 14, 18]

def count(*words):
    """The instructions of a run, and the numbers of its last line."""
    taken, lines = counted(*words)
    return taken, lines[-1].split()

def rise(*words):
    """The instructions of so many edits, the nodes that they make and the pairs that they hash."""
    (all_, last), (none, _) = (count(BENCH, "edit", *words, some, how) for some in (edits, 0))
    _, nodes, made, pairs, hashed = last
    return all_ - none, int(made) - int(nodes), int(hashed) - int(pairs)

def script(depth, lines):
    """A script of these lines behind the load of a list and its root."""
    with open("script", "w") as file:
        file.write("load V L v\nroot V\n" + "".join(lines))
    return count(SSZ, "run", "s", "script")[0]

line = {
    "set": lambda i, length: "set V /%d 0x%016x\nroot V\n" % (i * FAR % length, i),
    "append": lambda i, length: "append V / 0x%016x\nroot V\n" % i,
    "pop": lambda i, length: "pop V /\nroot V\n",
}
with tempfile.TemporaryDirectory() as room:
    os.chdir(room)
    with open("s", "w") as file:
        file.write('{"ssz":1,"types":[["L",{"list":["uint64",1099511627776]}]]}')
    bare = (count(BENCH, "pairs", 11000)[0] - count(BENCH, "pairs", 1000)[0]) / 10000
    print("a bare pair %d" % bare)
    print("%-7s %8s %10s %8s %7s %10s %7s" % ("edit", "length", "an edit", "pairs", "ratio", "in script", "ratio"))
    for depth in depths:
        length = 1 << depth
        with open("v", "wb") as file:
            file.write(b"\1" * (8 * length))
        none = script(depth, [])
        for how in line:
            if how == "pop" and edits > length:
                continue
            taken, nodes, pairs = rise("s", "L", "v", "-", "-", length)
            told = script(depth, [line[how](i, length) for i in range(edits)]) - none
            print("%-7s %8d %10d %8.1f %7.3f %10d %7.3f" % (how, length, taken / edits, pairs / edits,
                  taken / (pairs * bare), told / edits, told / taken), flush=True)
PY
