#!/bin/sh
# Processor time of 100,000 edits of an arena, with the root after each, beside a bare loop of as many
# pairs of the hasher: for one and the same leaf (same), for leaves one after another (near) and for
# leaves all over the tree (far).
# A last column says how many bytes a node takes at most, by the peak of memory.
# Run it after 'rt run' in crates/bench, which builds the program.
set -eu
takes=none
. "$(dirname "$0")/words"
cd "$(dirname "$0")/.."
exec env PYTHONPATH=bench python3 - "$@" <<'PY'
from measure import BENCH, least, run

COUNT = 100000
WORKS = "pairs", "same", "near", "far"

# The least times of seven rounds, in which the four kinds of work take turns.
print("%5s %-5s %9s %9s %7s %14s %12s" % ("depth", "work", "seconds", "pairs", "ratio", "us/edit/level", "bytes/node"))
for depth in 10, 16, 20, 22:
    rounds = [{work: run(BENCH, "arena", work, depth, COUNT) for work in WORKS} for _ in range(7)]
    bare = least(turn["pairs"] for turn in rounds)
    for work in WORKS[1:]:
        taken = least(turn[work] for turn in rounds)
        peak = max(turn[work].peak for turn in rounds)
        nodes = int(rounds[0][work].first[0].split()[0])
        print("%5d %-5s %9.3f %9.3f %7.2f %14.3f %12.1f"
              % (depth, work, taken, bare, taken / bare, taken * 1e6 / COUNT / depth, peak / nodes), flush=True)
PY
