#!/bin/sh
# Processor time in which the bytes of a list of numbers, of a list of validators as deneb has them, and
# of a list of lists of one number each (all under the limit 2^40) become nodes of an arena, at three
# sizes, beside a bare loop of as many calls that make a leaf and a pair. What a run takes without that, to
# make the bytes and to check them, is taken off: each number is that of a run that makes nodes less that
# of a run that does not, the least of the rounds. Most of the bare loop is the system's time for fresh
# memory, so the user's is said too. The last columns say how many bytes of memory a node takes, by the
# peaks of the two runs, and for how many more nodes there is room at the end. A list of one number is 12
# bytes and 41 nodes: its sizes are a 64th of those of the others.
# Run it after 'rt run' in crates/bench, which builds the program: bench/tree.sh [ROUNDS [SIZE..]],
# the sizes in bytes.
set -eu
takes=numbers
. "$(dirname "$0")/words"
cd "$(dirname "$0")/.."
exec env PYTHONPATH=bench python3 - "$@" <<'PY'
import sys
from measure import BENCH, TYPES, numbers, print_load, run

rounds, = numbers(5)
sizes = [int(size) for size in sys.argv[2:]] or [1 << 24, 1 << 26, 1 << 28]

def tree(*words):
    """A run, and how many nodes there were at its end, and room for how many more."""
    one = run(BENCH, "tree", *words, TYPES)
    nodes, spare = (int(word) for word in one.last.split() if word.isdigit())
    return one, nodes, spare

# What making nodes adds to a run: user time, system time, memory.
def added(work, count):
    (made, *_), (checked, *_) = (tree(work, count, what) for what in ("build", "check"))
    return made.user - checked.user, made.seconds - checked.seconds, made.peak - checked.peak

print_load()
print("%-10s %10s %9s %9s %9s %7s %9s %11s %11s %6s"
      % ("what", "bytes", "nodes", "seconds", "bare", "ratio", "ns/byte", "user alone", "bytes/node", "room"))
for work, size, share in ("numbers", 8, 1), ("containers", 121, 1), ("lists", 12, 64):
    for total in sizes:
        count = total // share // size
        _, nodes, spare = tree(work, count, "build")
        nodes -= 127
        both = [(added(work, count), added("nodes", nodes // 2)) for _ in range(rounds)]
        user, bare_user = (min(one[0] for one in kind) for kind in zip(*both))
        taken, bare = (min(one[1] for one in kind) for kind in zip(*both))
        room = max(one[2] for one, _ in both) / nodes
        print("%-10s %10d %9d %9.3f %9.3f %7.2f %9.3f %5.3f/%5.3f %11.1f %6d"
              % (work, count * size, nodes, taken, bare, taken / bare, taken * 1e9 / (count * size),
                 user, bare_user, room, spare), flush=True)
print_load()
PY
