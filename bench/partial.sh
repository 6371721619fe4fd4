#!/bin/sh
# Processor time of reading and of setting an element of a partial tree, of a proof that knows every
# chunk of a full list of uint64, by the number of its chunks: elements all over it, one after another.
# What a run takes without calls, to read the proof and to make the tree of it, stands beside, in
# seconds, and a chunk in nanoseconds; it is taken off the calls. Each number is the least of the
# rounds.
# Run it after 'rt run' in crates/bench, which builds the program: bench/partial.sh [ROUNDS
# [TIMES]].
set -eu
takes=numbers
. "$(dirname "$0")/words"
cd "$(dirname "$0")/.."
exec env PYTHONPATH=bench python3 - "$@" <<'PY'
import sys, tempfile
from measure import BENCH, TYPES, numbers, print_load, run

rounds, times = numbers(5, 1000000)

# The length and the chunks of a list whose element i is i mod 251, as a proof of all of them.
def proof(depth):
    elements = [(i % 251).to_bytes(8, "little").hex() for i in range(4 << depth)]
    chunks = ("".join(elements[i : i + 4]) for i in range(0, 4 << depth, 4))
    leaves = (" %d=0x%s" % (index, chunk) for index, chunk in enumerate(chunks, 2 << depth))
    length = " 3=0x" + (4 << depth).to_bytes(32, "little").hex()
    return "proof" + length + "".join(leaves) + " /\n"

# The user time of a run, and the sum that it prints.
def call(name, path, length, what, times):
    one = run(BENCH, "partial", TYPES, name, path, length, what, times)
    return one.user, int(one.last)

print_load()
print("%9s %11s %11s %9s %9s" % ("chunks", "to begin s", "ns a chunk", "ns a get", "ns a set"))
for depth in 10, 15, 20:
    length = 4 << depth
    with tempfile.NamedTemporaryFile("w") as file:
        file.write(proof(depth))
        file.flush()
        taken = {}
        for what, some in ("get", 0), ("get", times), ("set", times):
            runs = [call("D%d" % depth, file.name, length, what, some) for _ in range(rounds)]
            read = sum(i * 7919 % length % 251 for i in range(some)) if what == "get" else 0
            if any(total != read for _, total in runs):
                sys.exit("%s: wrong bytes" % what)
            taken[what, some] = min(used for used, _ in runs)
        none = taken["get", 0]
        print("%9d %11.3f %11.0f %9.0f %9.0f" % (1 << depth, none, none * 1e9 / (1 << depth),
              (taken["get", times] - none) * 1e9 / times,
              (taken["set", times] - none) * 1e9 / times), flush=True)
print_load()
PY
