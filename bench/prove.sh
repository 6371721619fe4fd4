#!/bin/sh
# Processor time of a multiproof of k places all over a full tree whose root was asked before, by the
# depth of the tree and k, beside k times the depth: what a place and level takes. Beside it the floor:
# the chunks of these places and of their helper indices, each gone to by a way of its own, and nothing
# else. What a run takes without proofs or loads, to make the tree, its root and the helper indices, is
# taken off. The runs of a row take turns, and each number is the least of the rounds. The last column
# says how many pairs were hashed for the proofs.
# Run it after 'rt run' in crates/bench, which builds the program: bench/prove.sh [ROUNDS].
set -eu
takes=numbers
. "$(dirname "$0")/words"
cd "$(dirname "$0")/.."
exec env PYTHONPATH=bench python3 - "$@" <<'PY'
from measure import BENCH, least, numbers, print_load, run

rounds, = numbers(7)

print_load()
print("%5s %6s %8s %11s %16s %11s %6s %7s"
      % ("depth", "k", "proofs", "us/proof", "ns/place/level", "us/loads", "ratio", "pairs"))
for depth in 10, 16, 20:
    for k in 1, 16, 100, 256:
        proofs = 200000 // k
        kinds = [(work, some) for work in ("prove", "loads") for some in (proofs, 0)]
        turns = [[run(BENCH, work, depth, k, some) for work, some in kinds] for _ in range(rounds)]
        proved, unproved, loaded, unloaded = (least(column) for column in zip(*turns))
        # CHUNKS chunks PAIRS pairs
        pairs = int(turns[0][0].last.split()[2])
        proof, loads = (proved - unproved) / proofs, (loaded - unloaded) / proofs
        print("%5d %6d %8d %11.2f %16.1f %11.2f %6.2f %7d" % (depth, k, proofs, proof * 1e6,
              proof * 1e9 / k / depth, loads * 1e6, proof / loads, pairs), flush=True)
print_load()
PY
