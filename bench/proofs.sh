#!/bin/sh
# Processor time and peak memory of `ssz verify` on proof files of three sizes each: with n leaves it
# should grow about as n log n.
# Run it after 'rt run' in crates/ssz_cli, which builds the program.
set -eu
takes=none
. "$(dirname "$0")/words"
cd "$(dirname "$0")/.."
exec env PYTHONPATH=bench python3 - "$@" <<'PY'
import os, tempfile
from measure import SSZ, least, run

CHUNK = "0x" + "00" * 32

def text(leaves, nodes):
    words = ["proof"] + ["%d=%s" % (i, CHUNK) for i in leaves] + ["/"] + ["%d=%s" % (i, CHUNK) for i in nodes]
    return " ".join(words) + "\n"

# All places of one depth.
def full(depth):
    return text(range(1 << depth, 2 << depth), [])

# One place in four of one depth: the other of its pair, and the pair beside.
def sparse(depth):
    places = range(1 << depth, 2 << depth, 4)
    nodes = [i + 1 for i in reversed(places)] + [i // 2 + 1 for i in reversed(places)]
    return text(places, nodes)

# One place of depth 126.
def deep(depth):
    leaf = 1 << 126
    nodes, index = [], leaf
    while index > 1:
        nodes.append(index ^ 1)
        index //= 2
    return text([leaf], nodes)

print("%-8s %6s %10s %9s %9s %9s" % ("what", "depth", "bytes", "seconds", "ns/byte", "peak MiB"))
with tempfile.TemporaryDirectory() as folder:
    os.chdir(folder)
    for make, depths in ((full, (15, 17, 19)), (sparse, (16, 18, 20)), (deep, (126,))):
        for depth in depths:
            proof = make(depth)
            with open("proof.txt", "w") as file:
                file.write(proof)
            # none of them leads to a root of zeros
            runs = [run(SSZ, "verify", "0" * 64, "proof.txt", status=1) for _ in range(3)]
            taken, peak = least(runs), max(one.peak for one in runs)
            print("%-8s %6d %10d %9.2f %9.1f %9d"
                  % (make.__name__, depth, len(proof), taken, taken * 1e9 / len(proof), peak >> 20), flush=True)
PY
