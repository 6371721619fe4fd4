#!/bin/sh
# Time and peak memory of `ssz root`, on a List[uint64, 2^40] of 256 MiB and on a list of a million
# containers of eight uint64s, reading the file included: as a ratio to a bare loop that makes as many
# pairs, and beside a C program over OpenSSL that computes the same roots.
# Run it after 'rt run' in crates/ssz_cli and in crates/bench. It needs gcc and, of Debian,
# libssl-dev.
set -eu
takes=none
. "$(dirname "$0")/words"
cd "$(dirname "$0")/.."
top=$PWD
room=$(mktemp -d)
trap 'rm -rf "$room"' EXIT
gcc -O2 -w -o "$room/roots" bench/roots.c -lcrypto
cd "$room"
cat > schema.json <<'J'
{"ssz":1,"types":[
["Numbers",{"list":["uint64",1099511627776]}],
["C",{"container":[["a","uint64"],["b","uint64"],["c","uint64"],["d","uint64"],["e","uint64"],["f","uint64"],["g","uint64"],["h","uint64"]]}],
["Cs",{"list":["C",1048576]}]]}
J
python3 - <<'P'
import random
random.seed(1)
with open("list.bin", "wb") as file:
    for _ in range(256):
        file.write(random.randbytes(1 << 20))
with open("containers.bin", "wb") as file:
    for _ in range(64):
        file.write(random.randbytes(1000000))
P
env PYTHONPATH="$top/bench" python3 - "$room/roots" <<'P'
import sys
from measure import BENCH, SSZ, run

openssl = sys.argv[1]

# The pairs of a full tree of this depth above its first n places.
def grow(depth, n):
    return sum(-(-n // 2 ** j) for j in range(1, depth + 1))

ROWS = [
    ("Numbers", "list", grow(38, 1 << 23) + 1),
    ("Cs", "containers", 1000000 * 7 + grow(20, 1000000) + 1),
]
for name, kind, of_value in ROWS:
    pairs = of_value + 126
    best = {}
    # Taken in turns, so that all three see the same machine.
    for _ in range(3):
        runs = {
            "ssz root": run(SSZ, "root", "schema.json", name, kind + ".bin"),
            "as many pairs": run(BENCH, "pairs", pairs),
            "OpenSSL": run(openssl, kind, kind + ".bin"),
        }
        for what, result in runs.items():
            best[what] = min(best.get(what, result), result)
    print("%s.bin, %d pairs" % (kind, pairs))
    for what, one in best.items():
        print("  %-14s %6.2f s, peak %3d MiB" % (what, one.seconds, one.peak >> 20))
    print("  ssz root / as many pairs: %.3f" % (best["ssz root"].seconds / best["as many pairs"].seconds))
    if best["ssz root"].last.split()[-1] != best["OpenSSL"].last.split()[-1]:
        sys.exit("the roots differ")
    print("  the roots are equal")
P
