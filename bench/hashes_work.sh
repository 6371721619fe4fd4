#!/bin/sh
# Instructions a pair, as callgrind counts them, which do not depend on what else the machine does: of roots of numbers,
# of validators and of a state of deneb, with no reading and no check, and of single edits with a root after each, beside
# bare pairs of the same build; for the default processor, and for x86-64-v3 where FOLDER has what ./build-v3 puts there.
# An instruction over eight lanes is one: seconds are told by bench/hashes.sh.
# Wants valgrind, and 'rt run' in crates/bench before it: bench/hashes_work.sh [FOLDER [VALIDATORS]].
set -eu
takes=any
. "$(dirname "$0")/words"
cd "$(dirname "$0")/.."
exec env PYTHONPATH=bench python3 - "$@" <<'PY'
import os, random, sys, tempfile
from measure import BENCH, DENEB, counted
from states import TYPES, drawn, ssz

BUILDS = {"default": BENCH}
if sys.argv[1:2] not in ([], ["-"]):
    BUILDS["v3"] = os.path.join(os.path.abspath(sys.argv[1]), "bench")
COUNT = int(sys.argv[2]) if len(sys.argv) > 2 else 1 << 12

def count(*words):
    """The instructions of a run, and the numbers that it prints last."""
    taken, lines = counted(*words)
    return taken, lines[-1].split()

def a_pair(few, many, words, pairs):
    """The instructions a pair of what more is done in one run than in another, and how many pairs that hashes."""
    (less, first), (more, last) = (count(*words, times) for times in (few, many))
    hashed = pairs(last) - pairs(first)
    return (more - less) / hashed, hashed

random.seed(7)
with tempfile.TemporaryDirectory() as room:
    os.chdir(room)
    numbers, validators = ssz.list_of(ssz.uint(64), 2 ** 40), dict(TYPES["BeaconState"][1])["validators"]
    with open("types.json", "w") as file:
        file.write(ssz.document_of({"Numbers": numbers, "Validators": validators}))
    values = {"numbers": random.randbytes(256 * COUNT), "validators": drawn(validators, COUNT),
              "state": drawn(TYPES["BeaconState"], COUNT)}
    for name, data in values.items():
        with open(name, "wb") as file:
            file.write(data)
    print("%-8s %-44s %9s %14s %7s" % ("build", "what", "pairs", "instructions", "ratio"))
    for build, bench in BUILDS.items():
        bare, hashed = a_pair(10000, 20000, [bench, "pairs"], lambda last: int(last[0]))
        print("%-8s %-44s %9d %14.1f" % (build, "bare pairs", hashed, bare), flush=True)
        for what, words, pairs, few, many in (
            ("%d KiB of numbers" % (COUNT >> 2), ["root", "types.json", "Numbers", "numbers"], 2, 1, 2),
            ("%d Validators" % COUNT, ["root", "types.json", "Validators", "validators"], 2, 1, 2),
            ("deneb's BeaconState of as many", ["root", DENEB, "BeaconState", "state"], 2, 1, 2),
            ("edits of a tree of depth 20, each with a root", ["arena", "far", 20], 0, 1000, 2000),
        ):
            taken, hashed = a_pair(few, many, [bench, *words], lambda last: int(last[pairs]))
            print("%-8s %-44s %9d %14.1f %7.3f" % (build, what, hashed, taken, taken / bare), flush=True)
PY
