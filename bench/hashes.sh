#!/bin/sh
# What hashing takes, in one run: roots of numbers, of validators and of a whole state of deneb, a load with its root, a
# million balances set and then one root, and single edits with a root after each; each beside as many bare pairs of
# `ShaPair`, as many that `sha2` makes of both halves, and as many of OpenSSL's low-level SHA-256. For the default processor,
# and for x86-64-v3 where FOLDER has what ./build-v3 FOLDER puts there. Seconds are those of the user and of the system; of the
# last column the user's alone.
# Run it after 'rt run' in crates/ssz_cli and in crates/bench: bench/hashes.sh ROUNDS [FOLDER [VALIDATORS]].
# It needs gcc and, of Debian, libssl-dev.
set -eu
takes=any
. "$(dirname "$0")/words"
cd "$(dirname "$0")/.."
room=$(mktemp -d)
trap 'rm -rf "$room"' EXIT
gcc -O2 -w -o "$room/openssl" bench/roots.c -lcrypto
env PYTHONPATH=bench python3 - "$room" "$@" <<'PY'
import json, os, random, sys
from measure import BENCH, DENEB, SSZ, print_load, run
from states import TYPES, drawn, root, ssz

room, rounds = sys.argv[1], int(sys.argv[2])
BUILDS = {"default": (SSZ, BENCH)}
if len(sys.argv) > 3 and sys.argv[3] != "-":
    BUILDS["v3"] = tuple(os.path.join(os.path.abspath(sys.argv[3]), name) for name in ("ssz", "bench"))
COUNT = int(sys.argv[4]) if len(sys.argv) > 4 else 1 << 20
FILLED = 1 << 20 if COUNT == 1 << 20 else COUNT
EDITS = min(COUNT, 1_000_000)

os.chdir(room)
random.seed(7)
deneb = dict(json.load(open(DENEB))["types"])
numbers, validators = ssz.list_of(ssz.uint(64), 2 ** 40), TYPES["BeaconState"][1]
validators = dict(validators)["validators"]
with open("types.json", "w") as file:
    file.write(ssz.document_of({"Numbers": numbers, "Validators": validators}))
FILES = {"numbers": b"".join(random.randbytes(256) for _ in range(FILLED)), "validators": drawn(validators, COUNT),
         "state": drawn(TYPES["BeaconState"], COUNT)}
for name, data in FILES.items():
    with open(name, "wb") as file:
        file.write(data)

def script(name, *lines):
    with open(name, "w") as file:
        file.writelines(line + "\n" for line in lines)
    return name

load = "load S BeaconState state"
sets = ["set S /balances/%d 0x%016x" % (i, i) for i in range(EDITS)]
balances = "set S /balances 0x" + b"".join(ssz.le(i, 8) for i in range(COUNT)).hex()
script("load", load, "root S", "hashes")
script("edited", load, "root S", *sets)
script("epoch", load, "root S", *sets, "root S", "hashes")
script("replaced", load, "root S", balances)
script("at_once", load, "root S", balances, "root S", "hashes")

def grow(depth, count):
    """The pairs of a full tree of this depth above its first places."""
    return sum(-(-count // 2 ** level) for level in range(1, depth + 1))

# What is measured: its name, the words of a run, those of the run whose time is taken off, and its pairs, or None where
# the last line says how many there are beyond those of the load.
def jobs(program, bench):
    of_numbers = grow(38, 8 * FILLED) + 1 + 126
    of_validators = 8 * COUNT + grow(40, COUNT) + 1 + 126
    return [
        ("root of %d MiB of numbers" % (256 * FILLED >> 20), [program, "root", "types.json", "Numbers", "numbers"], None, of_numbers),
        ("root of %d Validators" % COUNT, [program, "root", "types.json", "Validators", "validators"], None, of_validators),
        ("root of deneb's BeaconState", [program, "root", DENEB, "BeaconState", "state"], None, "load"),
        ("its load and root", [program, "run", DENEB, "load"], None, "load"),
        ("root after %d balances" % EDITS, [program, "run", DENEB, "epoch"], [program, "run", DENEB, "edited"], "epoch"),
        ("root after all balances", [program, "run", DENEB, "at_once"], [program, "run", DENEB, "replaced"], "at_once"),
        ("20000 edits, each with a root", [bench, "arena", "far", 20, 20000], [bench, "arena", "far", 20, 0], 20000 * 20),
    ]

def hashed(program, name):
    """How many pairs a script hashes, by its last line."""
    return int(run(program, "run", DENEB, name).last.split()[1])

print_load()
counts = {name: hashed(SSZ, name) for name in ("load", "epoch", "at_once")}
wanted = "root 0x" + root(TYPES["BeaconState"], FILES["state"]).hex() if COUNT <= 1 << 17 else None
print("%-8s %-32s %9s %10s %9s %7s %9s %7s %9s %7s %8s %9s"
      % ("build", "what", "seconds", "pairs", "ShaPair", "ratio", "sha2", "ratio", "OpenSSL", "ratio", "peak MiB", "user's"))
for build, (program, bench) in BUILDS.items():
    for what, words, before, pairs in jobs(program, bench):
        if pairs in counts:
            pairs = counts[pairs] + 126 if pairs == "load" else counts[pairs] - counts["load"]
        taken = {"job": [], "before": [], "bare": [], "sha2": [], "openssl": []}
        for _ in range(rounds):  # in turns, so that all see the same machine
            taken["job"].append(run(*words))
            taken["before"].append(run(*before).seconds if before else 0.0)
            taken["bare"].append(run(bench, "pairs", pairs).seconds)
            taken["sha2"].append(run(bench, "pairs", "sha2", pairs).seconds)
            taken["openssl"].append(run("./openssl", "pairs", pairs).seconds)
        seconds = min(one.seconds for one in taken["job"]) - min(taken["before"])
        bare, sha2, openssl = (min(taken[name]) for name in ("bare", "sha2", "openssl"))
        print("%-8s %-32s %9.3f %10d %9.3f %7.3f %9.3f %7.3f %9.3f %7.3f %8.1f %9.3f" % (
            build, what, seconds, pairs, bare, seconds / bare, sha2, seconds / sha2, openssl, seconds / openssl,
            taken["job"][0].peak / 2 ** 20, min(one.user for one in taken["job"])), flush=True)
        if wanted and what.endswith("BeaconState") and taken["job"][0].last != wanted:
            sys.exit("another root than hashlib's: %s" % taken["job"][0].last)
print_load()
PY
