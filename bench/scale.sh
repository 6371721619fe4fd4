#!/bin/sh
# Processor time and peak of memory of whole states: deneb's BeaconState of some numbers of
# validators, through `root`, through scripts that load it, set a thousand fields with a root after
# each, prove a hundred fields and save it, and through a weave of ten writers; each as a ratio to
# as many pairs in a bare loop as it hashes. Roots of up to 2^17 are compared with hashlib's.
# Run it after 'rt run' in crates/ssz_cli and in crates/bench, which build the programs:
# bench/scale.sh [VALIDATORS..]
set -eu
takes=numbers
. "$(dirname "$0")/words"
cd "$(dirname "$0")/.."
exec env PYTHONPATH=bench python3 - "$@" <<'PY'
import os, random, sys, tempfile
from measure import BENCH, DENEB, FAR, SSZ, least, print_load, run
from states import TYPES, drawn, root

SIZES = [int(word) for word in sys.argv[1:]] or [1 << 14, 1 << 17, 1 << 20]
CHECKED, STATE = 1 << 17, TYPES["BeaconState"]

def often(*words):
    """The least of so many runs as take ten seconds, three at least and fifteen at most."""
    runs = []
    while len(runs) < 3 or (len(runs) < 15 and sum(one.seconds for one in runs) < 10):
        runs.append(run(*words))
    return runs[-1]._replace(seconds=least(runs))

def script(name, *lines):
    with open(name, "w") as file:
        file.writelines(line + "\n" for line in lines)

def sets(version, count, first=0):
    """As many balances of all over the list set, with a root after each."""
    for i in range(first, first + 1000):
        yield "set %s /balances/%d 0x%016x" % (version, i * FAR % count, i)
        yield "root %s" % version

# What a script does after the load and the root, and what it is called.
JOBS = [
    ("load", lambda count: []),
    ("a thousand set, root", lambda count: sets("S", count)),
    ("prove of a hundred", lambda count: ["prove S " + " ".join(
        "/validators/%d/effective_balance" % (i * FAR % count) for i in range(100))]),
    ("save", lambda count: ["save S saved"]),
]

def row(count, what, taken, pairs, base=0.0):
    bare = often(BENCH, "pairs", pairs).seconds if pairs else 0
    seconds = taken.seconds - base
    print("%-8d %-22s %9.3f %10d %8.3f %6s %9.1f" % (
        count, what, seconds, pairs, bare, "%.2f" % (seconds / bare) if bare > 0.05 else "",
        taken.peak / 2**20), flush=True)

def weave():
    """Ten writers, each with a thousand sets on its own fork of the base's state, in turns."""
    script("base", "load S BeaconState state", "root S")
    names = []
    for writer in range(10):
        names.append("w%d" % writer)
        script(names[-1], "fork S T", *sets("T", count, 1000 * writer))
    return often(SSZ, "weave", DENEB, "base", "0123456789" * 2001, *names)

print_load()
print("%-8s %-22s %9s %10s %8s %6s %9s"
      % ("count", "what", "seconds", "pairs", "bare", "ratio", "peak MiB"))
with tempfile.TemporaryDirectory() as room:
    os.chdir(room)
    for count in SIZES:
        random.seed(count)
        state = drawn(STATE, count)
        with open("state", "wb") as file:
            file.write(state)
        taken = often(SSZ, "root", DENEB, "BeaconState", "state")
        wanted = taken.last
        if count <= CHECKED and wanted != "root 0x" + root(STATE, state).hex():
            sys.exit("another root: %s" % wanted)
        first, edits = ["load S BeaconState state", "root S"], 0
        for what, lines in JOBS:
            script("script", *first, *lines(count), "hashes")
            job = often(SSZ, "run", DENEB, "script")
            pairs = int(job.last.split()[1])
            if what == "load":
                base, all_pairs = job.seconds, pairs
                row(count, "root", taken, pairs + 126)
                row(count, "run, load and root", job, pairs + 126)
            else:
                row(count, "run, " + what, job, pairs - all_pairs, base)
                edits = edits or pairs - all_pairs
            if job.first[1] != wanted:
                sys.exit("another root")
        if open("saved", "rb").read() != state:
            sys.exit("another state saved")
        # Each writer's sets hash as many pairs as those of the script.
        row(count, "weave, ten thousand", weave(), 10 * edits, base)
print_load()
PY
