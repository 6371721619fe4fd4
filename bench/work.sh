#!/bin/sh
# Processor time and peak of memory of `ssz work`, by types and numbers of edits: a list and a vector of
# 2^20 uint64, and the BeaconState of deneb, from their defaults. What a run takes without edits is taken
# off; each time is the least of the rounds. Beside the time stands that of `ssz run` with the same edits
# and roots as a script, which is also read and whose lines are printed, up to 100,000 edits.
# Run it after 'rt run' in crates/ssz_cli, which builds the program: bench/work.sh [ROUNDS [EDITS..]]
set -eu
takes=numbers
. "$(dirname "$0")/words"
cd "$(dirname "$0")/.."
exec env PYTHONPATH=bench:rows python3 - "$@" <<'PY'
import json, os, sys, tempfile
from measure import DENEB, SSZ, least, numbers, print_load, run
from program.machine import Machine
from program.works import Generator, walk

rounds, = numbers(3)
counts = [int(word) for word in sys.argv[2:]] or [10000, 100000, 1000000]
SEED, MOST = 20, 100000

def script(schema, name, edits):
    """The same edits as a script, by the rules of docs/formats.md."""
    machine, g = Machine(open(schema).read()), Generator(SEED)
    machine.statement("new w " + name)
    with open("script", "w") as file:
        file.write("new w %s\n" % name)
        for _ in range(edits):
            edit = walk(g, *machine.versions["w"], [])
            if edit is not None:
                machine.statement(edit)
                file.write(edit + "\n")
            file.write("root w\n")

def least_run(*words):
    runs = [run(SSZ, *words) for _ in range(rounds)]
    return least(runs), runs[0].peak, runs[0].last

print_load()
with tempfile.TemporaryDirectory() as room:
    os.chdir(room)
    with open("s", "w") as file:
        json.dump({"ssz": 1, "types": [["List", {"list": ["uint64", 1 << 20]}], ["Vector", {"vector": ["uint64", 1 << 20]}]]}, file)
    print("%-12s %9s %9s %9s %9s %9s %9s" % ("type", "edits", "seconds", "us/edit", "script", "peak MiB", "B/edit"))
    for schema, name in ("s", "List"), ("s", "Vector"), (DENEB, "BeaconState"):
        none = least_run("work", schema, name, SEED, 0)
        for edits in counts:
            took = least_run("work", schema, name, SEED, edits)
            told = "-"
            # the machine copies a whole vector at each edit
            if edits <= MOST and name != "Vector":
                script(schema, name, edits)
                again = least_run("run", schema, "script")
                if again[2] != took[2]:
                    sys.exit("%s, %d edits: %s by work, %s by its script" % (name, edits, took[2], again[2]))
                told = "%9.2f" % (again[0] - none[0])
            print("%-12s %9d %9.2f %9.2f %9s %9.1f %9.0f"
                  % (name, edits, took[0] - none[0], 1e6 * (took[0] - none[0]) / edits, told, took[1] / 2**20,
                     (took[1] - none[1]) / edits), flush=True)
print_load()
PY
