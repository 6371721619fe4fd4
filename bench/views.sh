#!/bin/sh
# What a view's read on nodes takes: a part of deneb's BeaconState of so many validators, found by its path and
# its number or length read, again and again. The instructions are those that callgrind counts, of a thousand
# reads more, and do not depend on what else the machine does; the time is that of many reads, the least of the
# rounds. What a run takes to make the nodes is taken off. A step to an element of a list goes down the list's
# depth and one more, 41 nodes for validators, and 39 for balances: all others go down 5 at most.
# Wants valgrind, and 'rt run' in crates/bench before it, which builds the program, or BUILD=FOLDER of
# ./build-v3: bench/views.sh [ROUNDS [TIMES [VALIDATORS]]]
set -eu
takes=numbers
. "$(dirname "$0")/words"
cd "$(dirname "$0")/.."
exec env PYTHONPATH=bench python3 - "$@" <<'PY'
import os, tempfile
from measure import BENCH, DENEB, counted, numbers, print_load, run
from states import TYPES, drawn

rounds, times, validators = numbers(5, 2000000, 1000)

# Each path, how many steps it has, and how many nodes it goes down.
PATHS = [
    ("/genesis_time", 1, 5), ("/slot", 1, 5), ("/historical_summaries", 1, 5),
    ("/latest_block_header/proposer_index", 2, 5 + 3), ("/fork/epoch", 2, 5 + 2), ("/eth1_data/deposit_count", 2, 5 + 2),
    ("/slashings/7", 2, 5 + 11), ("/validators/7", 2, 5 + 41), ("/balances/7", 2, 5 + 39),
    ("/validators/7/effective_balance", 3, 5 + 41 + 3), ("/validators/7/exit_epoch", 3, 5 + 41 + 3),
]

def instructions(path, some):
    return counted(BENCH, "find", DENEB, "BeaconState", "state", path, some)[0]

def user(path, some):
    return min(run(BENCH, "find", DENEB, "BeaconState", "state", path, some).user for _ in range(rounds))

with tempfile.TemporaryDirectory() as room:
    os.chdir(room)
    with open("state", "wb") as file:
        file.write(drawn(TYPES["BeaconState"], validators))
    print_load()
    print("%-36s %5s %5s %12s %8s %9s %9s" % ("path", "steps", "nodes", "instructions", "a step", "ns", "a step"))
    for path, steps, nodes in PATHS:
        taken = (instructions(path, 1010) - instructions(path, 10)) / 1000
        seconds = user(path, times) - user(path, 0)
        print("%-36s %5d %5d %12.1f %8.1f %9.1f %9.1f" % (path, steps, nodes, taken, taken / steps,
              seconds * 1e9 / times, seconds * 1e9 / times / steps), flush=True)
    print_load()
PY
