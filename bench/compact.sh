#!/bin/sh
# Peak of memory of scripts of edits of a list of 2^20 uint64, with and without a `compact` behind
# every 10,000 of them; and the processor time of one `compact`, by the number of nodes that are
# kept. All by the program; each time is the least of some rounds.
# Run it after 'rt run' in crates/ssz_cli, which builds the program: bench/compact.sh [ROUNDS]
set -eu
takes=numbers
. "$(dirname "$0")/words"
cd "$(dirname "$0")/.."
exec env PYTHONPATH=bench python3 - "$@" <<'PY'
import os, tempfile
from measure import FAR, SSZ, numbers, print_load, run

rounds, = numbers(3)
COUNT, EVERY = 1 << 20, 10000

# Processor time in seconds and the peak of memory in MiB.
def told(script):
    with open("all", "w") as file:
        file.writelines(script)
    one = run(SSZ, "run", "s", "all")
    return one.seconds, one.peak / 2**20

def sets(count, compacts):
    yield "load V L v\nroot V\n"
    for i in range(count):
        yield "set V /%d 0x%016x\n" % (i * FAR % 2**64 % COUNT, i)
        if compacts and (i + 1) % EVERY == 0:
            yield "root V\ncompact\n"
    yield "root V\n"

print_load()
with tempfile.TemporaryDirectory() as room:
    os.chdir(room)
    with open("s", "w") as file:
        file.write('{"ssz":1,"types":[["L",{"list":["uint64",1099511627776]}]]}')
    with open("v", "wb") as file:
        file.write(b"\1" * 8 * COUNT)
    print("%-10s %10s %10s %10s %10s" % ("edits", "seconds", "peak MiB", "without", "peak MiB"))
    for edits in 10000, 100000, 1000000:
        kept, grown = (told(sets(edits, compacts)) for compacts in (True, False))
        # the script itself lies in memory too
        script = os.path.getsize("all") / 2**20
        print("%-10d %10.2f %10.1f %10.2f %10.1f   script %.1f MiB" % (edits, *kept, *grown, script), flush=True)
    print("%-10s %10s %10s %10s %10s" % ("nodes", "seconds", "ns a node", "peak MiB", "and before"))
    for nodes in 1000000, 10000000:
        # four numbers a leaf, and nearly as many pairs as leaves
        with open("v", "wb") as file:
            for _ in range(nodes // 1000):
                file.write(os.urandom(500 * 32))
        before, after = [], []
        for _ in range(rounds):
            before.append(told(["load V L v\nroot V\n"]))
            after.append(told(["load V L v\nroot V\n", "compact\n" * 10]))
        one = (min(after)[0] - min(before)[0]) / 10
        print("%-10d %10.3f %10.1f %10.1f %10.1f" % (nodes, one, one / nodes * 1e9, after[0][1], before[0][1]), flush=True)
print_load()
PY
