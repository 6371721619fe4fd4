#!/bin/sh
# Processor time of a weave of ten scripts, a set and a root in turn, beside that of the same scripts each
# woven alone: what the base takes is taken off each. Each time is the least of the rounds, which take turns.
# Run it after 'rt run' in crates/ssz_cli, which builds the program: bench/weave.sh [ROUNDS [EDITS]]
set -eu
takes=numbers
. "$(dirname "$0")/words"
cd "$(dirname "$0")/.."
exec env PYTHONPATH=bench python3 - "$@" <<'PY'
import os, tempfile
from measure import FAR, SSZ, least, numbers, print_load, run

rounds, edits = numbers(5, 2000)

def weave(*words):
    return run(SSZ, "weave", "s", "base", *words)

print_load()
print("%8s %9s %12s %12s %7s %10s" % ("length", "edits", "woven, s", "alone, s", "ratio", "peak MiB"))
with tempfile.TemporaryDirectory() as room:
    os.chdir(room)
    with open("s", "w") as file:
        file.write('{"ssz":1,"types":[["L",{"list":["uint64",1099511627776]}]]}')
    open("none", "w").close()
    names = ["w%d" % writer for writer in range(10)]
    order = "".join(str((7 * turn + turn // 13) % 10) for turn in range(20 * edits))
    for depth in 10, 16, 18:
        with open("v", "wb") as file:
            file.write(b"\1" * (8 << depth))
        with open("base", "w") as file:
            file.write("load V L v\nroot V\n")
        for writer, name in enumerate(names):
            with open(name, "w") as file:
                for i in range(edits):
                    place = (i + writer * edits) * FAR % 2**64 % (1 << depth)
                    file.write("set V /%d 0x%016x\nroot V\n" % (place, i))
        none, alone, woven = [], [[] for _ in names], []
        for _ in range(rounds):
            none.append(weave("0", "none"))
            for runs, name in zip(alone, names):
                runs.append(weave("0", name))
            # a word has at most 131,071 bytes
            woven.append(weave(order[:100000], *names))
        one = least(none)
        apart, together = sum(least(runs) - one for runs in alone), least(woven) - one
        print("%8d %9d %12.3f %12.3f %7.2f %10.1f"
              % (1 << depth, 10 * edits, together, apart, together / apart, woven[-1].peak / 2**20), flush=True)
print_load()
PY
