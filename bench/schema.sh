#!/bin/sh
# Processor time to read schema files of three sizes each: the time per byte should not grow.
# Run it after 'rt run' in crates/bench, which builds the program.
set -eu
takes=none
. "$(dirname "$0")/words"
cd "$(dirname "$0")/.."
exec env PYTHONPATH=bench python3 - "$@" <<'PY'
import os, sys, tempfile
from measure import BENCH, least, run

def document(definitions):
    return '{"ssz":1,"types":[' + definitions + "]}"

def definitions(n):
    return document(",".join('["type_number_%07d",{"list":["uint64",1024]}]' % i for i in range(n)))

def fields(n):
    return document('["T",{"container":[%s]}]'
                    % ",".join('["a_field_of_this_container_with_number_%07d","uint64"]' % i for i in range(n)))

def vectors(n):
    form = '{"vector":[' * 31 + '"uint8"' + ",1]}" * 31
    return document(",".join('["T%d",%s]' % (i, form) for i in range(n)))

# The least processor time of three runs.
def seconds(path):
    runs = [run(BENCH, "schema", path) for _ in range(3)]
    if any(one.last != "accepted" for one in runs):
        sys.exit("%s: %s" % (path, runs[0].last))
    return least(runs)

rows = [
    ("definitions", definitions, (1 << 16, 1 << 18, 1 << 20)),
    ("fields of one container", fields, (1 << 16, 1 << 18, 1 << 20)),
    ("definitions of 31 vectors", vectors, (1 << 11, 1 << 13, 1 << 15)),
]
print("%-26s %9s %10s %9s %9s" % ("what", "count", "bytes", "seconds", "ns/byte"))
with tempfile.TemporaryDirectory() as folder:
    path = os.path.join(folder, "schema.json")
    for what, make, counts in rows:
        for count in counts:
            text = make(count)
            with open(path, "w") as file:
                file.write(text)
            taken = seconds(path)
            print("%-26s %9d %10d %9.3f %9.1f" % (what, count, len(text), taken, taken * 1e9 / len(text)))
PY
