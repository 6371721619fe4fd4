#!/bin/sh
# Speed of reading and writing the JSON text of a list of containers at three sizes, in MB of text a
# second, and the peak of memory of a run that reads or writes once, in bytes a byte of text (less that of
# a run on an empty list). What one more repetition takes is measured, so that the file's reading, and for
# `write` the making of the value, are left out.
# Run it after 'rt run' in crates/bench, which builds the program, on an idle machine:
# bench/json.sh [ROUNDS [SIZE..]], the sizes in bytes.
#
# The C library's allocator keeps the memory that is given back to it, as in bench/codec.sh.
set -eu
takes=numbers
. "$(dirname "$0")/words"
cd "$(dirname "$0")/.."
exec env PYTHONPATH=bench python3 - "$@" <<'PY'
import json, os, random, sys, tempfile
from measure import BENCH, KEEP, least, numbers, print_load, run

rounds, = numbers(3)
sizes = [int(size) for size in sys.argv[2:]] or [1 << 22, 1 << 24, 1 << 26]

SCHEMA = """{"ssz":1,"types":[
["Entry",{"container":[["number","uint64"],["flag","boolean"],["root",{"vector":["byte",32]}],
["bytes",{"list":["byte",64]}]]}],
["Entries",{"list":["Entry",1099511627776]}]]}"""

def entry(chance):
    return {"number": str(chance.getrandbits(64)), "flag": chance.random() < 0.5,
            "root": "0x" + chance.randbytes(32).hex(), "bytes": "0x" + chance.randbytes(20).hex()}

# A text of about so many bytes, written piece by piece.
def write_text(path, size):
    chance, before = random.Random(size), "["
    with open(path, "w") as file:
        while file.tell() < size:
            file.write(before + json.dumps(entry(chance), sort_keys=True, separators=(",", ":")))
            before = ","
        return file.tell() + file.write("]")

# The processor time and the peak of memory of a run, the least of so many.
def least_run(work, path, times):
    runs = [run(BENCH, "json", work, "schema.json", "Entries", path, times, env=KEEP) for _ in range(rounds)]
    return least(runs), min(one.peak for one in runs)

# What one more repetition takes, from as many as take about half a second.
def one_more(work, path):
    first, times = least_run(work, path, 1)[0], 1
    while (more := least_run(work, path, 1 + times)[0] - first) < 0.5 and times < 1 << 16:
        times = times * 2 if more < 0.05 else int(times * 0.6 / more) + 1
    return more / times

with tempfile.TemporaryDirectory() as folder:
    os.chdir(folder)
    for name, content in ("schema.json", SCHEMA), ("empty.json", "[]"):
        with open(name, "w") as file:
            file.write(content)
    print_load()
    print("%10s %6s %9s %12s" % ("bytes", "what", "MB/s", "bytes/byte"))
    for size in sizes:
        length = write_text("value.json", size)
        for work in "read", "write":
            peak = least_run(work, "value.json", 1)[1] - least_run(work, "empty.json", 1)[1]
            print("%10d %6s %9.1f %12.1f"
                  % (length, work, length / one_more(work, "value.json") / 1e6, peak / length), flush=True)
    print_load()
PY
