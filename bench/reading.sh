#!/bin/sh
# Processor time in which a value is read back from the nodes of an arena: its encoding written and
# measured, beside `encode` of the same value as a `Value`, and the `Value` read, beside `decode`, at a
# smaller size. Three kinds of value at three sizes. What a run takes to make the value or its nodes is
# taken off: each number is that of one repetition more, the least of the rounds.
# Run it after 'rt run' in crates/bench, which builds the program: bench/reading.sh [ROUNDS [SIZE..]],
# the sizes in bytes. The C library's allocator keeps the memory that is given back to it, as in bench/codec.sh.
set -eu
takes=numbers
. "$(dirname "$0")/words"
cd "$(dirname "$0")/.."
exec env PYTHONPATH=bench python3 - "$@" <<'PY'
import os, sys, tempfile
from measure import BENCH, KEEP_MORE, numbers, print_load, run

rounds, = numbers(3)
sizes = [int(size) for size in sys.argv[2:]] or [1 << 24, 1 << 26, 1 << 28]

SCHEMA = """{"ssz":1,"types":[
["Numbers",{"list":["uint64",1099511627776]}],
["Fixed",{"container":[["number","uint64"],["flag","boolean"],["root",{"vector":["byte",32]}]]}],
["Fixeds",{"list":["Fixed",1099511627776]}],
["Variable",{"container":[["number","uint64"],["bytes",{"list":["byte",64]}]]}],
["Variables",{"list":["Variable",1099511627776]}]]}"""

def numbers(count):
    return os.urandom(8 * count)

def fixeds(count):
    return (os.urandom(8) + b"\1" + os.urandom(32)) * count

def variables(count):
    offsets = b"".join((4 * count + 32 * i).to_bytes(4, "little") for i in range(count))
    return offsets + (os.urandom(8) + (12).to_bytes(4, "little") + os.urandom(20)) * count

def seconds(work, name, times):
    return run(BENCH, "reading", work, "schema.json", name, "value.bin", times, env=KEEP_MORE).seconds

# What one repetition more takes, in ns a byte, from as many as take about a second: the least runs.
def one_more(work, name, size):
    first, times = seconds(work, name, 1), 2
    while (more := seconds(work, name, 1 + times) - first) < 0.6 and times < 1 << 12:
        times = times * 4 if more < 0.05 else int(times * 0.8 / more) + 1
    few, many = [first], [more + first]
    for _ in range(rounds - 1):
        few.append(seconds(work, name, 1))
        many.append(seconds(work, name, 1 + times))
    return (min(many) - min(few)) / times / size * 1e9

def put(make, count):
    value = make(count)
    with open("value.bin", "wb") as file:
        file.write(value)
    return len(value)

KINDS = [("Numbers", numbers, 8), ("Fixeds", fixeds, 41), ("Variables", variables, 36)]

with tempfile.TemporaryDirectory() as folder:
    os.chdir(folder)
    with open("schema.json", "w") as file:
        file.write(SCHEMA)
    print_load()
    print("%-10s %10s %8s %8s %6s %8s %6s %10s %8s %8s %6s"
          % ("ns a byte", "bytes", "encode", "write", "ratio", "measure", "ratio", "bytes", "decode", "read", "ratio"))
    for name, make, one in KINDS:
        for total in sizes:
            size = put(make, total // one)
            encode, write = one_more("encode", name, size), one_more("write", name, size)
            # The length of a list of elements of fixed size is told in constant time.
            measure = one_more("measure", name, size) if name == "Variables" else 0
            less = put(make, total // 16 // one)
            decode, read = one_more("decode", name, less), one_more("read", name, less)
            print("%-10s %10d %8.3f %8.3f %6.2f %8.3f %6.2f %10d %8.3f %8.3f %6.2f"
                  % (name, size, encode, write, write / encode, measure, measure / encode, less, decode, read,
                     read / decode), flush=True)
    print_load()
PY
