#!/bin/sh
# Speed of check, decode and encode of three kinds of value at five sizes, beside a copy of the same
# bytes; and, where valgrind is there, the instructions that each takes a byte, at three sizes.
# Run it after 'rt run' in crates/bench, which builds the program, on an idle machine:
# bench/codec.sh [ROUNDS].
set -eu
takes=numbers
. "$(dirname "$0")/words"
cd "$(dirname "$0")/.."
exec env PYTHONPATH=bench python3 - "$@" <<'PY'
import os, shutil, tempfile
from measure import BENCH, KEEP_MORE, counted, least_of, numbers

rounds, = numbers(3)

SCHEMA = """{"ssz":1,"types":[
["Numbers",{"list":["uint64",1099511627776]}],
["Fixed",{"container":[["number","uint64"],["flag","boolean"],["root",{"vector":["byte",32]}]]}],
["Fixeds",{"list":["Fixed",1099511627776]}],
["Variable",{"container":[["number","uint64"],["bytes",{"list":["byte",64]}]]}],
["Variables",{"list":["Variable",1099511627776]}]]}"""

def numbers(count):
    return os.urandom(8 * count)

def fixeds(count):
    return (os.urandom(8) + b"\1" + os.urandom(32)) * count

def variables(count):
    offsets = b"".join((4 * count + 32 * i).to_bytes(4, "little") for i in range(count))
    return offsets + (os.urandom(8) + (12).to_bytes(4, "little") + os.urandom(20)) * count

def command(work, name, times):
    return [BENCH, "codec", work, "schema.json", name, "value.bin", str(times)]

def seconds(work, name, times):
    return least_of(rounds, *command(work, name, times), env=KEEP_MORE)

# What one more repetition takes, from as many as take about half a second.
def one_more(work, name):
    first, times = seconds(work, name, 1), 1
    while (more := seconds(work, name, 1 + times) - first) < 0.5 and times < 1 << 20:
        times = times * 2 if more < 0.05 else int(times * 0.6 / more) + 1
    return more / times

def instructions(work, name):
    counts = []
    for times in (1, 2):
        counts.append(counted(*command(work, name, times), env=KEEP_MORE)[0])
    return counts[1] - counts[0]

KINDS = [("Numbers", numbers, 8), ("Fixeds", fixeds, 41), ("Variables", variables, 36)]
WORKS = ("copy", "check", "decode", "encode")

def table(title, sizes, cell):
    print(title)
    print("%-10s %10s" % ("what", "bytes") + "".join(" %10s" % work for work in WORKS))
    for name, make, size in KINDS:
        for total in sizes:
            value = make(total // size)
            with open("value.bin", "wb") as file:
                file.write(value)
            # A list of numbers is judged in constant time, so its check has no speed.
            cells = ["constant" if (work, name) == ("check", "Numbers") else cell(work, name, len(value)) for work in WORKS]
            print("%-10s %10d" % (name, len(value)) + "".join(" %10s" % cell for cell in cells), flush=True)

with tempfile.TemporaryDirectory() as folder:
    os.chdir(folder)
    with open("schema.json", "w") as file:
        file.write(SCHEMA)
    if shutil.which("valgrind"):
        table("instructions a byte", (1 << 18, 1 << 21, 1 << 24), lambda work, name, n: "%.3f" % (instructions(work, name) / n))
    table("MB/s", (1 << 18, 1 << 21, 1 << 24, 1 << 26, 1 << 28), lambda work, name, n: "%.0f" % (n / one_more(work, name) / 1e6))
PY
