#!/bin/sh
# Processor time in which a slice finds a field of an element of a list of containers of fixed size, and
# of variable size, at four lengths: elements all over the list, one after another. What a run takes
# without that, to read the file and to check it once, is taken off: each number is that of a run that
# finds so many less that of a run that finds none, the least of the rounds.
# Run it after 'rt run' in crates/bench, which builds the program: bench/slices.sh [ROUNDS [TIMES]].
set -eu
takes=numbers
. "$(dirname "$0")/words"
cd "$(dirname "$0")/.."
exec env PYTHONPATH=bench python3 - "$@" <<'PY'
import sys, tempfile
from measure import BENCH, TYPES, numbers, print_load, run

rounds, times = numbers(5, 2000000)

def fixeds(count):
    return (bytes(8) + b"\1" + bytes(32)) * count

def variables(count):
    offsets = b"".join((4 * count + 32 * i).to_bytes(4, "little") for i in range(count))
    return offsets + (bytes(8) + (12).to_bytes(4, "little") + bytes(20)) * count

# The user time of a run, and the sum that it prints.
def find(name, path, field, times):
    one = run(BENCH, "slices", TYPES, name, path, field, times)
    return one.user, int(one.last)

# The sum of the starts, by the sizes alone.
def wanted(name, count, times):
    indices = (i * 7919 % count for i in range(times))
    if name == "Fixeds":
        return sum(41 * i + 8 for i in indices)
    return sum(4 * count + 32 * i + 12 for i in indices)

print_load()
print("%-10s %10s %14s" % ("elements", "length", "us an element"))
for name, field, make in ("Fixeds", "flag", fixeds), ("Variables", "bytes", variables):
    for count in 1000, 10000, 100000, 1000000:
        with tempfile.NamedTemporaryFile() as file:
            file.write(make(count))
            file.flush()
            least = []
            for some in times, 0:
                runs = [find(name, file.name, field, some) for _ in range(rounds)]
                if any(total != wanted(name, count, some) for _, total in runs):
                    sys.exit("%s: wrong starts" % name)
                least.append(min(taken for taken, _ in runs))
            print("%-10s %10d %14.3f" % (name, count, (least[0] - least[1]) * 1e6 / times), flush=True)
print_load()
PY
