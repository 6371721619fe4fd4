#!/bin/sh
# Processor time of a call of make, get, fork and drop_version at 10^3 to 10^6 versions, in
# microseconds, the making of names left out: for names that ascend (up), that descend (down), that
# come all over (far), and that ascend and have 56 of 64 bytes alike (long).
# Run it after 'rt run' in crates/bench, which builds the program.
set -eu
takes=none
. "$(dirname "$0")/words"
cd "$(dirname "$0")/.."
exec env PYTHONPATH=bench python3 - "$@" <<'PY'
from measure import BENCH, least_of

def seconds(work, order, count):
    return least_of(3, BENCH, "versions", work, order, count)

print("%-5s %8s %9s %9s %9s %9s" % ("names", "count", "make", "get", "fork", "drop"))
for order in "up", "down", "far", "long":
    for count in 1000, 10000, 100000, 1000000:
        names = seconds("none", order, count)
        made = seconds("make", order, count)
        row = [made - names]
        row.append(seconds("get", order, count) - made - names)
        row.append(seconds("fork", order, count) - made - 2 * names)
        row.append(seconds("drop", order, count) - made - names)
        print("%-5s %8d %9.2f %9.2f %9.2f %9.2f"
              % (order, count, *(taken * 1e6 / count for taken in row)))
PY
