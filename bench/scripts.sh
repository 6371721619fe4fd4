#!/bin/sh
# Processor time and peak memory of reading scripts of three sizes each, the largest of 2^26 bytes: the
# time per byte should not grow, and memory should be the file's.
# Run it after 'rt run' in crates/bench, which builds the program.
set -eu
takes=none
. "$(dirname "$0")/words"
cd "$(dirname "$0")/.."
exec env PYTHONPATH=bench python3 - "$@" <<'PY'
import os, tempfile
from measure import BENCH, least, run

def statements(size):
    line = b"set A_version /some_field/12345/#len 0x0123456789abcdef\n"
    return line * (size // len(line))

def comments(size):
    line = b"# not a statement, but counted\n"
    return line * (size // len(line))

def one_line(size):
    return b"lit V P 0x" + b"5a" * ((size - 10) // 2)

def many_steps(size):
    return b"bytes V " + b"/a" * ((size - 8) // 2)

# The least processor time of three runs, and the greatest memory.
print("%-12s %10s %9s %9s %9s" % ("what", "bytes", "seconds", "ns/byte", "peak MiB"))
with tempfile.TemporaryDirectory() as folder:
    os.chdir(folder)
    for make in (statements, comments, one_line, many_steps):
        for bits in (22, 24, 26):
            script = make(1 << bits)
            with open("script.txt", "wb") as file:
                file.write(script)
            runs = [run(BENCH, "script", "script.txt") for _ in range(3)]
            taken, peak = least(runs), max(one.peak for one in runs)
            print("%-12s %10d %9.2f %9.1f %9d"
                  % (make.__name__, len(script), taken, taken * 1e9 / len(script), peak >> 20), flush=True)
PY
