#!/bin/sh
# Instructions of a statement of a script with its reply, as callgrind counts them: what a thousand of one kind take over
# those before them; of `list`, what a hundred take over a thousand names, for each name.
# Wants valgrind, and 'rt run' in crates/ssz_cli before it, or BUILD=FOLDER for what ./build-v3 FOLDER made.
set -eu
takes=none
. "$(dirname "$0")/words"
cd "$(dirname "$0")/.."
exec env PYTHONPATH=bench python3 - "$@" <<'PY'
import os, tempfile
from measure import SSZ, counted

def count(before, line, times, status=0):
    """The instructions of each of these lines behind those before them."""
    taken = []
    for lines, ended in (before, 0), (before + line * times, status):
        with open("script", "w") as file:
            file.write(lines)
        taken.append(counted(SSZ, "run", "s", "script", status=ended)[0])
    return (taken[1] - taken[0]) / times

with tempfile.TemporaryDirectory() as room:
    os.chdir(room)
    with open("s", "w") as file:
        file.write('{"ssz":1,"types":[["L",{"list":["uint64",1099511627776]}]]}')
    with open("v", "wb") as file:
        file.write(b"\1" * (8 << 10))
    for line in "len V /", "gindex L /7", "bytes V /7", "json V /7", "root V", "fork V W\ndrop W", "no statement":
        taken = count("load V L v\nroot V\n", line + "\n", 1000, line == "no statement")
        print("%-14s %7d" % (line.replace("\n", ", "), taken), flush=True)
    names = "".join("new name%04d L\n" % i for i in range(1000))
    print("%-14s %7d" % ("list, a name", count(names, "list\n", 100) / 1000))
PY
