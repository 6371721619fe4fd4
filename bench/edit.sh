#!/bin/sh
# Processor time of edits on nodes with a root after each: an element of a list of uint64 that is set,
# one that is appended, one that is popped, at several lengths; and the effective balance of a validator
# of deneb's BeaconState. Beside each stands a bare loop of as many pairs as the edits hashed. What a run
# takes without edits is taken off; each number is the least of the rounds. The last columns say how many
# nodes an edit makes and how many bytes of memory it takes, by the peaks of the two runs.
# Run it after 'rt run' in crates/bench and in crates/ssz_cli, which build the programs:
# bench/edit.sh [ROUNDS [EDITS]].
set -eu
takes=numbers
. "$(dirname "$0")/words"
cd "$(dirname "$0")/.."
exec env PYTHONPATH=bench python3 - "$@" <<'PY'
import json, os, subprocess, tempfile
from measure import BENCH, DENEB, SSZ, TYPES, least, numbers, print_load, run

rounds, edits = numbers(3, 100000)

# The size of a type of the schema, None where it is variable.
def size(types, form):
    if isinstance(form, str):
        return size(types, types[form]) if form in types else {"boolean": 1, "byte": 1}.get(form) or int(form[4:]) // 8
    (kind, what), = form.items()
    if kind == "container":
        sizes = [size(types, field) for _, field in what]
        return None if None in sizes else sum(sizes)
    if kind == "vector":
        one = size(types, what[0])
        return None if one is None else one * what[1]
    return (what + 7) // 8 if kind == "bitvector" else None

# A BeaconState of zeros and empty lists, but for so many validators.
def state(count):
    with open(DENEB) as file:
        types = dict(json.load(file)["types"])
    with tempfile.TemporaryDirectory() as room:
        script, saved = os.path.join(room, "script"), "state.ssz"
        with open(script, "w") as file:
            file.write("new V BeaconState\nsave V %s\n" % saved)
        run_in = subprocess.run([SSZ, "run", DENEB, script], cwd=room,
                                stdout=subprocess.PIPE, check=True)
        with open(os.path.join(room, saved), "rb") as file:
            bytes_ = bytearray(file.read())
    validators = b"\1" * (121 * count)
    at, behind, start = 0, False, None
    for name, form in types["BeaconState"]["container"]:
        fixed = size(types, form)
        if fixed is None:
            offset = int.from_bytes(bytes_[at:at + 4], "little")
            if behind:
                bytes_[at:at + 4] = (offset + len(validators)).to_bytes(4, "little")
            if name == "validators":
                behind, start = True, offset
        at += 4 if fixed is None else fixed
    return bytes(bytes_[:start]) + validators + bytes(bytes_[start:])

def row(what, schema, name, file, items, field, count, how):
    words = BENCH, "edit", schema, name, file, items, field, count
    turns = []
    for _ in range(rounds):
        all_, none = run(*words, edits, how), run(*words, 0, how)
        _, nodes, made, pairs, hashed = all_.last.split()
        turns.append((all_, none, run(BENCH, "pairs", int(hashed) - int(pairs))))
    whole, before, bare = map(least, zip(*turns))
    taken = whole - before
    room = min(all_.peak - none.peak for all_, none, _ in turns) / edits
    print("%-22s %8d %9.3f %9.3f %7.2f %7.2f %11.1f %11.0f"
          % (what, count, taken, bare, taken / bare, taken * 1e6 / edits,
             (int(made) - int(nodes)) / edits, room), flush=True)

print_load()
print("%-22s %8s %9s %9s %7s %7s %11s %11s"
      % ("edit", "length", "seconds", "bare", "ratio", "us", "nodes/edit", "bytes/edit"))
with tempfile.NamedTemporaryFile() as file:
    for depth in 10, 14, 18, 20, 22:
        file.seek(0)
        file.truncate()
        file.write(b"\1" * (8 << depth))
        file.flush()
        for how in "set", "append", "pop":
            if how != "pop" or edits <= 1 << depth:
                row("uint64 " + how, TYPES, "L", file.name, "-", "-", 1 << depth, how)
    for count in 1000, 1000000:
        file.seek(0)
        file.truncate()
        file.write(state(count))
        file.flush()
        row("BeaconState validator", DENEB, "BeaconState", file.name, "validators", "effective_balance", count, "set")
print_load()
PY
