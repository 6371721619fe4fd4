#!/bin/sh
# The table of bench/README.md: what users wait for, in instructions as callgrind counts them and in time, the
# least of the rounds, each taken off what a run takes without it; three kinds of value at 0.25 MiB, where the
# allocator keeps what is given back to it. Texts of JSON and scripts have 4 MiB, deneb's BeaconState as many
# validators as is said, of which 2^17 make 21 MB. With BUILD=FOLDER, of what ./build-v3 FOLDER made.
# Of no rounds, the instructions alone, which do not depend on what else the machine does.
# Wants valgrind, and 'rt run' in crates/bench before it: bench/table.sh [ROUNDS [VALIDATORS]].
set -eu
takes=numbers
. "$(dirname "$0")/words"
cd "$(dirname "$0")/.."
exec env PYTHONPATH=bench python3 - "$@" <<'PY'
import json, os, random, tempfile
from measure import BENCH, DENEB, KEEP_MORE, TYPES as KINDS, counted, numbers, print_load, run
from states import TYPES, drawn

rounds, validators = numbers(7, 1 << 17)

SCHEMA = """{"ssz":1,"types":[
["Numbers",{"list":["uint64",1099511627776]}],
["Fixed",{"container":[["number","uint64"],["flag","boolean"],["root",{"vector":["byte",32]}]]}],
["Fixeds",{"list":["Fixed",1099511627776]}],
["Variable",{"container":[["number","uint64"],["bytes",{"list":["byte",64]}]]}],
["Variables",{"list":["Variable",1099511627776]}],
["Entry",{"container":[["number","uint64"],["flag","boolean"],["root",{"vector":["byte",32]}],
["bytes",{"list":["byte",64]}]]}],
["Entries",{"list":["Entry",1099511627776]}]]}"""

chance = random.Random(7)

def put(name, data):
    with open(name, "wb") as file:
        file.write(data)
    return len(data)

def variables(count):
    offsets = b"".join((4 * count + 32 * i).to_bytes(4, "little") for i in range(count))
    return offsets + (chance.randbytes(8) + (12).to_bytes(4, "little") + chance.randbytes(20)) * count

def entries(size):
    text, length = [], 1
    while length < size:
        one = {"number": str(chance.getrandbits(64)), "flag": chance.random() < 0.5,
               "root": "0x" + chance.randbytes(32).hex(), "bytes": "0x" + chance.randbytes(20).hex()}
        text.append(json.dumps(one, sort_keys=True, separators=(",", ":")))
        length += len(text[-1]) + 1
    return ("[" + ",".join(text) + "]").encode()

def container(count):
    fields = ",".join('["a_field_of_this_container_with_number_%07d","uint64"]' % i for i in range(count))
    return ('{"ssz":1,"types":[["T",{"container":[%s]}]]}' % fields).encode()

def definitions(count):
    return ('{"ssz":1,"types":[%s]}' % ",".join('["T%07d",{"container":[["first","uint64"],["second","boolean"],["third",'
            '{"list":["uint64",1024]}]]}]' % i for i in range(count))).encode()

def count(words, status=0):
    return counted(BENCH, *words, env=KEEP_MORE, status=status)[0]

def user(words, status=0):
    return run(BENCH, *words, env=KEEP_MORE, status=status).user

# A row of the table: what a run with the greater number does more than one with the lesser, for each of so many
# units; the number for a time is as great as takes about half a second.
def row(what, unit, size, words, few=2, many=3, less=None, status=0):
    less = less or words
    command = lambda some, of: [str(some) if word == "TIMES" else word for word in map(str, of)]
    taken = (count(command(many, words), status) - count(command(few, less), status)) / (many - few) / size
    if not rounds:
        print("%-52s %12.3f" % (what, taken), flush=True)
        return
    times = many
    while (more := user(command(few + times, words), status) - user(command(few, less), status)) < 0.5 and times < 1 << 24:
        times = times * 2 if more < 0.05 else int(times * 0.6 / more) + 1
    seconds = min(user(command(few + times, words), status) for _ in range(rounds))
    seconds = (seconds - min(user(command(few, less), status) for _ in range(rounds))) / times / size
    if unit == "byte":
        print("%-52s %12.3f %10.0f MB/s" % (what, taken, 1 / seconds / 1e6), flush=True)
    else:
        print("%-52s %12.1f %10.1f ns" % (what, taken, seconds * 1e9), flush=True)

with tempfile.TemporaryDirectory() as room:
    os.chdir(room)
    put("schema.json", SCHEMA.encode())
    count_of = {"Numbers": 1 << 15, "Fixeds": (1 << 18) // 41, "Variables": (1 << 18) // 36}
    sizes = {"Numbers": put("Numbers", chance.randbytes(1 << 18)),
             "Fixeds": put("Fixeds", (chance.randbytes(8) + b"\1" + chance.randbytes(32)) * count_of["Fixeds"]),
             "Variables": put("Variables", variables(count_of["Variables"]))}
    text = put("entries.json", entries(1 << 22))
    state = put("state", drawn(TYPES["BeaconState"], 1000))
    print_load()
    print("%-52s %12s %15s" % ("what", "instructions", "time"))
    for name in ("Fixeds", "Variables"):
        row(f"check {name}", "byte", sizes[name], ["codec", "check", "schema.json", name, name, "TIMES"])
    # of the last container a boolean of 2, or a list that begins a byte too late
    for name, from_end, byte in (("Fixeds", 33, 2), ("Variables", 24, 13)):
        with open(name, "rb") as file:
            data = bytearray(file.read())
        data[-from_end] = byte
        put("faulty", data)
        row(f"fault of {name}", "byte", sizes[name], ["codec", "check", "schema.json", name, "faulty", "TIMES"], status=1)
    for program, work in (("codec", "decode"), ("reading", "read"), ("codec", "encode"), ("reading", "write")):
        for name, size in sizes.items():
            row(f"{work} {name}", "byte", size, [program, work, "schema.json", name, name, "TIMES"])
    for work in ("read", "write"):
        row(f"JSON {work}", "byte", text, ["json", work, "schema.json", "Entries", "entries.json", "TIMES"], 1, 2)
    for path in ("/slot", "/historical_summaries", "/latest_block_header/proposer_index", "/fork/epoch", "/slashings/7",
                 "/validators/7", "/balances/7", "/validators/7/effective_balance"):
        row(f"find {path}", "one", 1, ["find", DENEB, "BeaconState", "state", path, "TIMES"], 10, 1010)
    row("part of a checked slice", "one", 1, ["slices", "schema.json", "Variables", "Variables", "bytes", "TIMES"], 10, 1010)
    for depth, places in ((16, 1), (16, 256), (20, 100), (20, 256)):
        for work in ("prove", "loads"):
            row(f"{work} {places} of depth {depth}", "one", 1, [work, depth, places, "TIMES"], 1, 11)
    row("an edit of a tree of depth 20 with its root", "one", 1, ["arena", "far", 20, "TIMES"], 1000, 2000)
    row("a bare pair", "one", 1, ["pairs", "TIMES"], 10000, 20000)
    for kind, unit, one in (("numbers", "byte", 8), ("containers", "one", 1), ("lists", "one", 1)):
        # what is made, less what is only checked, of as many
        some = 4096
        words = ["tree", kind, some, "build", KINDS]
        taken = (count(words) - count(["tree", kind, some, "check", KINDS])) / some / one
        print("%-52s %12.3f" % (f"nodes of {kind}, each {unit}", taken), flush=True)
    for name, make, counts in (("one container", container, (1 << 13, 1 << 16)), ("small containers", definitions, (1 << 12, 1 << 15))):
        for some in counts:
            length = put("types.json", make(some))
            print("%-52s %12.1f" % (f"schema of {name}, {some}, each byte", count(["schema", "types.json"]) / length), flush=True)
    for length in (40, 1000):
        size = put("script.txt", (b"#" + b"c" * (length - 2) + b"\n") * ((1 << 22) // length))
        print("%-52s %12.3f" % (f"comments of {length} bytes a line, each byte", count(["script", "script.txt"]) / size), flush=True)
    size = put("state", drawn(TYPES["BeaconState"], validators)) if rounds else 0
    for title, tunables in (("by default", ""), ("huge pages", "glibc.malloc.hugetlb=1")) if rounds else ():
        env = dict(os.environ, GLIBC_TUNABLES=tunables)
        made = [run(BENCH, "find", DENEB, "BeaconState", "state", "/slot", 0, env=env) for _ in range(rounds)]
        read = [run(BENCH, "codec", "check", DENEB, "BeaconState", "state", 1, env=env) for _ in range(rounds)]
        spent = min(one.seconds for one in made) - min(one.seconds for one in read)
        alone = min(one.user for one in made) - min(one.user for one in read)
        print("%-52s %12s %10.0f MB/s, %.0f of the user's time alone"
              % (f"a state of {size} bytes to nodes, {title}", "", size / spent / 1e6, size / alone / 1e6), flush=True)
    print_load()
PY
