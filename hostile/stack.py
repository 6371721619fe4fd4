#!/usr/bin/env python3
"""Measures how much of its thread's stack each call of ssz.h takes, and compares it with the figures in the header.

  hostile/stack.py --prefix PREFIX         over an installation (./install PREFIX)
  hostile/stack.py --library FILE.a ..     over an archive, and those that it needs

hostile/stack.c makes each call in a thread whose stack was painted: with a small schema, fulu's, and such as take most, and
with schemas, JSON and proofs that go as deep as a peer can make them. Each schema is run once to measure, and in threads of
the sizes that the header says will do; in the one that it says will not do the process must die. It needs cc. The last line
is 'N runs, M differed'.
"""
import argparse
import json
import os
import re
import shutil
import signal
import struct
import subprocess
import sys
import tempfile
from dataclasses import dataclass
from pathlib import Path

TOP = Path(__file__).resolve().parents[1]
HEADER, PAGE, FULU = TOP / "include" / "ssz.h", TOP / "docs" / "c.md", TOP / "examples" / "ethereum" / "fulu.json"
ETHEREUM, ANY = 0, 1
#: A stack on which every call can be measured, in KB.
MUCH = 4096
OTHERS = "all others"


@dataclass
class Case:
    """A schema and a value of a type, with what stack.c wants, and which of the header's columns holds for them."""
    name: str
    column: int
    schema: object
    type: str
    value: bytes
    path: str
    list: str
    element: bytes
    count: int = 3000


def offsets(parts):
    """The encoding of a list of parts of no fixed size."""
    starts = [4 * len(parts) + sum(map(len, parts[:k])) for k in range(len(parts))]
    return b"".join(struct.pack("<I", start) for start in starts) + b"".join(parts)


def nested(form, inner, count):
    """A type of so many, each in the one around it."""
    for _ in range(count):
        inner = form(inner)
    return inner


def of(form):
    return {"ssz": 2, "types": [["T", form]]}


def deep_proof():
    """The text of the proof of two leaves at the lowest level that an index can have, whose branches meet at the root alone. No
    root fits."""
    def entries(indices):
        return " ".join(f"{index}=0x{bytes(32).hex()}" for index in indices)
    beside = [(half << level) + 1 for level in range(126, 0, -1) for half in (3, 2)]
    return f"proof {entries([2 << 126, 3 << 126])} / {entries(beside)}\n".encode()


def small():
    pair = of({"container": [["a", "uint64"], ["b", {"list": ["uint64", 16]}]]})
    yield Case("small", ETHEREUM, pair, "T", struct.pack("<QIQQ", 5, 12, 1, 2), "/b/1", "/b", bytes(8))
    longs = of({"list": ["uint64", 1 << 40]})
    yield Case("2^17 numbers", ETHEREUM, longs, "T", bytes(8 << 17), "/1000", "/", bytes(8))


def ethereum():
    fulu = json.loads(FULU.read_text())
    yield Case("fulu's state", ETHEREUM, fulu, "BeaconState", b"", "/finalized_checkpoint/root", "/validators", bytes(121), 1 << 15)
    header = "/message/body/eth1_data/block_hash"
    deposit = bytes(33 * 32 + 48 + 32 + 8 + 96)
    yield Case("fulu's block", ETHEREUM, fulu, "SignedBeaconBlock", b"", header, "/message/body/deposits", deposit)


def deep():
    """31 types in one another, of each kind that has others in it."""
    four, one = struct.pack("<I", 4), b"\7"
    lists = nested(lambda form: {"list": [form, 8]}, {"list": ["uint8", 1 << 10]}, 30)
    tops = [nested(lambda part: offsets([part]), one * 256, levels) for levels in (26, 25)]
    value, element = (nested(lambda part: offsets([part] * 5), top, 4) for top in tops)
    yield Case("31 lists", ANY, of(lists), "T", value, "/0" * 31, "/", element)
    vectors = nested(lambda form: {"vector": [form, 1]}, "uint8", 31)
    yield Case("31 vectors", ANY, of(vectors), "T", one, "/0" * 31, "/", one)
    fields = nested(lambda form: {"container": [["a", form]]}, {"list": ["uint8", 4]}, 30)
    yield Case("30 containers", ANY, of(fields), "T", four * 30 + one, "/a" * 30 + "/0", "/a" * 30, one)
    plain = nested(lambda form: {"container": [["a", form]]}, "uint8", 31)
    yield Case("31 containers", ANY, of(plain), "T", one, "/a" * 31, "/", one)
    unions = nested(lambda form: {"union": [form]}, "uint8", 31)
    yield Case("31 unions", ANY, of(unions), "T", bytes(31) + one, "/#0" * 31, "/", bytes(30) + one)


def wide():
    """126 levels in few types."""
    lists = of({"list": [{"list": ["uint64", 1 << 62]}, 1 << 60]})
    yield Case("2 lists of 126 levels", ANY, lists, "T", offsets([bytes(400)] * 500), "/0/0", "/", bytes(400))
    four = of(nested(lambda form: {"list": [form, 1 << 29]}, "uint64", 4))
    element = nested(lambda part: offsets([part] * 10), bytes(80), 2)
    yield Case("4 lists of 126 levels", ANY, four, "T", offsets([element] * 10), "/0/0/0/0", "/", element, 100)


@dataclass
class Said:
    """What the header says: the KB of each call in both columns, and the KB of the threads that make every call, all but those
    that judge proofs by column, and none."""
    found: dict
    whole: int
    threads: list
    dies: int


def rows(pattern, text):
    """The KB of each call in the rows of a table: `ssz_session_root, _prove` are two calls."""
    found = {}
    for names, *columns in re.findall(pattern, text):
        names = names.replace("`", "").split(", ")
        before = names[0].rpartition("_")[0]
        for name in names:
            found[(before + name if name.startswith("_") else name).removeprefix("ssz_")] = [int(column) for column in columns]
    return found


def said():
    """The figures of the header, which are those of the page."""
    text = HEADER.read_text()
    found = rows(r"(?m)^ \*     (ssz_\w+(?:, \w+)*|all others) +(\d+) +(\d+)$", text)
    threads = re.search(r"a thread of (\d+) KB makes every call\. One of (\d+) KB makes all but ssz_verify and ssz_verify_all "
                        r"with types of Ethereum, and one of (\d+) KB with any\. In one of (\d+) KB the first schema",
                        re.sub(r"\s+\*?\s*", " ", text))
    if OTHERS not in found or not threads:
        sys.exit(f"{HEADER}: no figures of the stack")
    shown = rows(r"(?m)^\| (`ssz_.+`|all others) \| (\d+) \| (\d+) \|$", PAGE.read_text())
    if found != {name: columns for name, columns in shown.items() if name != "verify_branch"}:
        sys.exit(f"{PAGE}: other figures than in {HEADER}")
    whole, *columns, dies = map(int, threads.groups())
    return Said(found, whole, columns, dies)


def place_of(call, column, found):
    """The row and the column of a call: a line's is that of the call of its statement, and a bad schema is none of Ethereum's."""
    name, _, bad = call.replace("session_run ", "session_").partition(", ")
    return (name if name in found else OTHERS), (ANY if bad and name in ("schema_read", "session_start") else column)


def run(program, case, size, room, proofs=True):
    """Makes the calls on a stack of so many KB: the status, what was printed, and the most bytes of each call."""
    files = [room / name for name in ("schema", "value", "element", "proof")]
    texts = [json.dumps(case.schema, separators=(",", ":")).encode(), case.value, case.element, deep_proof()]
    for file, data in zip(files, texts):
        file.write_bytes(data)
    value = files[1] if case.value else "-"
    words = [program, size, files[0], case.type, value, case.path, case.list, files[2], case.count, files[3] if proofs else "-"]
    ran = subprocess.run([str(word) for word in words], stdin=subprocess.DEVNULL, stdout=subprocess.PIPE, text=True)
    most = {}
    for call, depth in re.findall(r"(?m)^(.+)\t(\d+)$", ran.stdout):
        most[call] = max(most.get(call, 0), int(depth))
    return ran.returncode, ran.stdout, most


class Tally:
    """How many runs there were, how many differed, and the most KB of each row and column."""

    def __init__(self, found):
        self.runs, self.differed, self.found = 0, 0, found
        self.most = {(row, column): (0, "", "") for row in found for column in (ETHEREUM, ANY)}

    def count(self, right, what):
        self.runs += 1
        if not right:
            self.differed += 1
            print(f"differs: {what}", flush=True)

    def measured(self, case, status, printed, most):
        """A case, whose calls take no more than the header says."""
        above = []
        for call, depth in most.items():
            row, column = place_of(call, case.column, self.found)
            self.most[row, column] = max(self.most[row, column], (depth / 1024, call, case.name))
            if depth > 1024 * self.found[row][column]:
                above.append(f"{call} takes {depth / 1024:.1f} KB of {self.found[row][column]}")
        self.count(status == 0 and most and not above, f"{case.name}: status {status}, {'; '.join(above) or printed[-200:]}")

    def show(self):
        print(f"{'call':24}{'Ethereum':>10}{'of':>5}  {'most: call, schema':46}{'any':>7}{'of':>5}  most: call, schema")
        for row, most in self.found.items():
            cells = []
            for column in (ETHEREUM, ANY):
                depth, call, name = max(self.most[row, one] for one in range(column + 1))
                cells.append((depth, most[column], f"{call}, {name}"))
            (a, b, c), (d, e, f) = cells
            print(f"{row:24}{a:10.1f}{b:5}  {c:46}{d:7.1f}{e:5}  {f}")


def built(libraries, room):
    """stack.c over the archives."""
    program = room / "stack"
    words = ["cc", "-std=c11", "-O2", "-Wall", "-Wextra", "-pthread", f"-I{HEADER.parent}", "-o", program, TOP / "hostile" / "stack.c", *libraries]
    if subprocess.run([str(word) for word in words]).returncode:
        sys.exit("hostile/stack.c was not built")
    return program


def tried(libraries, room):
    """All cases, and what differed."""
    told = said()
    program, tally = built(libraries, room), Tally(told.found)
    for case in (*small(), *ethereum(), *deep(), *wide()):
        tally.measured(case, *run(program, case, MUCH, room))
        for size, proofs, wanted in (told.whole, True, 0), (told.threads[case.column], False, 0), (told.dies, False, -signal.SIGSEGV):
            status, printed, _ = run(program, case, size, room, proofs)
            tally.count(status == wanted, f"{case.name}, in a thread of {size} KB: status {status}, {printed[-200:]}")
    tally.show()
    print(f"{tally.runs} runs, {tally.differed} differed")
    return int(tally.differed > 0 or not tally.runs)


def main():
    parser = argparse.ArgumentParser(prog="hostile/stack.py", description=__doc__, formatter_class=argparse.RawDescriptionHelpFormatter)
    which = parser.add_mutually_exclusive_group(required=True)
    which.add_argument("--prefix", type=Path, help="an installation")
    which.add_argument("--library", type=Path, nargs="+", metavar="FILE.a", help="an archive, and those that it needs")
    given = parser.parse_args()
    libraries = given.library or [given.prefix / "lib" / "libssz.a"]
    if not shutil.which("cc"):
        sys.exit("hostile/stack.py: no cc, so nothing was tried")
    if lacking := [str(file) for file in libraries if not file.is_file()]:
        sys.exit(f"hostile/stack.py: no {', '.join(lacking)}, so nothing was tried")
    with tempfile.TemporaryDirectory() as room:
        return tried(libraries, Path(room))


if __name__ == "__main__":
    sys.exit(main())
