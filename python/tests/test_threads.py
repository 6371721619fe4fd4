"""Eight threads over the same values, and forked children."""

from __future__ import annotations

import os
import subprocess
import sys
import threading
import time
import unittest
from pathlib import Path
from typing import Any, Callable

import ssz

PACKAGE = str(Path(ssz.__file__).resolve().parents[1])
THREADS, SECONDS = 8, 20
TYPES = {"ssz": 1, "types": [
    ["Longs", {"list": ["uint64", 1 << 30]}],
    ["Row", {"container": [["a", "uint64"], ["b", {"list": ["uint16", 64]}]]}],
    ["Rows", {"list": ["Row", 1 << 20]}],
    ["Choice", {"union": [None, "uint64", "Row"]}],
]}


def together(work: Callable[[int], None], count: int = THREADS) -> list[BaseException]:
    """Does work in threads that begin at once; what it raised."""
    failed: list[BaseException] = []
    start = threading.Barrier(count)

    def begin(number: int) -> None:
        start.wait()
        try:
            work(number)
        except BaseException as error:
            failed.append(error)

    threads = [threading.Thread(target=begin, args=(number,)) for number in range(count)]
    for thread in threads:
        thread.start()
    for thread in threads:
        thread.join()
    return failed


class Threads(unittest.TestCase):
    """What one thread does no other undoes."""

    def setUp(self) -> None:
        before = sys.getswitchinterval()
        sys.setswitchinterval(1e-5)
        self.addCleanup(sys.setswitchinterval, before)

    def test_each_element_is_popped_once(self) -> None:
        longs = ssz.Schema(TYPES).Longs(range(1600))
        found: list[list[int]] = [[] for _ in range(THREADS)]

        def work(number: int) -> None:
            found[number].extend(longs.pop() for _ in range(200))

        self.assertEqual(together(work), [])
        self.assertEqual((sorted(sum(found, [])), len(longs)), (list(range(1600)), 0))

    def test_slices_of_other_places(self) -> None:
        longs = ssz.Schema(TYPES).Longs([0] * 3200)

        def work(number: int) -> None:
            for turn in range(1, 41):
                at = 400 * number + 10 * (turn - 1)
                longs[at : at + 10] = [turn] * 10

        self.assertEqual(together(work), [])
        self.assertEqual(list(longs), [turn for _ in range(THREADS) for turn in range(1, 41) for _ in range(10)])

    def test_extends(self) -> None:
        longs = ssz.Schema(TYPES).Longs([7] * 1000)

        def work(number: int) -> None:
            for turn in range(50):
                longs.extend([number, turn, number])

        self.assertEqual(together(work), [])
        runs = [tuple(longs[at : at + 3]) for at in range(1000, len(longs), 3)]
        self.assertEqual(sorted(runs), sorted((number, turn, number) for number in range(THREADS) for turn in range(50)))

    def test_reads_beside_extends(self) -> None:
        longs = ssz.Schema(TYPES).Longs([7] * 1000)

        def work(number: int) -> None:
            for turn in range(300):
                if number % 4 == 0:
                    longs.extend([number, turn])
                else:
                    self.assertEqual((longs[0], len(longs) % 2, len(longs.encode_bytes()) % 16), (7, 0, 0))
                    self.assertEqual((len(longs.hash_tree_root()), len(longs.prove("/1").leaves)), (32, 1))

        self.assertEqual(together(work), [])

    def test_a_union_read_beside_choices(self) -> None:
        choice = ssz.Schema(TYPES).Choice(1, 5)

        def work(number: int) -> None:
            for turn in range(300):
                if number % 2:
                    choice.choose(*((1, 5), (0, None))[turn % 2])
                else:
                    self.assertIn(choice.value, (5, None))

        self.assertEqual(together(work), [])

    def test_long_answers_beside_appends(self) -> None:
        schema = ssz.Schema(TYPES)
        rows = schema.Rows([{"a": 1, "b": range(64)}] * 30)

        def work(number: int) -> None:
            for _ in range(150):
                if number == 0:
                    rows.append({"a": 1, "b": range(64)})
                else:
                    self.assertTrue(all(list(row["b"]) == list(range(64)) for row in rows.to_plain()))

        self.assertEqual(together(work, 3), [])
        self.assertEqual(len(rows), 180)

    def test_one_class_and_one_session(self) -> None:
        for _ in range(40):
            schema = ssz.Schema(TYPES)
            values: list[Any] = []
            self.assertEqual(together(lambda _: values.append(schema.Row(a=3))), [])
            self.assertTrue(all(isinstance(value, schema.Row) and value.copy() == values[0] for value in values))
            self.assertEqual(len({id(value._version.session) for value in values}), 1)
            self.assertEqual(schema.numbered(), 1)

    def test_one_schema_of_a_fork(self) -> None:
        said = subprocess.run([sys.executable, "-c", ONE_FORK], capture_output=True, text=True, env={**os.environ, "PYTHONPATH": PACKAGE})
        self.assertEqual((said.stdout, said.stderr), ("1\n", ""))

    def test_all_for_twenty_seconds(self) -> None:
        schema = ssz.Schema(TYPES)
        rows, longs = schema.Rows([{"a": 0, "b": [number]} for number in range(THREADS)]), schema.Longs([0] * THREADS)
        data, end, done = rows.encode_bytes(), time.monotonic() + SECONDS, [0] * THREADS

        def work(number: int) -> None:
            while time.monotonic() < end:
                longs[number] += 0
                longs.append(number)
                rows[number].a = done[number] = done[number] + 1
                other = schema.Rows.decode_bytes(data)
                other[number].b.append(9)
                copy = rows.copy()
                self.assertEqual((copy[number].a, list(other[number].b), len(copy)), (done[number], [number, 9], THREADS))
                self.assertEqual(longs[number], 0)
                self.assertTrue(copy.prove(f"/{number}/a").verify(copy.hash_tree_root()))

        self.assertEqual(together(work), [])
        self.assertEqual([row.a for row in rows], done)
        self.assertEqual(len(longs), THREADS + sum(done))
        self.assertEqual([list(longs)[THREADS:].count(number) for number in range(THREADS)], done)
        self.assertGreater(min(done), 10)


#: Eight threads ask for a fork first.
ONE_FORK = """
import sys, threading
sys.setswitchinterval(1e-6)
from ssz import ethereum
found, start = [], threading.Barrier(8)
def ask():
    start.wait()
    found.append(ethereum.deneb)
threads = [threading.Thread(target=ask) for _ in range(8)]
for thread in threads: thread.start()
for thread in threads: thread.join()
print(len(set(map(id, found))))
"""

#: A child that is forked while a thread is in a call, and what each call says in it.
FORKED = """
import os, sys, threading, time
import ssz
from ssz.ethereum import phase0
state, pair = phase0.BeaconState(), phase0.Checkpoint(epoch=3)
proof, root, session, opened = pair.prove("/epoch"), pair.hash_tree_root(), phase0.session(), phase0.type("Checkpoint").open(bytes(40))
state.hash_tree_root()
def work():
    while True:
        state.slot += 1
        state.encode_bytes()
threading.Thread(target=work, daemon=True).start()
time.sleep(0.1)
calls = [lambda: state.slot, lambda: pair.hash_tree_root(), lambda: pair.prove("/"), lambda: proof.verify(root), lambda: ssz.verify(root, str(proof)),
         lambda: phase0.Checkpoint(), lambda: phase0.type("Fork"), lambda: phase0.type("Checkpoint").check(bytes(40)), lambda: ssz.Schema(phase0.text),
         lambda: session.run("list"), lambda: opened.part("/epoch"), lambda: phase0.session(), lambda: phase0.share(), lambda: phase0.compact(),
         lambda: ssz.Proof.parse(str(proof)), lambda: setattr(pair, "epoch", 4), lambda: pair.copy(), lambda: phase0.BeaconBlock]
child = os.fork()
if child == 0:
    wrong = []
    for number, call in enumerate(calls):
        try:
            call()
            wrong.append(number)
        except RuntimeError as error:
            if "spawn" not in str(error):
                wrong.append(number)
    repr(pair)
    session.close()
    del state, session, opened
    os.write(1, f"{wrong}".encode())
    os._exit(0)
os.waitpid(child, 0)
print(" of", len(calls))
"""

#: A child of a process that has not loaded the library.
FORKED_BEFORE = """
import os, ssz
child = os.fork()
if child == 0:
    os.write(1, ssz.Schema('{"ssz":1,"types":[["A","uint8"]]}').type("A").hash_tree_root(b"\\1")[:1])
    os._exit(0)
os.waitpid(child, 0)
"""

#: Processes that are spawned.
SPAWNED = """
import multiprocessing
from ssz.ethereum import phase0
def root(epoch):
    return phase0.Checkpoint(epoch=epoch).hash_tree_root()
if __name__ == "__main__":
    with multiprocessing.get_context("spawn").Pool(2) as pool:
        print(pool.map(root, range(4)) == [root(epoch) for epoch in range(4)])
"""


class Forks(unittest.TestCase):
    """A forked child is told that it may not call the library."""

    def ran(self, *words: str) -> str:
        said = subprocess.run([sys.executable, *words], capture_output=True, text=True, timeout=120, env={**os.environ, "PYTHONPATH": PACKAGE})
        self.assertEqual((said.stderr, said.returncode), ("", 0))
        return said.stdout

    def test_each_call(self) -> None:
        self.assertRegex(self.ran("-c", FORKED), r"^\[\] of 18\n$")

    def test_a_child_that_loads_it_first(self) -> None:
        self.assertEqual(self.ran("-c", FORKED_BEFORE), "\1")

    def test_spawned(self) -> None:
        import tempfile
        with tempfile.TemporaryDirectory() as room:
            file = Path(room) / "spawned.py"
            file.write_text(SPAWNED)
            self.assertEqual(self.ran(str(file)), "True\n")

    def test_handles_are_not_copied(self) -> None:
        import copy
        import pickle
        schema = ssz.Schema(TYPES)
        for held in (schema, schema.session(), schema.type("Row").open(bytes(12)[:8] + b"\x0c\0\0\0")):
            for make in (copy.copy, copy.deepcopy, pickle.dumps):
                self.assertRaises(TypeError, make, held)


if __name__ == "__main__":
    unittest.main()
