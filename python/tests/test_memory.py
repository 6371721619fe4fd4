"""What values took comes back: the peak of a process that does a thing many times, beside that of one that does it a few times."""

from __future__ import annotations

import os
import subprocess
import sys
import unittest
from pathlib import Path

import ssz

PACKAGE = str(Path(ssz.__file__).resolve().parents[1])

#: Runs a body so many times, and prints the peak of the process in KiB.
FRAME = """
import sys
import ssz
from ssz.ethereum import deneb
{before}
for turn in range(int(sys.argv[1])):
{body}
print(next(line.split()[1] for line in open("/proc/self/status") if line.startswith("VmHWM")))
"""

LISTS = """
kinds = ssz.Schema({"ssz": 1, "types": [["Bytes", {"list": ["byte", 1 << 20]}], ["Box", {"container": [["list", "Bytes"]]}],
                                        ["Longs", {"list": ["uint64", 1 << 30]}], ["Row", {"container": [["list", "Longs"]]}]]})
data = (4).to_bytes(4, "little") + bytes(range(256)) * (1 << 12)
"""

#: What is done: before, each time, how few and how many times, and how much greater the peak of the many may be.
LOOPS: dict[str, tuple[str, str, int, int, float]] = {
    "blocks decoded": ("data = deneb.SignedBeaconBlock().encode_bytes()", "block = deneb.SignedBeaconBlock.decode_bytes(data)", 10, 2000, 2),
    "lists of 1 MiB decoded": (LISTS, "box = kinds.Box.decode_bytes(data)", 10, 200, 2),
    "lists of 1 MiB made of objects": (LISTS + "data = {'list': data[4:]}", "box = kinds.Box.from_obj(data)", 10, 100, 2),
    "lists set whole": (LISTS + "row = kinds.Row()", "row.list = range(turn, turn + 20000)", 10, 400, 2),
    "lists set by a slice": (LISTS + "row = kinds.Row(list=range(20000))", "row.list[5:] = range(turn, turn + 20000)", 10, 400, 2),
    "copies edited": ("state = deneb.BeaconState()", "other = state.copy(); other.slot = turn; other.hash_tree_root()", 10, 5000, 1.5),
    "elements set": (LISTS + "row = kinds.Row(list=range(1 << 17))", "row.list[turn * 7919 % (1 << 17)] += 1", 10, 40000, 2),
    "elements appended and popped": (LISTS + "row = kinds.Row(list=range(1 << 17))", "row.list.append(turn); row.list.pop()", 10, 20000, 2),
    "extended a little": (LISTS + "row = kinds.Row(list=range(1 << 17))", "row.list.extend([1, 2]); row.list.pop(); row.list.pop()", 10, 5000, 2),
    "edits refused": (LISTS + "row = kinds.Row(list=range(1 << 12))", """
    try:
        row.list[0:2] = [1, -1]
    except ssz.BadValue:
        pass""", 10, 5000, 1.5),
    "bad bytes": (LISTS, """
    try:
        kinds.Box.decode_bytes(data + bytes(9))
    except ssz.InvalidBytes:
        pass""", 10, 200, 1.5),
    "parts": (LISTS + "kind = kinds.type('Box')", "kind.part(data, '/list/7')", 10, 500, 1.5),
    "schemas": (LISTS, "ssz.Schema(kinds.text).Row().list", 10, 1000, 1.5),
}


def peak(before: str, body: str, count: int) -> int:
    """The peak, in KiB, of a process that does the body so many times."""
    lines = "\n".join("    " + line if not line.startswith("    ") else line for line in body.splitlines() if line.strip())
    ran = subprocess.run([sys.executable, "-c", FRAME.format(before=before, body=lines), str(count)], capture_output=True, text=True,
                         env={**os.environ, "PYTHONPATH": PACKAGE})
    assert ran.returncode == 0, ran.stderr
    return int(ran.stdout)


class Memory(unittest.TestCase):
    """Loops whose peaks stop to grow."""

    def test_loops(self) -> None:
        for name, (before, body, few, many, most) in LOOPS.items():
            with self.subTest(name):
                of_few, of_many = peak(before, body, few), peak(before, body, many)
                self.assertLessEqual(of_many, most * of_few, f"{name}: {of_few} KiB, then {of_many} KiB")

    def test_compact(self) -> None:
        schema = ssz.Schema({"ssz": 1, "types": [["Bytes", {"list": [{"list": ["byte", 64]}, 1 << 20]}]]})
        values = [schema.Bytes([bytes(40)] * 1000) for _ in range(3)]
        root, session = values[0].hash_tree_root(), schema._values.session
        del values[1:]
        before = session.nodes()
        schema.compact()
        self.assertLess(session.nodes(), before / 2)
        self.assertEqual((values[0].hash_tree_root(), values[0].to_plain()), (root, [bytes(40)] * 1000))

    def test_no_memory_to_compact_is_not_the_edit_s_error(self) -> None:
        schema = ssz.Schema({"ssz": 1, "types": [["Longs", {"list": ["uint64", 1 << 30]}]]})
        longs, store = schema.Longs(range(10)), schema._values
        longs[2] = 9
        store._most = 0
        store.session.compact = lambda: (_ for _ in ()).throw(ssz.SszError("memory is used up", status=ssz.Status.NO_MEMORY))  # type: ignore[method-assign]
        longs[3] = 7
        self.assertEqual(list(longs), [0, 1, 9, 7, 4, 5, 6, 7, 8, 9])
        self.assertGreater(store._most, 0)
        self.assertRaises(ssz.SszError, schema.compact)


if __name__ == "__main__":
    unittest.main()
