"""The command for people: what it prints of right words."""

import contextlib
import io
import json
import os
import shutil
import subprocess
import sys
import tempfile
import unittest
import xml.etree.ElementTree as xml
from hashlib import sha256
from pathlib import Path
from unittest import mock

import ssz
from ssz import __main__ as command
from ssz.command import progress, snappy
from ssz.ethereum import deneb

ROOT = "0x" + "11" * 32
PROGRAM = os.environ.get("SSZ_PROGRAM") or os.path.join(os.environ.get("SSZ_LIB_DIR", ""), "..", "bin", "ssz")


def said(*words: str, given: bytes = b"") -> tuple[int, str]:
    """The status, and what is printed."""
    out = io.TextIOWrapper(io.BytesIO(), write_through=True)
    with contextlib.redirect_stdout(out), mock.patch.object(sys, "stdin", io.TextIOWrapper(io.BytesIO(given))):
        status = command.main(list(words))
    return status, out.buffer.getvalue().decode()  # type: ignore[attr-defined]


class Command(unittest.TestCase):
    """A command each."""

    def setUp(self) -> None:
        room = tempfile.TemporaryDirectory()
        self.addCleanup(room.cleanup)
        self.room = Path(room.name)
        self.state = deneb.BeaconState(slot=5, finalized_checkpoint={"epoch": 3, "root": ROOT})
        for number in range(12):
            self.state.balances.append(number)
        self.file = self.write("state.ssz", self.state.encode_bytes())

    def write(self, name: str, data: bytes) -> str:
        (self.room / name).write_bytes(data)
        return str(self.room / name)

    def test_check(self) -> None:
        wanted = f"valid: BeaconState in {len(self.state.encode_bytes()):,} bytes, root 0x{self.state.hash_tree_root().hex()}\n"
        self.assertEqual(said("check", "deneb", "BeaconState", self.file), (0, wanted))

    def test_inputs(self) -> None:
        data = bytes(range(16))
        wanted = said("check", "deneb", "Fork", self.write("fork.ssz", data))
        self.assertEqual(wanted[0], 0)
        self.assertEqual(said("check", "deneb", "Fork", "-", given=data), wanted)
        self.assertEqual(said("check", "deneb", "Fork", "0x" + data.hex()), wanted)
        self.assertEqual(said("check", "deneb", "Fork", "--hex", self.write("fork.hex", data.hex(" ", 4).encode())), wanted)
        self.assertEqual(said("check", self.write("s.json", deneb.text), "Fork", "0x" + data.hex()), wanted)

    def test_decode_and_encode(self) -> None:
        status, text = said("decode", "deneb", "BeaconState", self.file)
        self.assertEqual((status, json.loads(text)["finalized_checkpoint"]), (0, {"epoch": 3, "root": ROOT}))
        made = str(self.room / "again.ssz")
        self.assertEqual(said("encode", "deneb", "BeaconState", self.write("state.json", text.encode()), "-o", made), (0, ""))
        self.assertEqual(Path(made).read_bytes(), self.state.encode_bytes())
        self.assertEqual(said("decode", "deneb", "BeaconState", self.file, "/finalized_checkpoint", "--short"),
                         (0, f'{{"epoch":3,"root":"{ROOT}"}}\n'))
        self.assertEqual(said("encode", "deneb", "Checkpoint", f'{{"epoch": 3, "root": "{ROOT}"}}'), (0, "0x0300000000000000" + ROOT[2:] + "\n"))

    def test_tree(self) -> None:
        status, text = said("tree", "deneb", "BeaconState", self.file, "--depth", "2")
        rows = {line.split()[0]: line.split() for line in text.splitlines()}
        self.assertEqual(rows["/finalized_checkpoint/root"][1:4], ["105", "2687345..2687377", "Vector[byte,"])
        self.assertEqual(rows["/slot"][1:], ["34", "40..48", "uint64", "5"])
        self.assertEqual(rows["/balances/..:"][1:3], ["4", "more"])

    def test_show(self) -> None:
        status, text = said("show", "deneb", "BeaconState", self.file, "/finalized_checkpoint/root")
        self.assertEqual(status, 0)
        drawing = xml.fromstring(text)
        titles = [each.text or "" for each in drawing.iter("{http://www.w3.org/2000/svg}title")]
        self.assertEqual(len(titles), 13)
        self.assertIn(f"root BeaconState 1 0x{self.state.hash_tree_root().hex()}", titles)
        self.assertIn(f"leaf /root 105 {ROOT}", titles)

    def test_diff(self) -> None:
        other = self.state.copy()
        other.slot = 6
        other.balances[11] = 7
        other.balances.append(8)
        file = self.write("other.ssz", other.encode_bytes())
        self.assertEqual(said("diff", "deneb", "BeaconState", self.file, file),
                         (1, "/slot: 5 -> 6\n/balances/11: 11 -> 7\n/balances/12: none -> 8\n"))
        self.assertEqual(said("diff", "deneb", "BeaconState", self.file, self.file), (0, ""))

    def test_branch(self) -> None:
        status, text = said("branch", "deneb", "BeaconState", self.file, "/finalized_checkpoint/root")
        found = json.loads(text)
        self.assertEqual((status, found["index"], found["leaf"], len(found["branch"])), (0, 105, ROOT, 6))
        status, line = said("branch", "105", found["leaf"], *found["branch"])
        self.assertEqual(status, 0)
        self.assertTrue(ssz.verify(self.state.hash_tree_root(), line))
        self.assertEqual(said("branch", self.write("proof.txt", line.encode())), (0, text))

    def test_api_json(self) -> None:
        status, text = said("api-json", "deneb", "BeaconState", self.file)
        self.assertEqual((status, json.loads(text)["slot"]), (0, "5"))
        wrapped = self.write("api.json", json.dumps({"version": "deneb", "data": json.loads(text)}).encode())
        made = str(self.room / "api.ssz")
        self.assertEqual(said("api-json", "--back", "deneb", "BeaconState", wrapped, "-o", made), (0, ""))
        self.assertEqual(Path(made).read_bytes(), self.state.encode_bytes())

    def test_root(self) -> None:
        self.assertEqual(said("root", "deneb", "BeaconState", self.file), (0, f"0x{self.state.hash_tree_root().hex()}\n"))
        checkpoint = "0x" + sha256((3).to_bytes(32, "little") + bytes.fromhex(ROOT[2:])).hexdigest() + "\n"
        self.assertEqual(said("root", "deneb", "BeaconState", self.file, "/finalized_checkpoint"), (0, checkpoint))
        self.assertEqual(said("root", "deneb", "BeaconState", self.file, "/balances/5"), (0, f"0x05{'00' * 31}\n"))
        self.assertEqual(said("part", "deneb", "BeaconState", self.file, "/balances/5"), (0, f"0x05{'00' * 7}\n"))

    def test_prove_and_verify(self) -> None:
        root = f"0x{self.state.hash_tree_root().hex()}"
        status, proof = said("prove", "deneb", "BeaconState", self.file, "/slot", "/finalized_checkpoint/root")
        self.assertEqual((status, proof[:9]), (0, "proof 34="))
        places = self.write("p.proof", proof.encode()), self.write("root.txt", f"root {root}\n".encode())
        for words in ((root, places[0]), (places[1], places[0]), (root, proof.rstrip()), (root, "-")):
            self.assertEqual(said("verify", *words, given=proof.encode()), (0, "valid: the proof leads to the root\n"))
        self.assertEqual(said("verify", ROOT, places[0]), (1, "invalid: the proof leads to another root\n"))

    def test_gindex(self) -> None:
        self.assertEqual(said("gindex", "deneb", "BeaconState", "/finalized_checkpoint/root"), (0, "105\n"))
        self.assertEqual(said("gindex", "deneb", "BeaconState", "/slot", "/fork"), (0, "/slot 34\n/fork 35\n"))

    def test_types(self) -> None:
        rows = [line.split() for line in said("types", "deneb")[1].splitlines()]
        self.assertIn(["Checkpoint", "40", "Container", "of", "2", "fields"], rows)
        self.assertEqual(said("types", "deneb", "Checkpoint")[1].splitlines()[2].split(), ["root", "32", "Vector[byte,", "32]"])
        text = json.dumps({"ssz": 1, "types": [["V", {"vector": [{"union": ["uint16", {"bitlist": 9}]}, 3]}], ["L", {"list": ["V", 2]}]]})
        rows = [line.split()[:4] for line in said("types", self.write("s.json", text.encode()))[1].splitlines()]
        self.assertEqual(rows[1:], [["V", "18", "or", "more"], ["L", "0", "or", "more"]])

    def test_run(self) -> None:
        saved = str(self.room / "out.ssz")
        lines = ["# a script", "", "lit V Checkpoint 0x" + "05" + "00" * 39, f"load S BeaconState {self.file}", "root S", "root W",
                 "set V /epoch 0x00", "json V /", f"save V {saved}", f"load W Checkpoint {saved}", f"loadjson X Checkpoint {self.room}/x.json",
                 f"loadjson Y Checkpoint {self.room}/y.json", f"load Z Checkpoint {self.file}", "root X\r"]
        self.write("x.json", said("run", "deneb", self.write("j", "\n".join([lines[2], lines[7]]).encode()))[1][8:].rstrip("\n").encode())
        self.write("y.json", b'{"epoch":7}')
        script = self.write("script", "\n".join(lines).encode())
        err = io.StringIO()
        with contextlib.redirect_stderr(err):
            status, text = said("run", "deneb", script)
        self.assertEqual((status, text.splitlines()[2]), (1, f"root 0x{self.state.hash_tree_root().hex()}"))
        self.assertIn("ssz: line 7: set V /epoch 0x00: the bytes end too soon", err.getvalue())
        if os.path.exists(PROGRAM):
            ran = subprocess.run([PROGRAM, "run", self.write("deneb.json", deneb.text), script], capture_output=True, text=True)
            self.assertEqual(text, ran.stdout)

    def test_a_file_named_as_standard_input(self) -> None:
        err = io.StringIO()
        with contextlib.redirect_stderr(err):
            found = said("run", "deneb", self.write("script", b"load V Checkpoint -\n"), given=bytes(40))
        self.assertEqual(found, (1, ""))
        self.assertIn("line 1: ./-: there is no such file", err.getvalue())

    def test_out_of_memory_ends_a_run(self) -> None:
        lacks = ssz.SszError("memory is used up", status=ssz.Status.NO_MEMORY)
        err = io.StringIO()
        with contextlib.redirect_stderr(err), mock.patch.object(ssz.Session, "run", side_effect=lacks):
            self.assertEqual(said("run", "deneb", self.write("script", b"list\nlist\n")), (1, ""))
        self.assertIn("line 1: memory is used up", err.getvalue())

    def test_run_names_the_line_of_a_file(self) -> None:
        script = self.write("script", f"new V Fork\nload W Fork {self.room}/none.ssz\nroot V\n".encode())
        err = io.StringIO()
        with contextlib.redirect_stderr(err):
            self.assertEqual(said("run", "deneb", script), (1, "ok\n"))
        for word in (f"{script}, line 2", "none.ssz", "no such file", "before it were done"):
            self.assertIn(word, err.getvalue())

    def test_version(self) -> None:
        out = io.StringIO()
        with self.assertRaises(SystemExit) as ended, contextlib.redirect_stdout(out):
            command.main(["--version"])
        self.assertEqual((ended.exception.code, out.getvalue().splitlines()[0]), (0, f"ssz {ssz.__version__} for Python"))
        self.assertIn(f"libssz {ssz.__version__} for x86-64-v", out.getvalue())

    @unittest.skipUnless(shutil.which("bash"), "no bash")
    def test_completion(self) -> None:
        file = self.write("completion", said("completion", "bash")[1].encode())
        ran = subprocess.run(["bash", "-c", f". {file}; COMP_WORDS=(ssz-py ch); COMP_CWORD=1; _ssz_py; echo ${{COMPREPLY[*]}}"],
                             capture_output=True, text=True)
        self.assertEqual((ran.stdout, ran.stderr), ("check\n", ""))

    def test_help_has_examples(self) -> None:
        for name in [*command._COMMANDS, "spec-tests", "completion"]:
            ran = subprocess.run([sys.executable, "-m", "ssz", name, "--help"], capture_output=True, text=True,
                                 env={"PYTHONPATH": str(Path(ssz.__file__).parents[1])})
            self.assertIn("example:\n  python -m ssz " + name, ran.stdout)

    def test_progress_after_a_second(self) -> None:
        err = io.StringIO()
        with contextlib.redirect_stderr(err):
            with progress.Progress("hashing", 3) as work:
                work.step()
                work._ended.wait(1.2)
        self.assertIn("ssz: hashing, 1 of 3, 1 s", err.getvalue())


class SpecTests(unittest.TestCase):
    """A folder as the archives of the specifications' test vectors have it."""

    def setUp(self) -> None:
        room = tempfile.TemporaryDirectory()
        self.addCleanup(room.cleanup)
        self.tests = Path(room.name) / "tests"

    def case(self, place: str, data: bytes, root: bytes, value: str = "") -> None:
        folder = self.tests / place
        folder.mkdir(parents=True)
        (folder / "serialized.ssz_snappy").write_bytes(block(data))
        (folder / "roots.yaml").write_text(f"{{root: '0x{root.hex()}'}}\n")
        if value:
            (folder / "value.yaml").write_text(value)

    def test_a_folder(self) -> None:
        checkpoint = deneb.Checkpoint(epoch=3, root=ROOT)
        data, root = checkpoint.encode_bytes(), checkpoint.hash_tree_root()
        self.case("mainnet/deneb/ssz_static/Checkpoint/ssz_random/case_0", data, root, f"{{epoch: 3, root: '{ROOT}'}}\n")
        self.case("mainnet/deneb/ssz_static/Checkpoint/ssz_random/case_1", data, bytes(32))
        self.case("mainnet/deneb/ssz_static/Unknown/ssz_random/case_0", data, root)
        self.case("general/phase0/ssz_generic/boolean/invalid/byte_2", b"\2", bytes(32))
        self.case("general/phase0/ssz_generic/basic_vector/invalid/vec_uint8_0", b"", bytes(32))
        status, text = said("spec-tests", str(self.tests))
        self.assertEqual(text.splitlines(), [
            f"mainnet/deneb/ssz_static/Checkpoint/ssz_random/case_1: the root is 0x{root.hex()}",
            "left out: mainnet/deneb/Unknown: no type of this name (1)",
            "3 passed, 1 failed",
        ])
        self.assertEqual(status, 1)

    def test_snappy(self) -> None:
        # a literal of 4 bytes, and a copy of 6 from 4 behind
        packed = bytes([10, 3 << 2]) + b"abcd" + bytes([(6 - 4) << 2 | 1, 4])
        self.assertEqual(snappy._decompressed(packed), b"abcdabcdab")
        self.assertEqual(snappy.decompress(packed), b"abcdabcdab")
        for bad in (b"", packed[:-1], bytes([9]) + packed[1:], bytes([4, 1, 9])):
            with self.assertRaises(ValueError):
                snappy._decompressed(bad)


def block(data: bytes) -> bytes:
    """A snappy block of one literal of at most 60 bytes."""
    return bytes([len(data)]) + (bytes([(len(data) - 1) << 2]) + data if data else b"")


if __name__ == "__main__":
    unittest.main()
