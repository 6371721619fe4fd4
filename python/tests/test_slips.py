"""Slips on the command line: each has a message that says what is wrong, and none ends in a traceback or in silence."""

import contextlib
import io
import os
import re
import shlex
import tempfile
import unittest
from pathlib import Path
from unittest import mock

from ssz import __main__ as command
from ssz.ethereum import deneb

TABLE = Path(__file__).with_name("slips.txt")
ROOT = "0x" + "11" * 32
VALUE = deneb.Checkpoint(epoch=5, root=ROOT)
PROOF = str(VALUE.prove("/epoch"))
ATTESTATION = deneb.Attestation().encode_bytes()
VALIDATOR = deneb.Validator(slashed=True).encode_bytes()
LIT = f"lit V Checkpoint 0x{VALUE.encode_bytes().hex()}\n"
A = '{"ssz":1,"types":[["A",%s]]}'

#: The files that the table names.
FILES = {
    "value": VALUE.encode_bytes(), "short": VALUE.encode_bytes()[:39], "long": VALUE.encode_bytes() + b"\n",
    "hex": VALUE.encode_bytes().hex().encode(), "value.json": b'{"epoch":5}', "bad.ssz_snappy": b"\x28\x00",
    "checkpoint.json": f'{{"epoch":5,"root":"{ROOT}"}}'.encode(), "validator": VALIDATOR[:88] + b"\x02" + VALIDATOR[89:],
    "attestation": b"\xe5" + ATTESTATION[1:], "empty": b"",
    "bom.json": b"\xef\xbb\xbf" + (A % '"uint8"').encode(), "utf16.json": (A % '"uint8"').encode("utf-16"),
    "comma.json": b'{"ssz":1,\n"types":[["A","uint8"],\n]}', "slip.json": b'{"ssz":1,"types":[["A","unit64"]]}',
    "later.json": b'{"ssz":1,"types":[["A","B"],["B","uint8"]]}', "twice.json": b'{"ssz":1,"types":[["A","uint8"],["A","uint8"]]}',
    "zero.json": (A % '{"vector":["uint8",0]}').encode(), "fields.json": (A % '{"container":[["a","uint8"],["a","uint8"]]}').encode(),
    "wide.json": (A % '{"list":["uint8",1099511627777]}').encode(), "v3.json": b'{"ssz":3,"types":[]}', "list.json": b"[]",
    "proof": PROOF.encode(), "cut.proof": PROOF[:-3].encode(), "two.proof": f"{PROOF}\n{PROOF}".encode(),
    "script": LIT.encode(), "script.missing": f"{LIT}load W Checkpoint {{missing}}\n".encode(), "script.type": b"new V Chekpoint\n",
    "script.name": b"root V\n", "script.path": f"{LIT}bytes V /epok\n".encode(), "script.short": b"lit V Checkpoint 0x05\n",
    "script.save": f"{LIT}save V {{folder}}\n".encode(), "script.word": b"frob V\n",
    "script.json": f"loadjson V Checkpoint {{checkpoint.json}}\n".encode(), "script.badjson": b"loadjson V Checkpoint {value}\n",
    "script.full": b"new W BeaconBlockBody\n" + 17 * (b"append W /voluntary_exits 0x" + 224 * b"0" + b"\n"),
    "script.pop": b"new V BeaconState\npop V /validators\n",
}


def given(room: str) -> dict[str, str]:
    """The files in a folder, by their names in the table."""
    places = {**{name: os.path.join(room, name) for name in FILES}, "missing": os.path.join(room, "none"), "folder": os.path.join(room, "folder"),
              "root": ROOT}
    os.mkdir(places["folder"])
    for name, data in FILES.items():
        filled = re.sub(rb"\{(missing|folder|value|checkpoint\.json)\}", lambda found: places[found[1].decode()].encode(), data)
        Path(places[name]).write_bytes(filled)
    return places


def slips() -> list[tuple[str, str]]:
    """The words of each slip, and what its message has."""
    lines = [line for line in TABLE.read_text().splitlines() if line and not line.startswith("#")]
    return [(words, wanted) for words, _, wanted in (line.rpartition(" => ") for line in lines)]


def said(words: list[str]) -> tuple[int, str]:
    """The status, and what is said on both streams."""
    err, out = io.StringIO(), io.TextIOWrapper(io.BytesIO(), write_through=True)
    with contextlib.redirect_stderr(err), contextlib.redirect_stdout(out), mock.patch("sys.stdin", io.TextIOWrapper(io.BytesIO())):
        try:
            status = command.main(words)
        except SystemExit as ended:
            status = int(ended.code or 0)
    return status, out.buffer.getvalue().decode("utf-8", "replace") + err.getvalue()  # type: ignore[attr-defined]


class Slips(unittest.TestCase):
    """Each line of the table."""

    def test_each(self) -> None:
        with tempfile.TemporaryDirectory() as room:
            places = given(room)
            for words, wanted in slips():
                with self.subTest(words):
                    named = re.sub(r"\{([\w.]+)\}", lambda found: places[found[1]], words)
                    status, text = said(shlex.split(named))
                    self.assertIn(wanted, text)
                    self.assertIn(status, (1, 2))
        self.assertGreaterEqual(len(slips()), 150)


if __name__ == "__main__":
    unittest.main()
