"""Mistakes of users, a kind each, and what the messages must say: what is wrong, where, and what to do."""

import contextlib
import io
import os
import subprocess
import sys
import tempfile
import unittest
from pathlib import Path

import ssz
from ssz import __main__ as command
from ssz.ethereum import deneb

TYPES = {"ssz": 1, "types": [
    ["Pair", {"container": [["a", "uint16"], ["b", {"list": ["uint8", 4]}]]}],
    ["Two", {"container": [["x", {"list": ["uint8", 4]}], ["y", {"list": ["uint8", 4]}]]}],
    ["Flag", {"container": [["n", "uint64"], ["is_set", "boolean"]]}],
    ["Numbers", {"list": ["uint64", 3]}],
    ["Bits", {"bitvector": 4}],
    ["Marks", {"bitlist": 4}],
    ["Choice", {"union": [None, "uint64"]}],
]}
kinds = ssz.Schema(TYPES)


def said(*words: str) -> str:
    """What the command says of words, on either stream."""
    out, err = io.StringIO(), io.StringIO()
    with contextlib.redirect_stdout(out), contextlib.redirect_stderr(err):
        try:
            command.main(list(words))
        except SystemExit:
            pass
    return out.getvalue() + err.getvalue()


def decoded(kind: str, digits: str) -> object:
    return lambda: kinds[kind].decode_bytes(bytes.fromhex(digits))


def assigned(value: object, name: str, given: object) -> object:
    return lambda: setattr(value, name, given)


#: What is done, and what the message must have.
CALLS = [
    ("a schema that is no JSON", lambda: ssz.Schema('{"ssz":1,\n"types":[],}'), ["no JSON", "S1", "line 2, column 12", "comma"]),
    ("a schema after a byte order mark", lambda: ssz.Schema(b'\xef\xbb\xbf{"ssz":1,"types":[]}'), ["S1", "byte order mark", "UTF-8"]),
    ("a schema in UTF-16", lambda: ssz.Schema('{"ssz":1,"types":[]}'.encode("utf-16")), ["S1", "UTF-16"]),
    ("an empty schema", lambda: ssz.Schema(""), ["S1", "empty"]),
    ("a name that is not defined", lambda: ssz.Schema({"ssz": 1, "types": [["Root", "uint8"], ["B", {"list": ["Rot", 4]}]]}),
     ["S5", "Rot,", "definition 1 (B)", "Did you mean Root?"]),
    ("a definition with two fields of one name", lambda: ssz.Schema({"ssz": 1, "types": [["B", {"container": [["a", "byte"], ["a", "byte"]]}]]}),
     ["S10", "definition 0 (B)"]),
    ("bits as scripts have them", lambda: kinds.Marks("101"), ["0x and the digits", "loadjson"]),
    ("a number as scripts have it", lambda: kinds.Choice(1, "0x" + "05" * 8), ["a whole number", "uint256", "loadjson"]),
    ("a value's text that is no JSON", lambda: deneb.type("Fork").of_json('{"epoch":"1",}'), ["J1", "line 1, column 14"]),
    ("a value's JSON with numbers", lambda: deneb.type("Checkpoint").of_json('{"epoch":1,"root":"0x00"}'), ["J2 Kind", "strings", "encode reads"]),
    ("JSON that is no schema", lambda: ssz.Schema('{"ssz":"1","types":[]}'), ["no schema", "S2", '"types"']),
    ("a slip in a definition", lambda: ssz.Schema({"ssz": 1, "types": [["A", "uint8"], ["B", "unit64"]]}),
     ["not defined", "S5", "definition 1", "spelling"]),
    ("a type of another case", lambda: deneb.Beaconstate, ["Beaconstate", "Did you mean BeaconState?"]),
    ("bytes that are cut off", decoded("Flag", "0100"), ["Flag", "end too soon", "F1 Short", "9 bytes", "2 were given"]),
    ("bytes behind the value", decoded("Flag", "07000000000000000100"), ["Flag", "bytes follow", "F2 Extra", "at byte 9"]),
    ("a boolean that is 2", decoded("Flag", "070000000000000002"), ["boolean", "F3 BadBool", "at byte 8", "/is_set"]),
    ("a first offset that is wrong", decoded("Pair", "00000700000000"), ["offset", "F4 FirstOffset", "at byte 2"]),
    ("an offset behind the end", decoded("Two", "08000000ff000000"), ["behind the end", "F5 OffsetRange", "at byte 4"]),
    ("offsets out of order", decoded("Two", "0800000007000000"), ["below the one before", "F6 OffsetOrder", "at byte 4"]),
    ("a list of broken elements", decoded("Numbers", "0102"), ["whole number of elements", "F7 Ragged", "Numbers"]),
    ("a list above its limit", decoded("Numbers", "00" * 32), ["limit", "F8 TooMany", "preset"]),
    ("bits behind a bitvector", decoded("Bits", "1f"), ["bitvector", "F9 PaddingBits", "at byte 0"]),
    ("a bitlist without its end", decoded("Marks", "00"), ["bitlist", "F10 NoDelimiter", "01"]),
    ("an option that is not there", decoded("Choice", "02"), ["union", "F11 BadSelector", "counted from 0"]),
    ("a field that is misspelt", lambda: deneb.Validator().efective_balance, ["Validator", "efective_balance", "effective_balance?"]),
    ("a field that is set, misspelt", assigned(deneb.Validator(), "slashd", True), ["Validator", "slashd", "slashed?"]),
    ("a field by keyword, misspelt", lambda: deneb.Checkpoint(epok=1), ["Checkpoint", "epok", "epoch?"]),
    ("a number out of range", assigned(deneb.Checkpoint(), "epoch", -1), ["-1", "/epoch", "from 0 to 18446744073709551615"]),
    ("a text for a number", assigned(deneb.Checkpoint(), "epoch", "five"), ["'five'", "uint64", "/epoch", "whole number"]),
    ("a root of 31 bytes", assigned(deneb.Checkpoint(), "root", bytes(31)), ["/root", "32", "31"]),
    ("no hexadecimal digits", assigned(deneb.Checkpoint(), "root", "0xzz"), ["0xzz", "/root", "hexadecimal digits"]),
    ("a value of another type", assigned(deneb.BeaconState(), "fork", deneb.Checkpoint()), ["Checkpoint", "Fork", "/fork"]),
    ("an element that is not there", lambda: deneb.BeaconState().balances[7], ["no element 7", "There are 0", "/balances"]),
    ("a part of an element that is not there", lambda: deneb.BeaconState().prove("validators"), ["path", "begins with /"]),
    ("a list that is full", lambda: kinds.Numbers([1, 2, 3]).append(4), ["Numbers", "limit", "8 Full"]),
    ("a list that is empty", lambda: kinds.Numbers().pop(), ["Numbers", "empty", "9 Empty"]),
    ("a path of another type", lambda: deneb.type("BeaconState").gindex("/validator/7"), ["/validator/7", "does not fit", "Name fields"]),
    ("parts in one another", lambda: deneb.BeaconState().prove("/fork", "/fork/epoch"), ["in the other", "14 Nested"]),
    ("a field that JSON lacks", lambda: deneb.Checkpoint.from_obj({"epoch": 1}), ["Checkpoint", "root is missing", "epoch, root"]),
    ("a field that JSON has too much", lambda: deneb.Checkpoint.from_obj({"epoch": 1, "root": "0x" + "00" * 32, "slot": 2}),
     ["Checkpoint", "no field slot"]),
    ("no proof", lambda: ssz.verify(bytes(32), "hello"), ["multiproof", "proof INDEX=0x"]),
    ("a proof that lacks a node", lambda: ssz.verify(bytes(32), f"proof 4=0x{'00' * 32} / 3=0x{'00' * 32}"), ["multiproof", "exactly the nodes"]),
    ("a root of another length", lambda: ssz.verify(bytes(31), f"proof 2=0x{'00' * 32} / 3=0x{'00' * 32}"), ["32 bytes", "64 hexadecimal digits"]),
    ("a branch of another depth", lambda: ssz.Proof.of_branch(105, bytes(32), [bytes(32)] * 5), ["105", "6 nodes", "5 were given"]),
    ("a version that is not there", lambda: deneb.session().root("V"), ["no version of this name"]),
    ("a fault deep in a block", lambda: deneb.SignedBeaconBlock.decode_bytes(block(384)),
     ["SignedBeaconBlock", "F4 FirstOffset", "at byte 384", "/message/body"]),
    ("a fault in an element", lambda: deneb.SignedBeaconBlock.decode_bytes(block(580)), ["F4 FirstOffset", "/message/body/attestations/0"]),
    ("a session that is closed", lambda: closed().root("V"), ["closed", "Make a new one"]),
]


def block(place: int) -> bytes:
    """The bytes of a block with an attestation, of which one is another one."""
    made = deneb.SignedBeaconBlock()
    made.message.body.attestations.append(deneb.Attestation())
    data = bytearray(made.encode_bytes())
    data[place] ^= 0x5A
    return bytes(data)


def closed() -> ssz.Session:
    session = deneb.session()
    session.close()
    return session


class Calls(unittest.TestCase):
    """Mistakes in calls."""

    def test_each(self) -> None:
        for name, does, wanted in CALLS:
            with self.subTest(name):
                with self.assertRaises((ssz.SszError, AttributeError, ValueError)) as caught:
                    does()
                for word in wanted:
                    self.assertIn(word, str(caught.exception))

    def test_there_are_thirty(self) -> None:
        self.assertGreaterEqual(len(CALLS), 30)

    def test_the_library_is_missing(self) -> None:
        ran = subprocess.run([sys.executable, "-c", "import ssz; ssz.Schema('{}')"], capture_output=True, text=True,
                             env={**os.environ, "SSZ_LIB_DIR": "/nowhere", "PYTHONPATH": str(Path(ssz.__file__).parents[1])})
        for word in ("/nowhere/libssz.so.0", "./install PREFIX", "SSZ_LIB_DIR"):
            self.assertIn(word, ran.stderr)


class Words(unittest.TestCase):
    """Mistakes on the command line."""

    def setUp(self) -> None:
        self._room = tempfile.TemporaryDirectory()
        self.addCleanup(self._room.cleanup)

    def file(self, name: str, text: str) -> str:
        path = Path(self._room.name) / name
        path.write_text(text)
        return str(path)

    def check(self, words: list[str], *wanted: str) -> None:
        text = said(*words)
        self.assertNotRegex(text, r"\w\.\.\n")
        for word in wanted:
            self.assertIn(word, text)

    def test_a_fork_is_misspelt(self) -> None:
        self.check(["check", "denib", "Fork", "0x00"], "denib", "no such file", "deneb")

    def test_a_schema_that_is_none(self) -> None:
        self.check(["check", self.file("s.json", "{,}"), "Fork", "0x00"], "s.json", "no schema", "S1")

    def test_a_type_is_misspelt(self) -> None:
        self.check(["check", "deneb", "Forks", "0x00"], "Forks", "no such type", "Did you mean Fork?")

    def test_a_file_that_is_not_there(self) -> None:
        self.check(["check", "deneb", "Fork", "fork.ssz"], "fork.ssz", "no such file", os.getcwd())

    def test_a_folder_for_a_file(self) -> None:
        self.check(["check", "deneb", "Fork", self._room.name], self._room.name, "folder")

    def test_digits_in_a_file(self) -> None:
        self.check(["check", "deneb", "Fork", self.file("fork.hex", "00" * 16 + "\n")], "fork.hex", "F2 Extra", "--hex")

    def test_digits_that_are_none(self) -> None:
        self.check(["check", "deneb", "Fork", "0x0g"], "'g'", "no hexadecimal digit")

    def test_an_odd_number_of_digits(self) -> None:
        self.check(["check", "deneb", "Fork", "0x000"], "3 digits", "two make a byte")

    def test_text_that_is_no_json(self) -> None:
        self.check(["encode", "deneb", "Fork", "{no}"], "{no}", "no JSON", "line 1 column 2")

    def test_json_with_a_member_twice(self) -> None:
        root = '"root": "0x' + 64 * "0" + '"'
        self.check(["encode", "deneb", "Checkpoint", f'{{"epoch": 1, "epoch": 2, {root}}}'], "no JSON", "'epoch' twice")

    def test_json_that_is_too_deep(self) -> None:
        self.check(["encode", "deneb", "Fork", self.file("deep.json", 100_000 * "[")], "deep.json", "too deep")

    def test_json_of_another_type(self) -> None:
        self.check(["encode", "deneb", "Fork", '{"epoch": 1}'], "no Fork", "previous_version is missing")

    def test_digits_of_another_length(self) -> None:
        for bits, other in (("0x01020304050607", "0x0803"), ("0x010203040506070809", "0x"), ("0x0102030405060708", "0x18")):
            words = f'{{"seq_number": 1, "attnets": "{bits}", "syncnets": "{other}"}}'
            self.check(["encode", "deneb", "MetaData", words], "no MetaData", "nets: ", "Give the digits of")

    def test_a_path_that_leads_nowhere(self) -> None:
        self.check(["show", "deneb", "Fork", "0x" + "00" * 16, "/slot"], "Fork /slot", "does not fit the type")

    def test_a_command_that_is_none(self) -> None:
        self.check(["chek", "deneb"], "chek", "check")

    def test_a_word_that_is_missing(self) -> None:
        self.check(["check", "deneb"], "usage", "TYPE, VALUE")

    def test_a_branch_of_other_words(self) -> None:
        self.check(["branch", "105", "0x00"], "0x00", "no chunk", "64 hexadecimal digits")

    def test_a_proof_that_is_none(self) -> None:
        self.check(["branch", self.file("p.txt", "hello")], "p.txt", "no proof of one place")

    def test_a_folder_without_cases(self) -> None:
        self.check(["spec-tests", self._room.name], self._room.name, "no case", "serialized.ssz_snappy")


if __name__ == "__main__":
    unittest.main()
