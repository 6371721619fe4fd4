"""What is taken as a value, and what is refused: the table of README, each case a line."""

from __future__ import annotations

import ctypes
import unittest
from array import array
from decimal import Decimal
from typing import Any

import ssz

try:
    import numpy
except ImportError:
    numpy = None  # type: ignore[assignment]

kinds = ssz.Schema({"ssz": 1, "types": [
    ["Bytes", {"list": ["byte", 9]}],
    ["Small", {"list": ["uint8", 9]}],
    ["Shorts", {"list": ["uint16", 9]}],
    ["Longs", {"list": ["uint64", 9]}],
    ["Wide", {"list": ["uint256", 4]}],
    ["Truths", {"list": ["boolean", 9]}],
    ["Marks", {"bitlist": 9}],
    ["Four", {"bitvector": 4}],
    ["Quads", {"list": [{"bitvector": 4}, 3]}],
    ["Three", {"vector": ["uint64", 3]}],
    ["Row", {"container": [["n", "uint8"]]}],
    ["Rows", {"list": ["Row", 4]}],
    ["Choice", {"union": [None, "uint64", {"list": ["uint16", 4]}]}],
    ["Mixed", {"container": [["k", {"bitvector": 4}], ["n", "uint16"], ["m", {"bitvector": 12}]]}],
    ["Point", {"container": [["x", "uint64"], ["set", "boolean"]]}],
]})


class Lying:
    """Its length is another number than that of its bytes, of which it is no buffer."""

    def __len__(self) -> int:
        return 100_000

    def __bytes__(self) -> bytes:
        return b"\1\2"


class Long(bytes):
    """Bytes that say that they are longer."""

    def __len__(self) -> int:
        return 100_000


#: A type, an object, and the encoding that it is.
TAKEN: list[tuple[str, Any, str]] = [
    ("Longs", [1, 2], "01000000000000000200000000000000"),
    ("Longs", iter([1, 2]), "01000000000000000200000000000000"),
    ("Longs", range(1, 3), "01000000000000000200000000000000"),
    ("Longs", array("H", [1, 2]), "01000000000000000200000000000000"),
    ("Longs", ["1", 2], "01000000000000000200000000000000"),
    ("Shorts", array("B", [1, 2]), "01000200"),
    ("Shorts", array("H", [1, 2]), "01000200"),
    ("Small", b"\1\2", "0102"),
    ("Small", bytearray(b"\1\2"), "0102"),
    ("Small", memoryview(b"\1\2\3\4")[::2], "0103"),
    ("Small", "0x0102", "0102"),
    ("Bytes", "0x0102", "0102"),
    ("Bytes", [1, 2], "0102"),
    ("Bytes", array("H", [1, 2]), "0102"),
    ("Bytes", memoryview(array("H", [1, 2])), "0102"),
    ("Wide", [1 << 255], "00" * 31 + "80"),
    ("Truths", [True, 0, 1, False], "01000100"),
    ("Marks", [True, 0, 1], "0d"),
    ("Marks", [], "01"),
    ("Marks", "0x0d", "0d"),
    ("Marks", "0xff03", "ff03"),
    ("Four", "0x0f", "0f"),
    ("Four", iter([1, 0, 0, True]), "09"),
    ("Quads", ["0x0f", [0, 1, 0, 0]], "0f02"),
    ("Choice", (1, 7), "010700000000000000"),
    ("Choice", ["2", [1]], "020100"),
    ("Choice", {"selector": 0, "value": None}, "00"),
    ("Mixed", {"k": "0x01", "n": "513", "m": "0xff0f"}, "010102ff0f"),
]

#: A type, and an object that is none of its values.
REFUSED: list[tuple[str, Any]] = [
    *(("Longs", [item]) for item in (True, False, 1.0, Decimal(1), "007", " 7", "+7", "-1", "0x7", "٧", b"7", None, -1, 1 << 64, [1], "9" * 5000)),
    *(("Longs", value) for value in ({3, 1}, frozenset((1,)), {1: 2}, {1: 2}.keys(), "12", b"\1" * 8, bytearray(8), memoryview(bytes(8)), 7, None)),
    *(("Shorts", value) for value in (b"\1\2", bytearray(b"\1\2"), memoryview(b"\1\2"), "0x0102", array("h", [-1]))),
    *(("Wide", value) for value in (b"\1" * 32, [True], ["01"])),
    *(("Bytes", value) for value in ({1, 2}, {1: 2}, [True, 2], "0102", "0x01 02", "0x1", "0x0g", "0x٠٠", [256], [-1], [b"1"], array("b", [-1]))),
    *(("Small", value) for value in ({1, 2}, {1: 2}, [True], ["1.0"], "0x 01", bytes(10))),
    *(("Truths", [item]) for item in (1.0, Decimal(1), 2, -1, "true", "1", None, b"\1")),
    *(("Marks", value) for value in ([1.0], [Decimal(0)], [2], ["1"], {0, 1}, {0: 1}, b"\1", bytearray(b"\1"), "01", "0x", "0x00", "0x0100", "0xffff", [1] * 10)),
    *(("Four", value) for value in ("0x", "0x1f", "0x0f00", [1, 0, 0], [1] * 5, b"\x0f", "1111")),
    *(("Quads", [item]) for item in ("0x", "0x0102", "0x10", b"\x0f")),
    *(("Three", value) for value in ([1, 2], [1, 2, 3, 4], (n for n in (1, 2)), {1, 2, 3})),
    *(("Rows", value) for value in (b"\1\2", [b"\1"], [{"n": 1, "m": 2}], [{}], [1], {"n": 1})),
    *(("Choice", (item, 7)) for item in (1.9, True, b"1", " +1 ", "01", Decimal(1), 3, -1, None)),
    *(("Choice", value) for value in ((0.5, None), (0, 7), (1,), (1, 7, 8), {"selector": 1}, {"selector": 1, "value": 7, "x": 0}, "17", {1, 7})),
    *(("Mixed", {"k": k, "n": 513, "m": m}) for k, m in (("0x", "0x030405"), ("0x0102", "0x03"), ("0x01", "0x0102f3"), ("0x01", "0x"))),
    *(("Point", value) for value in ({"x": 1}, {"x": 1, "set": True, "y": 2}, {"x": 1, "set": 1.0}, {"x": True, "set": True}, [1, True], kinds.Point)),
]


class Values(unittest.TestCase):
    """Objects as values."""

    def test_taken(self) -> None:
        for name, value, wanted in TAKEN:
            with self.subTest(f"{name} {value!r}"):
                self.assertEqual(kinds.type(name).encode_bytes(value).hex(), wanted)

    def test_refused(self) -> None:
        for name, value in REFUSED:
            with self.subTest(f"{name} {value!r}"):
                self.assertRaises(ssz.BadValue, kinds.type(name).encode_bytes, value)

    def test_numbers_and_truths_alone(self) -> None:
        point = kinds.Point(x=5, set=True)
        for name, values in (("x", (True, 1.0, "05", " 5", Decimal(5), b"5", None)), ("set", (1.0, "true", Decimal(1), 2, None, b"\1"))):
            for value in values:
                with self.subTest(f"{name} {value!r}"):
                    self.assertRaises(ssz.BadValue, setattr, point, name, value)
        self.assertEqual((point.x, point.set), (5, True))
        point.x, point.set = "7", 0
        self.assertEqual((point.x, point.set), (7, False))

    def test_views_and_types(self) -> None:
        rows = kinds.Rows([{"n": 1}])
        self.assertEqual(kinds.Rows(rows).encode_bytes(), b"\1")
        self.assertEqual(kinds.Rows([rows[0], {"n": 2}]).encode_bytes(), b"\1\2")
        for value in (kinds.Row, kinds.type("Row"), kinds.Longs([1]), kinds.Row(n=3)):
            self.assertRaises(ssz.BadValue, kinds.Rows.from_obj, value)

    def test_selectors(self) -> None:
        choice = kinds.Choice(1, 7)
        for selector in (1.9, True, b"1", " +1 ", "01", Decimal(1), 0.5, 3, -1, None):
            with self.subTest(repr(selector)):
                self.assertRaises(ssz.BadValue, choice.choose, selector, 8)
        self.assertEqual((choice.selector, choice.value), (1, 7))

    def test_a_field_named_as_a_method(self) -> None:
        names = ["encode_bytes", "to_plain", "copy", "decode_bytes", "hash_tree_root", "cls", "self", "fields", "prove", "from_obj"]
        named = ssz.Schema({"ssz": 1, "types": [["T", {"container": [[name, "uint8"] for name in names]}]]}).T
        value = named(**{name: number for number, name in enumerate(names)})
        self.assertEqual(value.encode_bytes(), bytes(range(len(names))))
        self.assertEqual([value[name] for name in names], list(range(len(names))))
        self.assertEqual(value, value.copy())
        self.assertEqual(named.decode_bytes(value.encode_bytes()).to_obj(), dict(zip(names, range(len(names)))))
        self.assertEqual((value.cls, value.self), (5, 6))
        with self.assertRaisesRegex(AttributeError, "had in brackets"):
            value.copy = 3

    def test_numpy(self) -> None:
        if numpy is None:
            print("numpy is not here: its arrays were not tried")
            return
        for name, value, wanted in [
            ("Longs", numpy.array([1, 2], "uint64"), "01000000000000000200000000000000"),
            ("Longs", numpy.array([1, 9, 2], "uint64")[::2], "01000000000000000200000000000000"),
            ("Longs", numpy.array([1, 2], ">u2"), "01000000000000000200000000000000"),
            ("Longs", [numpy.uint8(1), 2], "01000000000000000200000000000000"),
            ("Bytes", numpy.array([1, 2], "uint8"), "0102"),
            ("Marks", numpy.array([True, False, True]), "0d"),
            ("Truths", [numpy.bool_(True), 0], "0100"),
        ]:
            with self.subTest(f"{name} {value!r}"):
                self.assertEqual(kinds.type(name).encode_bytes(value).hex(), wanted)
        for name, value in [("Longs", numpy.array([1.0])), ("Longs", numpy.array([-1])), ("Longs", numpy.array([True])),
                            ("Small", [numpy.bool_(True)]), ("Bytes", numpy.array([[1, 2]], "uint8")), ("Marks", numpy.array([1.0]))]:
            with self.subTest(f"{name} {value!r}"):
                self.assertRaises(ssz.BadValue, kinds.type(name).encode_bytes, value)
        for name, value in [("x", numpy.bool_(True)), ("x", numpy.float64(1)), ("set", numpy.float64(1))]:
            self.assertRaises(ssz.BadValue, setattr, kinds.Point(), name, value)
        point = kinds.Point(x=numpy.uint64(9), set=numpy.bool_(True))
        self.assertEqual((point.x, point.set), (9, True))


#: Objects that are bytes, as they stand in memory.
BUFFERS: list[Any] = [
    bytes(range(16)), bytearray(range(16)), memoryview(bytes(range(16))), memoryview(bytearray(range(32)))[:16], Long(range(16)),
    array("B", range(16)), array("Q", [0x0706050403020100, 0x0F0E0D0C0B0A0908]), array("b", range(16)),
    memoryview(bytes(range(16))).cast("B", (4, 4)), (ctypes.c_uint8 * 16)(*range(16)),
]
#: Objects that are none.
NO_BUFFERS: list[Any] = [
    5, True, None, 1.5, "0x00", {1: 2}, [1, 2], (0,) * 16, Lying(), memoryview(bytes(32))[::2], memoryview(bytearray(16))[::-1],
    array("d", [1, 2]), array("f", [1] * 4), kinds.Longs([1, 2]), kinds.Longs, object(), range(16),
]


class Buffers(unittest.TestCase):
    """Objects as bytes: of each call the right answer, or a TypeError."""

    def test_bytes(self) -> None:
        kind, wanted = kinds.type("Longs"), bytes(range(16))
        for data in BUFFERS:
            with self.subTest(repr(data)):
                self.assertEqual(kind.hash_tree_root(data), kind.hash_tree_root(wanted))
                self.assertEqual((kind.part(data, "/"), kind.open(data).part()), (wanted, wanted))
                self.assertEqual(kinds.Longs.decode_bytes(data).encode_bytes(), wanted)
                self.assertEqual(bytes(kind.decode_bytes(data)), wanted)
                kind.check(data)
                with kinds.session() as session:
                    session.load("V", "Longs", data)
                    session.set("V", "/", data)
                    self.assertEqual(session.get("V"), wanted)

    def test_no_bytes(self) -> None:
        kind, session = kinds.type("Longs"), kinds.session()
        session.load("V", "Longs", bytes(16))
        session.new("U", "Choice")
        calls = {
            "check": kind.check, "hash_tree_root": kind.hash_tree_root, "open": kind.open, "decode_bytes": kind.decode_bytes,
            "part": lambda data: kind.part(data, "/"), "class": kinds.Longs.decode_bytes, "decode": lambda data: ssz.decode(data, kinds.Longs),
            "load": lambda data: session.load("W", "Longs", data), "set": lambda data: session.set("V", "/", data),
            "append": lambda data: session.append("V", "/", data), "choose": lambda data: session.choose("U", "/", 1, data),
            "Session": ssz.Session,
        }
        for data in NO_BUFFERS:
            for name, call in calls.items():
                with self.subTest(f"{name} of {data!r}"):
                    self.assertRaises(TypeError, call, data)
        self.assertEqual((session.get("V"), session.names()), (bytes(16), ["U", "V"]))

    def test_a_schema_of_no_bytes(self) -> None:
        for text in (5, None, 1.5, [1], memoryview(bytes(8))[::2]):
            with self.subTest(repr(text)):
                self.assertRaises(TypeError, ssz.Schema, text)

    def test_every_number_of_an_array_goes_in(self) -> None:
        session = kinds.session()
        session.load("V", "Longs", array("Q", range(8)))
        session.set("V", "/", array("Q", range(1, 9)))
        self.assertEqual(list(array("Q", session.get("V"))), list(range(1, 9)))

    def test_texts(self) -> None:
        kind, session = kinds.type("Longs"), kinds.session()
        session.new("V", "Longs")
        for path in (5, None, b"/"):
            for call in (kind.gindex, lambda path: kind.part(b"", path), lambda path: session.get("V", path), kinds.Longs([1]).prove):
                self.assertRaises(TypeError, call, path)
        for path in ("/\ud800", "/\udc80", "/a b", "", " /", "/0 ", "/0\t", "/0\n", "5"):
            with self.subTest(repr(path)):
                self.assertRaises(ssz.BadPath, kind.gindex, path)
                self.assertRaises(ssz.BadPath, session.get, "V", path)
                self.assertRaises(ssz.BadPath, kinds.Longs([1]).prove, path)
        for call in (session.root, session.drop, lambda name: session.new(name, "Longs"), lambda name: session.fork("V", name)):
            for name in (5, None, b"V"):
                self.assertRaises(TypeError, call, name)
            self.assertRaises(ssz.SszError, call, "V W")
        self.assertEqual(session.names(), ["V"])


if __name__ == "__main__":
    unittest.main()
