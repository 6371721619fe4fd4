"""The rows of JSON texts.

The text of each value is what Python's json writes, with sorted keys and no white space; its
encoding is made from the rules of simple-serialize.md alone. The first fault of each other text is
told by hand from the rules of docs/formats.md.
"""
import json

from ssz import (
    BOOLEAN, BUILT_IN, bitlist, bitvector, container, encode, form_of, json_text, list_of, uint, union, vector)

from .table import Table


def nested(levels, t):
    return t if levels == 0 else vector(nested(levels - 1, t), 1)


def enclosed(levels, v):
    return v if levels == 0 else [enclosed(levels - 1, v)]


SHORT = list_of(uint(8), 4)
M = container(a=uint(16), b=SHORT)
R = container(z=uint(16), b2=SHORT)
TYPES = {
    "M": M,
    "R": R,
    "S": container(b=uint(8), bb=uint(8), b_=uint(8), _b=uint(8), B=uint(8), b1=uint(8), _=BOOLEAN),
    "T": container(first=list_of(R, 2), second=union(None, R), third=bitvector(2)),
    "U": union(None, uint(64)),
    "V": union(uint(8), M, BOOLEAN),
    "Bits": bitvector(3),
    "Bits9": bitvector(9),
    "Some": bitlist(2),
    "L": list_of(R, 2),
    "N": list_of(uint(128), 2),
    "P": vector(uint(64), 2),
    "Q": list_of(SHORT, 3),
    "Flags": vector(BOOLEAN, 2),
    "Root": vector(uint(8), 32),
    "Wides": list_of(uint(256), 2),
    "Deep": nested(31, BOOLEAN),
}


VALUES = [
    ("M", [48042, [1, 2]]),
    ("M", [0, []]),
    ("M", [65535, [0, 255, 16, 10]]),
    ("R", [0, [0, 255, 10]]),
    ("S", [1, 2, 3, 4, 5, 6, False]),
    ("T", [[[1, []], [2, [3]]], (1, [7, [9]]), [0, 1]]),
    ("T", [[], (0, None), [1, 0]]),
    ("U", (0, None)),
    ("U", (1, 5)),
    ("U", (1, 2 ** 64 - 1)),
    ("V", (0, 255)),
    ("V", (1, [1, [2]])),
    ("V", (2, True)),
    ("Bits", [1, 0, 1]),
    ("Bits9", [0, 0, 0, 0, 0, 0, 0, 0, 1]),
    ("Some", []),
    ("Some", [1, 0]),
    ("L", []),
    ("L", [[1, []], [65535, [127]]]),
    ("N", []),
    ("N", [0, 2 ** 128 - 1]),
    ("N", [2 ** 64, 10 ** 19]),
    ("P", [9, 10]),
    ("Q", []),
    ("Q", [[], [1], [0, 0]]),
    ("Flags", [True, False]),
    ("Root", list(range(32))),
    ("Wides", [0, 2 ** 256 - 1]),
    ("Deep", enclosed(31, True)),
    ("boolean", True),
    ("boolean", False),
    ("uint8", 0),
    ("uint8", 255),
    ("uint16", 256),
    ("uint32", 2 ** 32 - 1),
    ("uint64", 2),
    ("uint64", 2 ** 64 - 1),
    ("uint128", 2 ** 128 - 1),
    ("uint256", 1 + (128 << 248)),
]

# A type, a text that no value of it has, and its first fault. A text in bytes stands in hexadecimal
# digits among the rows.
FAULTS = [
    # no JSON
    ("M", "{", "J1 0"),
    ("M", b"", "J1 0"),
    ("M", b'{"a":"\xff","b":"0x"}', "J1 0"),
    ("M", b'\xef\xbb\xbf{"a":"1","b":"0x"}', "J1 0"),
    ("M", '{"a":"1","b":"0x"}x', "J1 0"),
    ("M", "{'a':'1','b':'0x'}", "J1 0"),
    ("U", "[00,null]", "J1 0"),
    ("uint64", "[" * 127 + "]" * 127, "J2 0"),
    ("uint64", "[" * 128 + "]" * 128, "J1 0"),
    # another kind of JSON
    ("M", "[]", "J2 0"),
    ("M", "null", "J2 0"),
    ("M", '{"a":1,"b":"0x"}', "J2 1"),
    ("M", '{"a":"1","b":[]}', "J2 2"),
    ("uint256", "1", "J2 0"),
    ("boolean", '"true"', "J2 0"),
    ("boolean", "0", "J2 0"),
    ("Bits", "5", "J2 0"),
    ("P", '"0x"', "J2 0"),
    ("P", '["1",2]', "J2 2"),
    ("Q", '["0x",[],"0"]', "J2 2"),
    ("U", "{}", "J2 0"),
    ("U", "[]", "J2 0"),
    ("U", "[0]", "J2 0"),
    ("U", "[0,null,null]", "J2 0"),
    ("U", '["0",null]', "J2 0"),
    ("U", "[1.0,null]", "J2 0"),
    ("U", "[0.0,null]", "J2 0"),
    ("U", "[0e0,null]", "J2 0"),
    ("U", "[-0,null]", "J2 0"),
    ("U", "[-1,null]", "J2 0"),
    ("U", "[256,null]", "J2 0"),
    ("U", "[18446744073709551616,null]", "J2 0"),
    ("U", '[0,"0"]', "J2 1"),
    ("U", "[1,null]", "J2 1"),
    ("U", "[1,1]", "J2 1"),
    # another text than the type has
    ("M", '{"a":"01","b":"0x"}', "J3 1"),
    ("M", '{"a":"","b":"0x"}', "J3 1"),
    ("M", '{"a":"-1","b":"0x"}', "J3 1"),
    ("M", '{"a":"+1","b":"0x"}', "J3 1"),
    ("M", '{"a":"1 ","b":"0x"}', "J3 1"),
    ("M", '{"a":"1.0","b":"0x"}', "J3 1"),
    ("M", '{"a":"0065536","b":"0x"}', "J3 1"),
    ("M", '{"a":"1","b":""}', "J3 2"),
    ("M", '{"a":"1","b":"0102"}', "J3 2"),
    ("M", '{"a":"1","b":"0X"}', "J3 2"),
    ("M", '{"a":"1","b":"0x0A"}', "J3 2"),
    ("M", '{"a":"1","b":"0x0"}', "J3 2"),
    ("M", '{"a":"1","b":"0x0g"}', "J3 2"),
    ("M", '{"a":"1","b":"0x0102030405A"}', "J3 2"),
    ("Bits", '"1012"', "J3 0"),
    ("Bits", '"1 1"', "J3 0"),
    ("Root", '"0x%s"' % ("AB" * 32), "J3 0"),
    ("uint256", '"1"', "J3 0"),
    # out of range
    ("M", '{"a":"65536","b":"0x"}', "J4 1"),
    ("uint8", '"256"', "J4 0"),
    ("uint32", '"4294967296"', "J4 0"),
    ("uint64", '"18446744073709551616"', "J4 0"),
    ("uint128", '"%d"' % 2 ** 128, "J4 0"),
    ("uint128", '"1%s"' % ("0" * 400), "J4 0"),
    # a length that the type has not
    ("M", '{"a":"1","b":"0x0102030405"}', "J5 2"),
    ("Bits", '"10"', "J5 0"),
    ("Bits", '"1010"', "J5 0"),
    ("Some", '"101"', "J5 0"),
    ("P", '["1"]', "J5 0"),
    ("P", '["1","2","3"]', "J5 0"),
    ("L", "[0,0,0]", "J5 0"),
    ("Q", '["0x","0x","0x","0x"]', "J5 0"),
    ("Root", '"0x%s"' % ("00" * 31), "J5 0"),
    ("uint256", '"0x00"', "J5 0"),
    # members
    ("M", '{"a":"1"}', "J6 0"),
    ("M", "{}", "J6 0"),
    ("M", '{"a":"1","b":"0x","c":"1"}', "J6 0"),
    ("M", '{"a":"1","c":"0x"}', "J6 0"),
    ("M", '{"a":"x","B":"0x"}', "J6 0"),
    ("S", '{"b":"1","bb":"2","b_":"3","_b":"4","B":"5","b1":"6"}', "J6 0"),
    ("T", '{"first":[{"z":"1"}],"second":[0,null],"third":"00"}', "J6 2"),
    # selectors
    ("U", "[2,null]", "J7 0"),
    ("U", "[255,{}]", "J7 0"),
    ("V", "[3,true]", "J7 0"),
    # another spelling
    ("M", '{"b":"0x0102","a":"48042"}', "J8 0"),
    ("M", '{"a":"1", "b":"0x"}', "J8 0"),
    ("M", ' {"a":"1","b":"0x"}', "J8 0"),
    ("M", b'{"a":"1","b":"0x"}\n', "J8 0"),
    ("M", '{"\\u0061":"1","b":"0x"}', "J8 0"),
    ("M", '{"a":"\\u0031","b":"0x"}', "J8 0"),
    ("M", '{"a":"1","a":"2","b":"0x"}', "J8 0"),
    ("M", '{"a":1,"a":"2","b":"0x"}', "J8 0"),
    ("M", '{"a":"2","a":1,"b":"0x"}', "J2 1"),
    ("L", '[{"z":"1","b2":"0x"}]', "J8 0"),
    ("Some", ' ""', "J8 0"),
    # the parts in their order
    ("L", '[{"b2":"0x","z":"1"},{"b2":"","z":"1"}]', "J3 6"),
    ("L", '[{"b2":"","z":"x"},{}]', "J3 2"),
    ("T", '{"first":[{"b2":"0x","z":"1"}],"second":[1,{"b2":"0x","z":"x"}],"third":"0"}', "J3 7"),
    ("T", '{"first":[],"second":[0,0],"third":"0"}', "J2 3"),
    ("T", '{"first":[],"second":[0,null],"third":"0"}', "J5 4"),
    ("V", '[1,{"a":"1","b":"0xzz"}]', "J3 3"),
]


def table():
    rows, lines = [], []
    for name, value in VALUES:
        t = TYPES.get(name) or BUILT_IN[name]
        text = json_text(t, value)
        row = "%s %s" % (name, text)
        rows.append(row)
        lines.append("%s: 0x%s, json %s, too long" % (row, encode(t, value).hex(), text))
    for name, text, fault in FAULTS:
        row = "%s %s" % (name, "0x" + text.hex() if isinstance(text, bytes) else text)
        rows.append(row)
        lines.append("%s: %s" % (row, fault))
    schema = {"ssz": 1, "types": [[name, form_of(t)] for name, t in TYPES.items()]}
    files = {".txt": "".join(row + "\n" for row in rows), ".json": json.dumps(schema) + "\n"}
    return Table(files, lines)
