"""What is made for values of every form: rows of a type and bytes, or of a default.

The wanted line of a row has the root of the node, the nodes that are added for it, and how many of
these are pairs.
"""
import json

import ssz
from ssz import Pair

TYPES = [
    ("Number", "uint64"),
    ("Wide", "uint256"),
    ("Flag", "boolean"),
    ("Pair", {"container": [["a", "uint64"], ["b", "uint64"]]}),
    ("Numbers", {"list": ["uint64", 4]}),
    ("Flags", {"vector": ["boolean", 40]}),
    ("Bytes4", {"list": ["byte", 4]}),
    ("Long", {"list": ["byte", 1099511627776]}),
    ("Longest", {"list": ["uint64", 4611686018427387904]}),
    ("Lists", {"list": ["Bytes4", 4]}),
    ("Mixed", {"container": [["a", "uint16"], ["b", "Bytes4"]]}),
    ("Three", {"vector": ["Mixed", 3]}),
    ("Maybe", {"union": [None, "uint64"]}),
    ("Either", {"union": ["Numbers", "Mixed"]}),
    ("Nested", {"union": [None, {"union": [None, {"list": ["uint64", 2]}]}]}),
    ("Bits8", {"bitvector": 8}),
    ("Bits300", {"bitvector": 300}),
    ("List8", {"bitlist": 8}),
    ("List256", {"bitlist": 256}),
    ("List600", {"bitlist": 600}),
    ("ListFar", {"bitlist": 1099511627776}),
    ("Wides", {"vector": ["uint256", 3]}),
    ("Six", {"vector": ["Pair", 6]}),
    ("Grid", {"vector": [{"vector": ["uint64", 4]}, 65536]}),
    ("Deep", {"vector": [{"vector": ["Pair", 3]}, 5]}),
    ("Registry", {"list": ["Pair", 1099511627776]}),
    ("Far", {"list": ["Mixed", 4611686018427387904]}),
    ("Short", {"list": ["uint64", 1099511627776]}),
    ("Shorts", {"list": ["Short", 1099511627776]}),
    ("ShortBits", {"vector": ["ListFar", 3]}),
    ("Inner", {"list": ["Shorts", 1048576]}),
    ("Both", {"container": [["a", "Shorts"], ["b", "ShortBits"], ["c", "Inner"]]}),
    ("Holder", {"container": [
        ["a", "Six"], ["b", "Maybe"], ["c", "List600"], ["d", "Wide"], ["e", "Deep"]]}),
]

# A type, and the digits of the encoding of a value of it.
VALUES = [
    ("Number", "0807060504030201"),
    ("Wide", "ffffffffffffffffffffffffffffffffffffffffffffffffffffffffffffffff"),
    ("Flag", "01"),
    ("Pair", "00000000000000000000000000000000"),
    ("Pair", "01000000000000000000000000000080"),
    ("Numbers", ""),
    ("Numbers", "010000000000000002000000000000000300000000000000"),
    ("Flags",
     "01000100010001000100010001000100010001000100010001000100010001000100010001000100"),
    ("Bytes4", ""),
    ("Bytes4", "01020304"),
    ("Long", ""),
    ("Long", "05"),
    ("Long",
     "0102030405060708090a0b0c0d0e0f101112131415161718191a1b1c1d1e1f202122232425262728"
     "292a2b2c2d2e2f303132333435363738393a3b3c3d3e3f404142434445464748494a4b4c4d4e4f50"
     "5152535455565758595a5b5c5d5e5f6061626364"),
    ("Longest", ""),
    ("Longest",
     "00000000000000000100000000010000020000000002000003000000000300000400000000040000"
     "0500000000050000060000000006000007000000000700000800000000080000"),
    ("Lists", ""),
    ("Lists", "0800000008000000"),
    ("Lists", "0c0000000e0000000e000000070809"),
    ("Mixed", "aabb060000000102"),
    ("Three", "0c00000012000000190000000100060000000200060000000503000600000001020304"),
    ("Maybe", "00"),
    ("Maybe", "010500000000000000"),
    ("Either", "000900000000000000"),
    ("Either", "01aabb0600000001"),
    ("Nested", "00"),
    ("Nested", "0100"),
    ("Nested", "01010700000000000000"),
    ("Bits8", "10"),
    ("Bits300",
     "4992244992244992244992244992244992244992244992244992244992244992244992244902"),
    ("List8", "01"),
    ("List8", "ff01"),
    ("List256", "ffffffffffffffffffffffffffffffffffffffffffffffffffffffffffffffff01"),
    ("List256", "0000000000000000000000000000000000000000000000000000000000000080"),
    ("List600",
     "4992244992244992244992244992244992244992244992244992244992244992244992244912"),
    ("List600",
     "81402010080402814020100804028140201008040281402010080402814020100804028140201008"
     "040281402010080402814020100804028140201008040281402010080402814020100801"),
    ("ListFar", "01"),
    ("ListFar", "ff03"),
    ("Wides",
     "01000000000000000000000000000000000000000000000000000000000000000200000000000000"
     "00000000000000000000000000000000000000000000000003000000000000000000000000000000"
     "00000000000000000000000000000000"),
    ("Six",
     "01000000000000000200000000000000030000000000000004000000000000000500000000000000"
     "06000000000000000700000000000000080000000000000009000000000000001000000000000000"
     "11000000000000001200000000000000"),
    ("Registry", ""),
    ("Registry",
     "01000000000000000200000000000000030000000000000004000000000000000500000000000000"
     "0600000000000000"),
    ("Far", ""),
    ("Far", "080000000f000000aabb0600000001ccdd060000000203"),
    ("Short", "0700000000000000"),
    ("Shorts", ""),
    ("Shorts", "040000000100000000000000"),
    ("Shorts",
     "140000001c0000002c0000002c000000540000000100000000000000020000000000000003000000"
     "00000000040000000000000005000000000000000600000000000000070000000000000008000000"
     "000000000900000000000000"),
    ("Shorts",
     "00010000080100001001000018010000200100002801000030010000380100004001000048010000"
     "50010000580100006001000068010000700100007801000080010000880100009001000098010000"
     "a0010000a8010000b0010000b8010000c0010000c8010000d0010000d8010000e0010000e8010000"
     "f0010000f80100000002000008020000100200001802000020020000280200003002000038020000"
     "40020000480200005002000058020000600200006802000070020000780200008002000088020000"
     "9002000098020000a0020000a8020000b0020000b8020000c0020000c8020000d0020000d8020000"
     "e0020000e8020000f0020000f8020000000000000000000001000000000000000200000000000000"
     "03000000000000000400000000000000050000000000000006000000000000000700000000000000"
     "080000000000000009000000000000000a000000000000000b000000000000000c00000000000000"
     "0d000000000000000e000000000000000f0000000000000010000000000000001100000000000000"
     "12000000000000001300000000000000140000000000000015000000000000001600000000000000"
     "1700000000000000180000000000000019000000000000001a000000000000001b00000000000000"
     "1c000000000000001d000000000000001e000000000000001f000000000000002000000000000000"
     "21000000000000002200000000000000230000000000000024000000000000002500000000000000"
     "26000000000000002700000000000000280000000000000029000000000000002a00000000000000"
     "2b000000000000002c000000000000002d000000000000002e000000000000002f00000000000000"
     "30000000000000003100000000000000320000000000000033000000000000003400000000000000"
     "35000000000000003600000000000000370000000000000038000000000000003900000000000000"
     "3a000000000000003b000000000000003c000000000000003d000000000000003e00000000000000"
     "3f00000000000000"),
    ("ShortBits",
     "0c0000000d0000000e000000010dffffffffffffffffffffffffffffffffffffffffffffffffffff"
     "ffffffffffff01"),
    ("Inner", ""),
    ("Inner",
     "0c0000000c0000001800000004000000010000000000000008000000100000000200000000000000"),
    ("Both",
     "0c0000006800000097000000140000001c0000002c0000002c000000540000000100000000000000"
     "02000000000000000300000000000000040000000000000005000000000000000600000000000000"
     "0700000000000000080000000000000009000000000000000c0000000d0000000e000000010dffff"
     "ffffffffffffffffffffffffffffffffffffffffffffffffffffffffffff010c0000000c00000018"
     "00000004000000010000000000000008000000100000000200000000000000"),
]

DEFAULTS = [
    "Number", "Wide", "Flag", "Pair", "Numbers", "Flags", "Long", "Longest", "Mixed", "Three",
    "Maybe", "Either", "Nested", "Bits300", "List600", "Wides", "Six", "Grid", "Deep", "Registry",
    "Far", "Shorts", "ShortBits", "Both", "Holder",
]


def made_for(node):
    """The nodes that are made for a tree, and how many of these are pairs; zero chunks and zero trees are there from the start."""
    if isinstance(node, bytes):
        return int(any(node)), 0
    parts = [made_for(part) for part in (node if isinstance(node, Pair) else node.parts)]
    pairs = above(len(parts), 1 if isinstance(node, Pair) else node.depth)
    return sum(nodes for nodes, _ in parts) + pairs, sum(pairs for _, pairs in parts) + pairs


def above(count, depth):
    """The pairs of a full tree of this depth over so many parts."""
    return sum(-(-count // 2 ** level) for level in range(1, depth + 1))


def made_for_default(t):
    """The same of a default: no leaf is made, since each is a zero chunk, and each subtree of a vector is made once."""
    kind = t[0]
    if kind in ("list", "bitlist"):
        return 1, 1
    if kind == "union":
        nodes, pairs = made_for_default(t[1][0]) if t[1][0] else (0, 0)
        return nodes + 1, pairs + 1
    if kind == "container":
        parts = [made_for_default(field) for field in ssz.field_types(t)]
        pairs = above(len(parts), ssz.depth(t))
        return sum(nodes for nodes, _ in parts) + pairs, sum(pairs for _, pairs in parts) + pairs
    if kind == "vector" and not ssz.is_basic(t[1]):
        # on each level the subtrees of copies alone are one node, and one more has copies and zeros
        pairs = sum((t[2] >= 1 << d) + (t[2] % (1 << d) > 0) for d in range(1, ssz.depth(t) + 1))
        nodes, inner = made_for_default(t[1])
        return nodes + pairs, inner + pairs
    return 0, 0


def line(words, t, value, made):
    return "%s %s %d %d" % (words, ssz.hash_tree_root(t, value).hex(), *made)


def made():
    """The files of the subject, and the wanted lines."""
    forms = ",\n".join("  " + json.dumps(each, separators=(",", ":")) for each in TYPES)
    document = '{"ssz":2,"types":[\n%s\n]}\n' % forms
    types = ssz.types_of(document)
    rows, wanted = [], []
    for name, digits in VALUES:
        value = ssz.decode(types[name], bytes.fromhex(digits))
        rows.append("%s 0x%s" % (name, digits))
        wanted.append(line(name, types[name], value, made_for(ssz.tree(types[name], value))))
    for name in DEFAULTS:
        rows.append("default " + name)
        value = ssz.default(types[name])
        wanted.append(line("default " + name, types[name], value, made_for_default(types[name])))
    return {"tree_schema.json": document, "tree.txt": "\n".join(rows) + "\n"}, wanted
