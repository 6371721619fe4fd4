"""The scripts that an engine is to run."""
from node.json_scripts import spelled, texts
from ssz import le


def lists_and_edits(script):
    script.new("V", "Eight")
    script.root("V")
    for _ in range(5):
        script.append("V", "/", le(1, 8), 1)
    script.root("V")
    script.len("V", "/")
    for _ in range(5):
        script.pop("V", "/")
    script.root("V")
    script.new("S", "L")
    script.append("S", "/", b"\x05", 5)
    script.append("S", "/", b"\x06", 6)
    script.pop("S", "/")
    script.pop("S", "/")
    script.set("S", "/0", b"\x07", 7)
    script.set("S", "/1", b"\x07", 7)
    script.set("S", "/#len", le(0, 8), 0)
    script.new("W", "U")
    script.refused("choose W / 0 0x00", "BadLiteral F2 0")
    script.choose("W", "/", 2, None, None)
    script.refused("choose W / 1 0x05", "BadLiteral F1 0")
    script.choose("W", "/", 1, le(5, 8), 5)
    script.root("W")
    script.bytes("W", "/")
    script.bytes("W", "/#sel")
    script.bytes("W", "/#1")
    script.choose("W", "/", 0, None, None)
    script.bytes("W", "/#1")
    script.bytes("W", "/")
    script.refused("append V / 0x01", "BadLiteral F1 0")
    script.refused("set Z / 0x01", "NoVersion")
    script.refused("append W / 0x01", "NotThat")
    script.refused("pop W /", "NotThat")
    script.refused("choose V / 0", "NotThat")


def versions(script):
    script.new("A", "P")
    script.fork("A", "B")
    script.root("A")
    script.set("B", "/a", le(1, 8), 1)
    script.root("A")
    script.root("B")
    script.fork("A", "B")
    script.fork("Z", "C")
    script.list()
    script.drop("B")
    script.root("A")
    script.root("B")
    script.drop("B")
    script.new("A", "Q")
    script.new("C", "Nothing")
    script.new("A", "Nothing")
    script.list()
    script.fork("A", "a")
    script.fork("A", "_")
    script.list()


def shown(script):
    script.lit("V", "M", [0xbbaa, [1, 2]])
    script.bytes("V", "/")
    script.bytes("V", "/b")
    script.len("V", "/b")
    script.save("V", "f")
    script.load("W", "M", [0xbbaa, [1, 2]], "f")
    script.bytes("W", "/")
    script.list()
    script.new("X", "Wide")
    script.bytes("X", "/")
    script.bytes("X", "/wide")
    script.bytes("X", "/flags")
    script.bytes("X", "/flags/8")
    script.bytes("X", "/flags/10")
    script.bytes("X", "/marks")
    script.bytes("X", "/marks/0")
    script.bytes("X", "/marks/#len")
    script.set("X", "/wide", le(2 ** 256 - 2, 32), 2 ** 256 - 2)
    script.bytes("X", "/wide")
    script.set("X", "/flags/9", b"\x01", 1)
    script.bytes("X", "/flags")
    script.bytes("X", "/flags/9")
    for bit in [1, 1, 0, 1] + [0] * 253 + [1, 0]:
        script.append("X", "/marks", bytes([bit]), bit)
    script.bytes("X", "/marks/3")
    script.bytes("X", "/marks/256")
    script.bytes("X", "/marks/257")
    script.bytes("X", "/marks/258")
    script.bytes("X", "/marks/259")
    script.bytes("X", "/marks")
    script.len("X", "/marks")
    script.append("X", "/texts", bytes.fromhex("010006000000"), [1, []])
    script.append("X", "/texts", bytes.fromhex("0200060000000304"), [2, [3, 4]])
    script.bytes("X", "/texts")
    script.bytes("X", "/texts/1")
    script.bytes("X", "/texts/1/b/1")
    script.bytes("X", "/texts/0/b/1")
    script.bytes("X", "/texts/#len")
    script.len("X", "/texts/1/b")
    script.len("X", "/texts/1/a")
    script.len("X", "/pick")
    script.choose("X", "/pick", 2, None, [0, []])
    script.append("X", "/pick/#2/b", b"\x09", 9)
    script.bytes("X", "/pick")
    script.bytes("X", "/pick/#2/b/0")
    script.bytes("X", "/pick/#1")
    script.bytes("X", "/pick/#sel")
    for bit in (1, 0, 1):
        script.append("X", "/truths", bytes([bit]), bit)
    script.bytes("X", "/truths")
    script.bytes("X", "/truths/2")
    script.bytes("X", "/truths/3")
    script.set("X", "/halves/17", le(0x1234, 2), 0x1234)
    script.bytes("X", "/halves/17")
    script.bytes("X", "/halves/20")
    script.bytes("X", "/halves")
    script.bytes("Y", "/")
    script.root("X")
    script.save("X", "g")
    script.new("B", "Long")
    script.bytes("B", "/")
    script.bytes("B", "/79")
    script.save("B", "g")
    script.save("Y", "g")


def indices(script):
    for name, path in [
            ("Far", "/5"), ("Far", "/#len"), ("Bits", "/300"), ("U", "/#1"), ("U", "/#sel"),
            ("U", "/#0"), ("P", "/"), ("Wide", "/texts/2/b/3"), ("P", "/c"),
            ("Nothing", "/"), ("uint64", "/"), ("uint64", "/a")]:
        script.gindex(name, path)
    script.new("V", "P")
    script.prove("V", 1, 2)
    script.prove("V", 4)
    script.prove("V", 0)
    script.prove("V", 4, 1)
    script.prove("V", 3, 2, 2)
    script.prove("V", "/a", "/c")
    script.prove("Z", 1)
    script.lit("O", "O", [1])
    script.prove("O", "/a")
    script.lit("Q", "Q", [1, 2])
    script.root("Q")
    script.prove("Q", "/a")
    script.new("E", "Eight")
    script.append("E", "/", le(9, 8), 9)
    script.prove("E", "/7", "/0")
    script.prove("E", "/#len", 4)


def read_bytes(script):
    """First faults are those of the formats, by hand."""
    script.lit("A", "P", [0, 0])
    script.root("A")
    for text, fault in [
            ("M 0xaabb070000000102", "F4 2"), ("M 0xaabb06", "F1 0"),
            ("Lists 0x0800000007000000", "F6 4"), ("Lists 0x0800000009000000", "F5 4"),
            ("K 0x0206000000", "F4 1"), ("K 0x0205000000", "F3 0"), ("Marks 0x", "F10 0"),
            ("Marks 0x00", "F10 0"), ("Few 0x10", "F8 0"), ("Four 0x10", "F9 0"),
            ("U 0x0000", "F2 1"), ("U 0x02", "F11 0"), ("U 0x", "F1 0"),
            ("None 0x0000000000000000", "F8 0"), ("None 0x0000000000", "F7 0"),
            ("uint256 0x" + 31 * "ff", "F1 0"), ("uint256 0x" + 33 * "ff", "F2 32")]:
        script.refused("lit B " + text, "BadLiteral " + fault)
    script.lit("L", "Lists", [[], []])
    script.root("L")
    script.lit("M", "Marks", [])
    script.root("M")
    script.lit("U", "U", (0, None))
    script.root("U")
    script.lit("N", "None", [])
    script.root("N")
    script.lit("T", "uint256", 2 ** 256 - 1)
    script.root("T")
    script.refused("lit A M 0x", "NameTaken")
    script.refused("lit B Nothing 0x", "NoType")
    script.refused("load B M short", "BadLiteral F1 0")
    script.refused("load B Long long", "TooLong")
    script.refused("load A Long long", "NameTaken")
    script.refused("load B Nothing long", "NoType")
    script.load("B", "Far", [7, 8], "longs")
    script.root("B")
    script.len("B", "/")
    script.list()


def lines(script):
    script.refused("frob", "Syntax")
    script.none("# note")
    script.none("")
    script.list()
    script.refused("upgrade V W", "Syntax")
    script.refused("upgrade V W M", "NoVersion")
    script.refused("compact V", "Syntax")
    script.compact()
    for text in ("json V", "json V /a /b", "json V a", "loadjson V P", "loadjson V P f g",
                 "loadjson V P f~"):
        script.refused(text, "Syntax")


def counts(script):
    script.hashes(0)
    script.new("V", "P")
    for n in (1, 2, 3):
        script.set("V", "/a", le(n, 8), n)
    script.hashes(0)
    script.root("V")
    script.hashes(1)
    script.root("V")
    script.hashes(1)
    script.fork("V", "W")
    script.root("W")
    script.hashes(1)
    script.prove("W", 2)
    script.hashes(1)
    script.refused("root Z", "NoVersion")
    script.hashes(1)
    # what was hashed stays so where nodes are given up, and what was not is hashed later
    script.new("X", "Q")
    script.set("X", "/a", b"\x05", 5)
    script.root("X")
    script.hashes(2)
    script.compact()
    for name in "XVW":
        script.root(name)
    script.hashes(2)
    script.set("V", "/b", le(9, 8), 9)
    script.compact()
    script.hashes(2)
    script.root("V")
    script.hashes(3)
    script.drop("X")
    script.compact()
    script.root("W")
    script.prove("V", 2)
    script.hashes(3)


def woven(script):
    """Two writers say a line in turn."""
    script.new("S", "P")
    script.list()
    script.set("S", "/a", le(1, 8), 1)
    script.root("S")
    script.root("S")
    script.new("S", "Q")
    script.save("S", "f")
    script.hashes(0)
    script.list()
    script.set("S", "/b", b"\x02", 2)
    script.root("S")
    script.root("S")
    script.compact()
    script.root("S")
    script.root("S")
    script.compact()
    script.drop("S")
    script.bytes("S", "/b")
    script.compact()
    script.root("S")
    script.list()
    script.list()


SCRIPTS = [
    ("edits", lists_and_edits, False), ("versions", versions, False), ("shown", shown, False),
    ("indices", indices, False), ("bytes", read_bytes, False), ("lines", lines, False),
    ("counts", counts, False), ("none", lambda script: None, False), ("texts", texts, False),
    ("spelled", spelled, False), ("woven", woven, True)]
