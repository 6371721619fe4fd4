"""The scripts of JSON texts."""
from ssz import le


def texts(script):
    """JSON texts of values and of parts of every kind."""
    script.lit("V", "M", [48042, [1, 2]])
    for path in ("/", "/a", "/b", "/b/1", "/b/2", "/b/4", "/b/2/a", "/b/#len", "/b/#sel", "/c"):
        script.json("V", path)
    script.json("Z", "/")
    script.new("U", "U")
    for path in ("/", "/#sel", "/#0", "/#1", "/#1/a"):
        script.json("U", path)
    script.choose("U", "/", 1, le(5, 8), 5)
    for path in ("/", "/#sel", "/#1", "/#2"):
        script.json("U", path)
    script.lit("T", "Three", [1, 0, 1])
    for path in ("/", "/0", "/1", "/3"):
        script.json("T", path)
    script.new("E", "Eight")
    script.json("E", "/")
    script.append("E", "/", le(2 ** 64 - 1, 8), 2 ** 64 - 1)
    script.append("E", "/", le(0, 8), 0)
    for path in ("/", "/0", "/1", "/2", "/#len"):
        script.json("E", path)
    script.new("X", "Wide")
    for path in ("/", "/wide", "/flags", "/flags/9", "/marks", "/marks/0", "/marks/#len", "/texts",
                 "/pick", "/truths", "/truths/0", "/halves", "/halves/19", "/halves/20"):
        script.json("X", path)
    script.set("X", "/flags/9", b"\x01", 1)
    script.json("X", "/flags")
    script.json("X", "/flags/9")
    # one bit more than has room in a text
    for bit in [1, 0, 0] + [0] * 59:
        script.append("X", "/marks", bytes([bit]), bit)
    script.json("X", "/marks")
    script.append("X", "/marks", b"\x01", 1)
    script.json("X", "/marks")
    script.json("X", "/marks/62")
    script.bytes("X", "/marks")
    script.append("X", "/texts", bytes.fromhex("010006000000"), [1, []])
    script.append("X", "/texts", bytes.fromhex("0200060000000304"), [2, [3, 4]])
    for path in ("/texts", "/texts/1", "/texts/1/b/1", "/texts/0/b/1", "/texts/#len"):
        script.json("X", path)
    script.choose("X", "/pick", 2, None, [0, []])
    script.append("X", "/pick/#2/b", b"\x09", 9)
    for path in ("/pick", "/pick/#2", "/pick/#2/b", "/pick/#2/b/0", "/pick/#1", "/pick/#sel"):
        script.json("X", path)
    for bit in (1, 0, 1):
        script.append("X", "/truths", bytes([bit]), bit)
    for path in ("/truths", "/truths/2", "/truths/1", "/truths/3"):
        script.json("X", path)
    script.set("X", "/halves/17", le(0x1234, 2), 0x1234)
    script.json("X", "/halves/17")
    script.json("X", "/halves/16")
    # a text that is longer than the encoding, and one that is shorter
    script.json("X", "/wide")
    script.bytes("X", "/wide")
    script.new("N", "Nine")
    script.json("N", "/")
    script.bytes("N", "/")
    script.hashes(0)
    script.root("V")
    script.json("V", "/")
    script.hashes(2)


def spelled(script):
    """First faults of texts are those of the formats, by hand."""
    script.loadjson("V", "M", [48042, [1, 2]], "m")
    script.bytes("V", "/")
    script.root("V")
    script.hashes(2)
    script.json("V", "/")
    for file, fault in [
            ("none", "J1 0"), ("open", "J1 0"), ("array", "J2 0"), ("number", "J2 1"),
            ("zeros", "J3 1"), ("capitals", "J3 2"), ("great", "J4 1"), ("five", "J5 2"),
            ("missing", "J6 0"), ("more", "J6 0"), ("order", "J8 0"), ("space", "J8 0"),
            ("feed", "J8 0"), ("escape", "J8 0"), ("twice", "J8 0")]:
        script.refused("loadjson W M " + file, "BadJson " + fault)
    for file, fault in [("none_0", "J2 1"), ("third", "J7 0"), ("m", "J2 0"), ("small", "J4 1")]:
        script.refused("loadjson W U " + file, "BadJson " + fault)
    script.loadjson("W", "U", (0, None), "nothing")
    script.loadjson("X", "U", (1, 5), "chosen")
    script.bytes("W", "/")
    script.bytes("X", "/")
    script.loadjson("T", "Three", [1, 0, 1], "bits")
    script.bytes("T", "/")
    script.loadjson("B", "Bits", [1, 0, 1], "bits")
    script.bytes("B", "/")
    script.loadjson("O", "boolean", 1, "true")
    script.bytes("O", "/")
    # the type before the name, and both before the file is read
    script.refused("loadjson V Nothing m", "NoType")
    script.refused("loadjson V M open", "NameTaken")
    script.refused("loadjson Y Nothing long", "NoType")
    script.refused("loadjson V M long", "NameTaken")
    # a text that is too long, one of a value whose encoding would be, and one of the greatest
    # length
    script.refused("loadjson Y Wides wide", "TooLong")
    script.loadjson("N", "Nine", [0] * 9, "nine")
    script.bytes("N", "/")
    script.json("N", "/")
    script.root("N")
    script.loadjson("L", "Bits", [0] * 61 + [1], "longest")
    script.len("L", "/")
    script.refused("loadjson Y Bits longer", "TooLong")
    script.refused("load Y M m", "BadLiteral F4 2")
    script.set("V", "/a", le(1, 2), 1)
    script.json("V", "/")
    script.list()
