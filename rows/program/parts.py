"""Runs of `part`: parts of values, and what is refused in which order."""
import ssz
from program.known import SCHEMA, run_of
from program.runs import USAGE

TYPES = ssz.types_of(SCHEMA)
MOST = 268435456


def part_line(name, path, most, v, digits, fault):
    """The status and the line, by the tests in their order."""
    if name not in TYPES:
        return 1, "refused 0 2 NoType"
    t, steps = TYPES[name], ssz.path_of(path)
    form = ssz.path_type(t, steps)
    if form is None:
        return 1, "refused 0 5 BadPath"
    if digits is None:
        return 4, ""
    if len(digits) // 2 > most:
        return 1, "refused 0 12 TooLong"
    if fault is not None:
        return 1, "invalid F%d %d" % fault
    try:
        encoding = ssz.encode(*ssz.part_at(t, v, steps))
    except ssz.Refused:
        return 1, "refused 0 6 Absent"
    if len(encoding) > most:
        return 1, "refused 0 12 TooLong"
    return 0, "bytes 0x" + encoding.hex()


def words(name, path, most, file):
    option = "" if most == MOST else " --max-bytes=%d" % most
    return "xor;part types.json %s %s %s%s;" % (name, file, path, option)


def parts_of(name, v, paths, most=MOST):
    digits = ssz.encode(TYPES[name], v).hex()
    for path in paths:
        status, line = part_line(name, path, most, v, digits, None)
        yield run_of(words(name, path, most, "v") + digits, status, line)


def bad_bytes(name, digits, fault, path, most=MOST):
    status, line = part_line(name, path, most, None, digits, fault)
    return run_of(words(name, path, most, "v") + digits, status, line)


def no_file(name, path, most=MOST):
    status, line = part_line(name, path, most, None, None, None)
    return run_of(words(name, path, most, "absent"), status, line)


M = [0xbbaa, [1, 2]]


def accepted():
    yield from parts_of("M", M, ["/", "/a", "/b", "/b/0", "/b/1", "/b/#len", "/b/2", "/b/3",
                                 "/b/4"])
    yield from parts_of("M", M, ["/c", "/0", "/a/0", "/b/x", "/b/#sel", "/#len", "/b/#len/0",
                                 "/b/#0"])
    yield from parts_of("uint64", 5, ["/", "/0"])
    yield from parts_of("Lists", [[], [5, 6], [], [7]],
                        ["/0", "/1", "/1/1", "/2", "/3/0", "/4", "/#len"])
    yield from parts_of("Ms", [M, [1, []]], ["/1", "/0/b/1", "/1/b", "/1/b/#len", "/1/b/0", "/2/a"])
    # bits, lengths and selectors
    yield from parts_of("Bits8", [1, 1, 0], ["/0", "/1", "/2", "/3", "/7", "/8", "/#len", "/",
                                             "/0/0"])
    yield from parts_of("Eight", [0, 0, 0, 0, 1, 0, 0, 1], ["/3", "/4", "/7", "/8", "/#len"])
    yield from parts_of("BitsMany", [0] * 8 + [1], ["/7", "/8", "/9", "/1099511627775", "/#len"])
    yield from parts_of("U", (0, None), ["/#sel", "/#1", "/#0", "/#2", "/"])
    yield from parts_of("U", (1, 5), ["/#sel", "/#1", "/#1/#sel", "/0"])
    yield from parts_of("V", (1, [258]), ["/#1", "/#1/0", "/#1/#len", "/#1/1", "/#0", "/#sel"])


def runs():
    yield from accepted()
    # what stands together: the type, then the path, and no file is read for them
    yield no_file("Nope", "/b/4")
    yield no_file("M", "/b/4")
    yield no_file("M", "/b/2")
    yield from parts_of("M", M, ["/b/4", "/b/2", "/b"], 7)
    # a file that is too long, then its first fault, then what is absent
    yield bad_bytes("M", "aabb07", (1, 0), "/b/2", 2)
    yield bad_bytes("M", "aabb07", (1, 0), "/b/2", 3)
    yield bad_bytes("M", "aabb070000000102", (4, 2), "/b/2")
    yield bad_bytes("M", "aabb070000000102", (4, 2), "/b/4")
    yield bad_bytes("Bits8", "00", (10, 0), "/#len", 1)
    # an encoding that is longer than the file may be
    yield from parts_of("Bits8", [1], ["/#len", "/0", "/"], 1)
    yield from parts_of("Bits8", [1], ["/#len"], 7)
    yield from parts_of("Bits8", [1], ["/#len"], 8)
    yield from parts_of("Numbers", [], ["/", "/#len"], 0)
    # no path of the grammar
    for path in ["b", "/b/", "//", "/b/01", "/#256", "/#", "/b/18446744073709551616", "/b.0"]:
        yield run_of("xor;part types.json M v %s;aabb060000000102" % path, 2, USAGE)
    # the schema before all
    yield run_of("xor;part open_brace.json M absent /b/4;", 3, "schema S1")
    yield run_of("xor;part absent M v /b;aabb060000000102", 4, "")
