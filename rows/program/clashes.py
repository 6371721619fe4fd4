"""Runs of `clash`: what two proofs come to, by the definition of a multiproof's root
(merkle-proofs.md, consensus-specs v1.4.0)."""
import re

from program.known import run_of
from program.runs import USAGE
from ssz import HASHES, ancestors, are_flat, calculated, helper_indices

ENTRY = re.compile(r"([1-9][0-9]*|0)=0x([0-9a-fA-F]{64})")


def is_proof(leaves, nodes):
    indices = [g for g, _ in leaves]
    return (bool(leaves) and 0 not in indices and len(set(indices)) == len(indices) and are_flat(indices)
            and [g for g, _ in nodes] == helper_indices(indices))


def read(text):
    """The lists of a proof, or None for a bad one."""
    listed = text.split(" ")
    if listed[0] != "proof" or listed.count("/") != 1:
        return None
    entries = [word if word == "/" else ENTRY.fullmatch(word) for word in listed[1:]]
    if None in entries:
        return None
    slash = entries.index("/")
    leaves, nodes = [[(int(e[1]), bytes.fromhex(e[2])) for e in side]
                     for side in (entries[:slash], entries[slash + 1:])]
    return (leaves, nodes) if is_proof(leaves, nodes) else None


def hexes(chunks):
    return " ".join("0x" + chunk.hex() for chunk in chunks)


def compared(pair, one, other):
    """The status and the line of two proofs."""
    k1, k2 = [dict(leaves + nodes) for leaves, nodes in (one, other)]
    indices = {g for g, _ in one[0]}
    if indices != {g for g, _ in other[0]}:
        return 1, "otherindices"
    roots = [calculated(known, 1, pair) for known in (k1, k2)]
    if roots[0] != roots[1]:
        return 1, "otherroot " + hexes(roots)
    if dict(one[0]) == dict(other[0]):
        return 0, "same"
    paths = {a for g in indices for a in ancestors(g)}

    def first(g):
        """The first clash in preorder at g or below."""
        if g not in paths:
            return None
        pairs = [[calculated(known, 2 * g, pair), calculated(known, 2 * g + 1, pair)] for known in (k1, k2)]
        if calculated(k1, g, pair) == calculated(k2, g, pair) and pairs[0] != pairs[1]:
            return "clash %d %s" % (g, hexes(pairs[0] + pairs[1]))
        return first(2 * g) or first(2 * g + 1)

    return 0, first(1)


def clash_line(pair, first, second):
    one = read(first)
    if one is None:
        return 1, "badproof 1"
    other = read(second)
    if other is None:
        return 1, "badproof 2"
    return compared(pair, one, other)


def chunk(*ends):
    """A chunk that begins with the first byte and ends with the second, zeros between."""
    first, last = ends if len(ends) == 2 else (ends[0], 0)
    return bytes([first] + [0] * 30 + [last])


def text(leaves, nodes):
    words = ["%d=0x%s" % (g, c.hex()) for g, c in leaves]
    return " ".join(["proof"] + words + ["/"] + ["%d=0x%s" % (g, c.hex()) for g, c in nodes])


def turned(c):
    """What a left chunk adds to a pair of `xor`."""
    return c[1:] + c[:1]


def added(*chunks):
    out = bytes(32)
    for c in chunks:
        out = bytes(a ^ b for a, b in zip(out, c))
    return out


def compare(hasher, first, second):
    status, line = clash_line(HASHES[hasher], first, second)
    return run_of("%s;clash p q;%s;%s" % (hasher, first, second), status, line)


def file_row(files, first, status, line):
    return run_of("xor;clash %s;%s;" % (files, first), status, line)


TWO = text([(2, chunk(1))], [(3, chunk(2))])


def pairs(two=TWO):
    yield compare("xor", two, text([(2, chunk(0))], [(3, chunk(2, 1))]))
    yield compare("xor", text([(2, chunk(0))], [(3, chunk(2, 1))]), two)
    yield compare("xor", two, two)
    yield compare("xor", two, text([(2, chunk(1))], [(3, chunk(3))]))
    yield compare("xor", two, text([(3, chunk(2))], [(2, chunk(1))]))
    yield compare("sha", two, two)
    yield compare("sha", two, text([(2, chunk(1))], [(3, chunk(3))]))
    # other indices with other roots, and with the same
    yield compare("xor", two, text([(3, chunk(9))], [(2, chunk(1))]))
    yield compare("xor", two, text([(1, chunk(2, 1))], []))
    yield compare("xor", text([(2, chunk(1)), (3, chunk(2))], []), two)


def clashing():
    # leaves in another order, and digits in the other case
    four = [(4, chunk(1)), (6, chunk(0xab))]
    behind = [(7, chunk(4)), (5, chunk(2))]
    yield compare("xor", text(four, behind), text(four[::-1], behind))
    yield compare("sha", text(four[::-1], behind), text(four, behind).replace("ab", "AB"))
    # equal leaves, though nodes are unlike: what is added on the left is taken away on the right
    d = chunk(0, 7)
    yield compare("xor", text([(4, chunk(1))], [(5, chunk(2)), (3, chunk(3))]),
                  text([(4, chunk(1))], [(5, added(chunk(2), d)), (3, added(chunk(3), turned(d)))]))
    # two clashes, to the left and to the right: the left one comes first
    left = [(4, added(chunk(1), d)), (6, chunk(0xab))]
    both = [(4, added(chunk(1), d)), (6, added(chunk(0xab), d))]
    right = [(4, chunk(1)), (6, added(chunk(0xab), d))]
    yield compare("xor", text(four, behind),
                  text(left, [(7, chunk(4)), (5, added(chunk(2), turned(d)))]))
    yield compare("xor", text(four, behind),
                  text(both, [(7, added(chunk(4), turned(d))), (5, added(chunk(2), turned(d)))]))
    yield compare("xor", text(four, behind),
                  text(right, [(7, added(chunk(4), turned(d))), (5, chunk(2))]))
    # one at node 4 and one at the root, which comes first; and the lower one alone
    leaves = [(8, added(chunk(1), d)), (9, added(chunk(2), turned(d)))]
    yield compare("xor", text([(8, chunk(1)), (9, chunk(2))], [(5, chunk(3)), (3, chunk(4))]),
                  text(leaves, [(5, added(chunk(3), d)), (3, added(chunk(4), turned(d)))]))
    yield compare("xor", text([(8, chunk(1)), (9, chunk(2))], [(5, chunk(3)), (3, chunk(4))]),
                  text(leaves, [(5, chunk(3)), (3, chunk(4))]))
    # a deep leaf, with a clash far below the root
    deep = [(g, chunk(g % 256, 1)) for g in helper_indices([2 ** 20 + 5])]
    moved = [(g, added(c, d) if g == 2 ** 20 + 4 else c) for g, c in deep]
    yield compare("xor", text([(2 ** 20 + 5, chunk(1))], deep),
                  text([(2 ** 20 + 5, added(chunk(1), turned(d)))], moved))


def bad_files(two=TWO):
    # bad proofs, in the order of the files; the second is not read behind a bad first
    bad = "proof 2=0x00 / 3=0x00"
    yield compare("xor", bad, two)
    yield compare("xor", two, bad)
    yield compare("xor", bad, bad)
    yield compare("xor", text([(2, chunk(1))], []), two)
    yield compare("xor", two, text([(2, chunk(1))], [(3, chunk(2)), (1, chunk(0))]))
    yield compare("xor", two, text([(2, chunk(1)), (4, chunk(2))], [(3, chunk(0))]))
    yield compare("xor", text([], []), text([(0, chunk(0))], []))
    yield file_row("p absent", bad, 1, "badproof 1")
    yield file_row("p absent", two, 4, "")
    yield file_row("absent p", two, 4, "")
    yield file_row("p p", two, 0, "same")
    yield file_row("long p", two, 1, "badproof 1")
    yield file_row("p long", two, 1, "badproof 2")
    yield file_row("p", two, 2, USAGE)
    yield file_row("p p p", two, 2, USAGE)


def runs():
    yield from pairs()
    yield from clashing()
    yield from bad_files()
