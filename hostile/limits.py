#!/usr/bin/env python3
"""Runs each command on inputs at its limits and a step beyond, compares status and output with the
rules of docs/formats.md, and prints seconds of processor time and the peak of memory in MiB.

  python3 hostile/limits.py [WORD]   after 'rt run' in crates/ssz_cli, which builds the program;
                                     WORD runs those alone whose names have it

It takes 3 GiB of memory. With the word 2^32 it runs two cases more, which take 5 GiB.
"""
import os
import subprocess
import sys
import tempfile

from rows import SSZ, TYPES, USAGE, chunk, hexed, merkleize, pair, proof, root_of_p, schema
from runs import words_of

MOST = 1 << 26
DEFAULT = 268435456
ROOT_OF_P = "root " + hexed(root_of_p(0, 0))
WIDE = schema('["W",{"list":["uint64",4611686018427387904]}]',
              '["B",{"list":["byte",1099511627776]}]',
              '["LL",{"list":[{"list":["uint64",4611686018427387904]},4611686018427387904]}]',
              form=2)
LONG = "refused 0 12 TooLong"


def nested(count):
    return '["P",' + '{"vector":[' * count + '"uint8"' + ",1]}" * count + "]"


def padded(text, length):
    return text + b" " * (length - len(text))


def zeros_of(depth):
    return merkleize([], depth)


def leaves(depth):
    """A proof of all places of a depth, each with its number as chunk, and its root."""
    places = range(1 << depth, 2 << depth)
    return (proof([(place, chunk(place)) for place in places], []).encode(),
            merkleize([chunk(place) for place in places], depth))


# Each case: a name, the words, the files, the status and the output.
def root_cases():
    words = ["root", "s", "P", "v"]
    zeros = {"s": TYPES, "v": bytes(16)}
    for name, length, status, said in [
        ("schema of 2^26 bytes", MOST, 0, ROOT_OF_P),
        ("schema of a byte more", MOST + 1, 3, "schema S15"),
    ]:
        yield name, words, {**zeros, "s": padded(TYPES, length)}, status, said
    for most, status, said in [
        ("16", 0, ROOT_OF_P),
        ("15", 1, LONG),
        ("0", 1, LONG),
        ("4294967295", 0, ROOT_OF_P),
        ("4294967296", 2, USAGE),
        ("-1", 2, USAGE),
    ]:
        yield "--max-bytes " + most, words + ["--max-bytes", most], zeros, status, said
    for count, status, said in (31, 0, "root " + hexed(bytes(32))), (32, 3, "schema S12 0"):
        files = {"s": schema(nested(count)), "v": b"\0"}
        yield "nesting %d" % (count + 1), words, files, status, said
    wide = {"s": WIDE, "v": chunk(7)[:8]}
    said = "root " + hexed(pair(merkleize([chunk(7)], 60), chunk(1)))
    yield "a list of 2^62 with one", ["root", "s", "W", "v"], wide, 0, said
    words = ["root", "s", "B", "v"]
    said = "root " + hexed(pair(deepen(zeros_of(23), 23, 35), chunk(DEFAULT)))
    yield "a value of 2^28 bytes", words, {"s": WIDE, "v": DEFAULT}, 0, said
    yield "a value of a byte more", words, {"s": WIDE, "v": DEFAULT + 1}, 1, LONG


def deepen(root, depth, most):
    """The root of a full tree of depth most, of that of its leftmost subtree."""
    for level in range(depth, most):
        root = pair(root, zeros_of(level))
    return root


def verify_cases():
    text, root = leaves(19)
    words = ["verify", hexed(root), "p"]
    yield "verify of 2^19 leaves", words, {"p": text + b"\n"}, 0, "valid"
    yield "verify, an index twice", words, {"p": b"proof 1048575=" + text[6:]}, 1, "badproof"
    yield "verify, cut", words, {"p": text[:-2]}, 1, "badproof"
    yield "verify, 2^26 bytes", words, {"p": padded(text, MOST)}, 1, "badproof"
    yield "verify, a byte more", words, {"p": padded(text, MOST + 1)}, 1, "badproof"
    top = (1 << 128) - 1
    nodes, node, root = [], top, chunk(0)
    while node > 1:
        nodes.append((node - 1, chunk(1)))
        node, root = node // 2, pair(chunk(1), root)
    deep = {"p": proof([(top, chunk(0))], nodes).encode()}
    yield "verify, index 2^128 - 1", ["verify", hexed(root), "p"], deep, 0, "valid"
    deep = {"p": proof([(top + 1, chunk(0))], nodes).encode()}
    yield "verify, index 2^128", ["verify", hexed(root), "p"], deep, 1, "badproof"


def run_cases():
    def case(name, text, status, said, *more, files={}):
        files = {"s": WIDE, "script": text, **files}
        return name, ["run", "s", "script", *more], files, status, said
    yield case("a comment of 2^26 bytes", b"#" * MOST, 0, "")
    yield case("a script of a byte more", b"#" * (MOST + 1), 1, LONG)
    yield case("a word of 2^26 bytes", b"a" * MOST, 1, "refused 1 1 Syntax")
    yield case("2^26 blank lines", b"\n" * MOST, 0, "")
    yield case("a literal of 2^26 bytes", b"lit V B 0x" + b"0" * (MOST - 10), 0, "ok")
    for what, step in ("numbers", b"/0"), ("names", b"/a"):
        text = b"new V B\nset V " + step * ((MOST - 18) // 2) + b" 0x"
        yield case("a path of 33 million " + what, text, 1, "ok\nrefused 2 5 BadPath")
    text = b"new V B\nprove V" + b" 1" * ((MOST - 15) // 2)
    said = "ok\n" + proof([(1, pair(deepen(chunk(0), 0, 35), chunk(0)))], [])
    yield case("an index 33 million times", text, 0, said)
    text = b"new V W\nappend V / 0x0700000000000000\nroot V\nlen V /\n"
    said = "ok\nok\nroot %s\nlen 1" % hexed(pair(merkleize([chunk(7)], 60), chunk(1)))
    yield case("an append to a list of 2^62", text, 0, said)
    text = b"new V LL\nappend V / 0x\nappend V /0 0x0500000000000000\nroot V\ngindex LL /0/0\n"
    inner = pair(merkleize([chunk(5)], 60), chunk(1))
    said = ("ok\nok\nok\nroot %s\ngindex 21267647932558653966460912964485513216"
            % hexed(pair(merkleize([inner], 62), chunk(1))))
    yield case("lists of 2^62 in one another", text, 0, said)
    text = b"load V W v\nbytes V /\njson V /\nsave V f\nlen V /\n"
    said = 'ok\nbytes 0x0700000000000000\njson ["7"]\nok\nlen 1'
    file = {"v": chunk(7)[:8]}
    yield case("--max-bytes 8", text, 0, said, "--max-bytes", "8", files=file)
    text = b"lit V W 0x0700000000000000\nload W W v\nbytes V /\njson V /\nsave V f\nlen V /\n"
    said = ("ok\nrefused 2 12 TooLong\nrefused 3 12 TooLong\njson [\"7\"]\nrefused 5 12 TooLong\n"
            "len 1")
    yield case("--max-bytes 7", text, 1, said, "--max-bytes", "7", files=file)
    said = said.replace('json ["7"]', "refused 4 12 TooLong")
    yield case("--max-bytes 4", text, 1, said, "--max-bytes", "4", files=file)


def weave_cases():
    files = {"s": TYPES, "base": b"new S P\n", "one": b"list\n"}
    words = ["weave", "s", "base", "0123456789"] + ["one"] * 10
    said = "\n".join(["base: ok"] + ["%d: list S" % writer for writer in range(10)])
    yield "a weave of ten", words, files, 0, said
    words = ["weave", "s", "base", "0" * 65536, "one"]
    yield "an order of 2^16 digits", words, files, 0, "base: ok\n0: list S"
    words = ["weave", "s", "base", "0", "one"]
    for name in "base", "one":
        long = {**files, name: b"#" * (MOST + 1)}
        yield "weave, %s of a byte more" % name, words, long, 1, LONG
    full_base = {**files, "base": b"new S P\n#" + b"#" * (MOST - 9)}
    yield "weave, base of 2^26 bytes", words, full_base, 0, "base: ok\n0: list S"


def part_cases():
    files = {"s": WIDE, "v": bytes(16)}
    words = ["part", "s", "B", "v"]
    for most, status, said in ("16", 0, "bytes 0x" + "0" * 32), ("15", 1, LONG):
        yield "part, --max-bytes " + most, words + ["/", "--max-bytes", most], files, status, said
    yield "part, 2^16 steps", words + ["/0" * 65535], files, 1, "refused 0 5 BadPath"
    yield "part, element 2^40", words + ["/1099511627776"], files, 1, "refused 0 5 BadPath"
    yield "part, element 2^64", words + ["/18446744073709551616"], files, 2, USAGE
    yield "part of 2^28 bytes", words + ["/268435455"], {**files, "v": DEFAULT}, 0, "bytes 0x00"


def partial_cases():
    text, root = leaves(19)
    # The leaves are the chunks of a vector of 2^21 uint64.
    known = {"s": schema('["V",{"vector":["uint64",2097152]}]'), "p": text,
             "t": b"root\nget /2097148\n"}
    said = "root %s\nbytes 0xffff0f0000000000" % hexed(root)
    words = ["partial", "s", "V", "p", "t"]
    yield "partial of 2^19 leaves", words, known, 0, said
    yield "partial, long proof", words, {**known, "p": padded(text, MOST + 1)}, 1, "badproof"
    yield "partial, script of 2^26", words, {**known, "t": b"#" * MOST}, 0, ""
    yield "partial, a byte more", words, {**known, "t": b"#" * (MOST + 1)}, 1, LONG


def clash_cases():
    text, root = leaves(19)
    words = ["clash", "p", "q"]
    yield "clash of 2^19 leaves", words, {"p": text, "q": text}, 0, "same"
    last = proof([((2 << 19) - 1, chunk(0))], [])[5:-2].encode()
    other = text[:text.rindex(b" 1048575=")] + last + b" /"
    chunks = [chunk(place) for place in range(1 << 19, (2 << 19) - 1)] + [chunk(0)]
    said = "otherroot %s %s" % (hexed(root), hexed(merkleize(chunks, 19)))
    yield "clash, the last differs", words, {"p": text, "q": other}, 1, said
    yield "clash, long first", words, {"p": padded(text, MOST + 1), "q": text}, 1, "badproof 1"
    yield "clash, long second", words, {"p": text, "q": padded(text, MOST + 1)}, 1, "badproof 2"


def large_cases():
    """Run only where they are asked for."""
    words = ["part", "s", "B", "v", "/4294967294", "--max-bytes", "4294967295"]
    most = (1 << 32) - 1
    yield "a value of 2^32 - 1 bytes", words, {"s": WIDE, "v": most}, 0, "bytes 0x00"
    yield "a value of 2^32 bytes", words, {"s": WIDE, "v": most + 1}, 1, LONG


def give(name, data):
    """Writes a file; a number stands for as many zero bytes."""
    with open(name, "wb") as file:
        if isinstance(data, int):
            file.truncate(data)
        else:
            file.write(data)


def run(words):
    """The status, the output, the seconds and the peak in MiB."""
    command = ["/usr/bin/time", "-q", "-f", "%U %S %M", "-o", "took", SSZ, *words]
    ran = subprocess.run(command, capture_output=True, env={})
    with open("took", encoding="ascii") as file:
        user, system, kib = file.read().split()
    return ran.returncode, ran.stdout.decode(), float(user) + float(system), int(kib) / 1024


def main(only):
    runs, differed = 0, 0
    print("load %.1f" % os.getloadavg()[0])
    print("%-30s %6s %8s %8s" % ("what", "status", "seconds", "MiB"))
    groups = [root_cases, verify_cases, run_cases, weave_cases, part_cases, partial_cases,
              clash_cases]
    with tempfile.TemporaryDirectory() as room:
        os.chdir(room)
        for cases in groups + [large_cases] * (only == "2^32"):
            for name, words, files, status, said in cases():
                if only not in name:
                    continue
                for file in files.items():
                    give(*file)
                ended = run(words)
                good = ended[:2] == (status, said + "\n" if said else "")
                runs, differed = runs + 1, differed + (not good)
                print("%-30s %6d %8.2f %8.1f%s" % (name, ended[0], *ended[2:], "" if good else
                      "  DIFFERS: " + ended[1][:200]), flush=True)
    print("%d runs, %d differed" % (runs, differed))
    sys.exit(1 if differed or not runs else 0)


if __name__ == "__main__":
    main(words_of(__doc__, "word").word)
