#!/usr/bin/env python3
"""Runs the test vectors of consensus-specs on SSZ (ssz_generic and ssz_static) over the program.

  spec_tests.py SSZ TESTS    SSZ is the program, a file or a name in the PATH; TESTS is the folder `tests` of the unpacked archives, which hold
                             general/phase0/ssz_generic/HANDLER/SUITE/CASE and PRESET/FORK/ssz_static/TYPE/SUITE/CASE

Each case is one call of `ssz root`: a valid encoding must get the root that the case names, an invalid one must be refused. What is passed
over is told with the reason: forks and handlers that have no schema here. The status is 1 where a case differs.
"""
import collections
import json
import os
import re
import shutil
import subprocess
import sys
import tempfile

HERE = os.path.dirname(os.path.realpath(__file__))
ELEMENTS = {"bool": "boolean", **{f"uint{bits}": f"uint{bits}" for bits in (8, 16, 32, 64, 128, 256)}}
CONTAINERS = {
    "SingleFieldTestStruct": [["A", "byte"]],
    "SmallTestStruct": [["A", "uint16"], ["B", "uint16"]],
    "FixedTestStruct": [["A", "uint8"], ["B", "uint64"], ["C", "uint32"]],
    "VarTestStruct": [["A", "uint16"], ["B", {"list": ["uint16", 1024]}], ["C", "uint8"]],
    "ComplexTestStruct": [
        ["A", "uint16"], ["B", {"list": ["uint16", 128]}], ["C", "uint8"], ["D", {"list": ["byte", 256]}], ["E", "VarTestStruct"],
        ["F", {"vector": ["FixedTestStruct", 4]}], ["G", {"vector": ["VarTestStruct", 2]}]],
    "BitsStruct": [
        ["A", {"bitlist": 5}], ["B", {"bitvector": 2}], ["C", {"bitvector": 1}], ["D", {"bitlist": 6}], ["E", {"bitvector": 8}]],
}
Case = collections.namedtuple("Case", "name schema type folder valid")


class Damaged(Exception):
    """What is no snappy block."""


def varint(data):
    """The number at the front of a snappy block, and where it ends."""
    value = 0
    for place, byte in enumerate(data[:5]):
        value |= (byte & 127) << 7 * place
        if byte < 128:
            return value, place + 1
    raise Damaged("no length")


def unsnapped(data):
    """The bytes of a snappy block (google/snappy, format_description.txt)."""
    length, at = varint(data)
    out = bytearray()
    while at < len(data):
        tag, at = data[at], at + 1
        if tag & 3 == 0:
            count = tag >> 2
            if count >= 60:
                more = count - 59
                count, at = int.from_bytes(data[at:at + more], "little"), at + more
            out += data[at:at + count + 1]
            at += count + 1
            continue
        if tag & 3 == 1:
            count, offset, at = (tag >> 2 & 7) + 4, (tag >> 5) << 8 | data[at], at + 1
        else:
            size = 2 if tag & 3 == 2 else 4
            count, offset, at = (tag >> 2) + 1, int.from_bytes(data[at:at + size], "little"), at + size
        if not 0 < offset <= len(out):
            raise Damaged("a copy from before the front")
        for _ in range(count):
            out.append(out[-offset])
    if len(out) != length:
        raise Damaged("another length than told")
    return bytes(out)


def generic_form(handler, name):
    """The form of a case of ssz_generic, by its name; None of one that is not known."""
    words = name.split("_")
    if handler == "uints" and words[0] == "uint":
        return f"uint{words[1]}"
    if handler == "boolean":
        return "boolean"
    if handler == "basic_vector" and words[0] == "vec":
        return {"vector": [ELEMENTS[words[1]], int(words[2])]}
    if handler == "bitvector" and words[0] == "bitvec":
        return {"bitvector": int(words[1])}
    if handler == "bitlist" and words[0] == "bitlist":
        return {"bitlist": 0 if words[1] == "no" else int(words[1])}
    if handler == "containers" and words[0] in CONTAINERS:
        return words[0]
    return None


def schema_text(form):
    """A schema of the containers and of one type `Case` of this form."""
    named = [[name, {"container": fields}] for name, fields in CONTAINERS.items()]
    return json.dumps({"ssz": 1, "types": named + [["Case", form]]})


def folders(top):
    """The names of the folders in a folder, in order."""
    return sorted(name for name in os.listdir(top) if os.path.isdir(os.path.join(top, name))) if os.path.isdir(top) else []


def generic_cases(top, room, skipped):
    """The cases of ssz_generic; their schemas are written to a folder."""
    for handler in folders(top):
        for suite in folders(os.path.join(top, handler)):
            for name in folders(os.path.join(top, handler, suite)):
                form = generic_form(handler, name)
                if form is None:
                    skipped[f"ssz_generic/{handler}: no form is known by the name {name.split('_')[0]}"] += 1
                    continue
                schema = os.path.join(room, re.sub(r"\W", "_", json.dumps(form)) + ".json")
                with open(schema, "w", encoding="ascii") as file:
                    file.write(schema_text(form))
                folder = os.path.join(top, handler, suite, name)
                yield Case(f"ssz_generic/{handler}/{suite}/{name}", schema, "Case", folder, suite == "valid")


def static_cases(top, preset, fork, skipped):
    """The cases of ssz_static of a fork."""
    schema = os.path.join(HERE, "" if preset == "mainnet" else preset, f"{fork}.json")
    if preset not in ("mainnet", "minimal") or not os.path.exists(schema):
        skipped[f"{preset}/{fork}: no schema"] += 1
        return
    with open(schema, encoding="ascii") as file:
        known = {name for name, _ in json.load(file)["types"]}
    for name in folders(top):
        if name not in known:
            skipped[f"{preset}/{fork}/ssz_static/{name}: no type of this name"] += 1
            continue
        for suite in folders(os.path.join(top, name)):
            for case in folders(os.path.join(top, name, suite)):
                folder = os.path.join(top, name, suite, case)
                yield Case(f"{preset}/{fork}/{name}/{suite}/{case}", schema, name, folder, True)


def cases(tests, room, skipped):
    """All cases of a folder of tests."""
    yield from generic_cases(os.path.join(tests, "general", "phase0", "ssz_generic"), room, skipped)
    for preset in folders(tests):
        for fork in folders(os.path.join(tests, preset)) if preset != "general" else []:
            yield from static_cases(os.path.join(tests, preset, fork, "ssz_static"), preset, fork, skipped)


def wanted_root(folder):
    """The root that a case names."""
    for name in ("roots.yaml", "meta.yaml"):
        path = os.path.join(folder, name)
        if os.path.exists(path):
            with open(path, encoding="utf-8") as file:
                return re.search(r"root: *['\"]?(0x[0-9a-f]{64})", file.read())[1]
    raise FileNotFoundError(folder)


def is_right(ssz, case, room):
    """Whether the program says of a case what it names, and what it said."""
    with open(os.path.join(case.folder, "serialized.ssz_snappy"), "rb") as file:
        value = unsnapped(file.read())
    path = os.path.join(room, "value.ssz")
    with open(path, "wb") as file:
        file.write(value)
    ran = subprocess.run([ssz, "root", case.schema, case.type, path, "--max-bytes=4294967295"], capture_output=True, text=True)
    said = ran.stdout.strip()
    if case.valid:
        return ran.returncode == 0 and said == f"root {wanted_root(case.folder)}", said
    return ran.returncode in (1, 3) and said.split(" ")[0] in ("invalid", "schema"), said


def main(ssz, tests):
    skipped, right, wrong = collections.Counter(), 0, 0
    with tempfile.TemporaryDirectory() as room:
        for case in cases(tests, room, skipped):
            holds, said = is_right(ssz, case, room)
            right, wrong = right + holds, wrong + (not holds)
            if not holds:
                print(f"{case.name}: {said}")
    for reason, count in sorted(skipped.items()):
        print(f"passed over: {reason} ({count})")
    print(f"{right} cases as they should be, {wrong} not")
    return 1 if wrong else 0


if __name__ == "__main__":
    if {"-h", "--help"} & set(sys.argv[1:]):
        sys.exit(print(__doc__))
    if len(sys.argv) != 3:
        sys.exit(__doc__)
    program = shutil.which(sys.argv[1])
    if not program:
        sys.exit(f"no program {sys.argv[1]}")
    sys.exit(main(os.path.realpath(program), sys.argv[2]))
