#!/usr/bin/env python3
"""Writes a folder in the layout of consensus-specs' test archives, for examples/ethereum/spec_tests.py to be run on.

  python3 rows/spec_tests.py FOLDER    writes FOLDER/tests

The archives themselves are not part of this repository. Values are drawn, encodings and roots come from ssz.py and hashlib; faulty ones
are encodings cut off, or with a byte or a bit too many. A snappy block is made of literals, and of copies where bytes repeat.
"""
import argparse
import os
import random
import sys

import ssz
from program.drawn_partials import Drawing

TOP = os.path.join(os.path.dirname(os.path.abspath(__file__)), "..")
ETHEREUM = os.path.join(TOP, "examples", "ethereum")
sys.path.insert(0, ETHEREUM)
from spec_tests import CONTAINERS, generic_form, schema_text  # noqa: E402

FORKS = ("phase0", "altair", "bellatrix", "capella", "deneb", "electra", "fulu")
STATIC = ("Fork", "Checkpoint", "Validator", "AttestationData", "IndexedAttestation", "Attestation", "BeaconBlockHeader", "SignedBeaconBlock")
VALID = {
    "uints": ["uint_8_random_0", "uint_64_max_1", "uint_256_random_2"],
    "boolean": ["true", "false"],
    "basic_vector": ["vec_bool_5_random_0", "vec_uint16_31_random_0", "vec_uint256_8_max_0"],
    "bitvector": ["bitvec_1_random_0", "bitvec_9_random_0", "bitvec_512_random_0"],
    "bitlist": ["bitlist_1_random_0", "bitlist_8_max_0", "bitlist_513_random_1"],
    "containers": [f"{name}_random_{number}" for name in CONTAINERS for number in range(3)],
    "basic_progressive_list": ["proglist_uint8_random_0"],
}


def snapped(data):
    """A snappy block of the bytes."""
    out, rest = bytearray(), len(data)
    while True:
        out.append(rest & 127 | (128 if rest > 127 else 0))
        rest >>= 7
        if not rest:
            break
    at = 0
    while at < len(data):
        if at >= 8 and data[at:at + 8] == data[at - 8:at]:
            out += bytes([(8 - 4) << 2 | 1, 8])
            at += 8
            continue
        piece = data[at:at + 60] if at % 8 else data[at:at + 8]
        out += bytes([(len(piece) - 1) << 2]) + piece
        at += len(piece)
    return bytes(out)


def write(folder, data, root, name):
    os.makedirs(folder)
    with open(os.path.join(folder, "serialized.ssz_snappy"), "wb") as file:
        file.write(snapped(data))
    if root is not None:
        with open(os.path.join(folder, name), "w", encoding="ascii") as file:
            file.write("{root: '0x%s'}\n" % root.hex())


def faulty(t, v):
    """Encodings of no value of the type."""
    data = ssz.encode(t, v)
    if t[0] != "bitlist":
        yield "short", data[:-1]
    if ssz.fixed_size(t) is not None:
        yield "long", data + b"\x00"
    if t[0] == "bitlist":
        yield "no_delimiter", b"\x00"
    if t == ssz.BOOLEAN:
        yield "two", b"\x02"


def generic(top, drawing):
    for handler, names in VALID.items():
        for name in names:
            form = generic_form(handler, name)
            if form is None:
                write(os.path.join(top, handler, "valid", name), b"", bytes(32), "meta.yaml")
                continue
            t = ssz.types_of(schema_text(form))["Case"]
            v = name == "true" if form == "boolean" else drawing.value(t)
            write(os.path.join(top, handler, "valid", name), ssz.encode(t, v), ssz.hash_tree_root(t, v), "meta.yaml")
            for fault, data in faulty(t, v):
                write(os.path.join(top, handler, "invalid", f"{name}_{fault}"), data, None, None)
    write(os.path.join(top, "basic_vector", "invalid", "vec_uint8_0_nil"), b"", None, None)


def static(top, types, drawing):
    for name in STATIC:
        t = types[name]
        for number in range(2):
            v = ssz.default(t) if number and name.startswith("Signed") else drawing.value(t)
            write(os.path.join(top, name, "ssz_random", f"case_{number}"), ssz.encode(t, v), ssz.hash_tree_root(t, v), "roots.yaml")
    write(os.path.join(top, "NoSuchType", "ssz_random", "case_0"), b"", bytes(32), "roots.yaml")


def main(folder):
    tests = os.path.join(folder, "tests")
    drawing = Drawing(1)
    generic(os.path.join(tests, "general", "phase0", "ssz_generic"), drawing)
    for preset in ("mainnet", "minimal"):
        for fork in FORKS:
            with open(os.path.join(ETHEREUM, "" if preset == "mainnet" else preset, f"{fork}.json"), encoding="ascii") as file:
                static(os.path.join(tests, preset, fork, "ssz_static"), ssz.types_of(file.read()), drawing)
    write(os.path.join(tests, "mainnet", "gloas", "ssz_static", "Fork", "ssz_random", "case_0"), b"", bytes(32), "roots.yaml")


if __name__ == "__main__":
    parser = argparse.ArgumentParser(description=__doc__, formatter_class=argparse.RawDescriptionHelpFormatter)
    parser.add_argument("folder", metavar="FOLDER")
    main(parser.parse_args().folder)
