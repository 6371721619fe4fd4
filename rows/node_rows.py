#!/usr/bin/env python3
"""Writes the rows of crates/node_rows, and the lines that are wanted for them.

  python3 rows/node_rows.py      from anywhere; writes data/ and stdout

Everything is computed over plain values by hashlib and the rules of simple-serialize.md and
merkle-proofs.md (consensus-specs v1.4.0) alone, with nothing of this repository: one module of
rows/node a subject, over the encodings, trees and indices of its modules ssz_*.
"""
import argparse
import os

from node import edit, engine, partial, reading, tree

CRATE = os.path.join(os.path.dirname(os.path.abspath(__file__)), "..", "crates", "node_rows")


def write(name, text):
    with open(os.path.join(CRATE, name), "w", encoding="ascii") as file:
        file.write(text)


def main():
    printed = []
    for subject in (tree, reading, edit, partial, engine):
        files, wanted = subject.made()
        for name, text in files.items():
            write(os.path.join("data", name), text)
        printed += [subject.__name__.split(".")[-1], *wanted]
    write("stdout", "\n".join(printed) + "\n")


if __name__ == "__main__":
    argparse.ArgumentParser(description=__doc__, formatter_class=argparse.RawDescriptionHelpFormatter).parse_args()
    main()
