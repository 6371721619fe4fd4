#!/usr/bin/env python3
"""Writes the computed rows of crates/text_rows, and all lines that the program must print.

  python3 rows/text_rows.py      from anywhere

The rows of json, plain and slices, and what must be printed for them, are made in rows/text/. The
other rows are data of the crate, and the lines that are wanted for them stand in rows/text/ too;
the module of each subject, in crates/type_rows, script_rows or value_rows, says where they come from.
"""
import argparse
import os

from text import json_texts, plain, slices

ROWS = os.path.dirname(os.path.abspath(__file__))
CRATE = os.path.join(ROWS, "..", "crates", "text_rows")

# the subjects in the order of the program, and what makes the table of each, if anything does
SUBJECTS = {
    "schema": None,
    "words": None,
    "script": None,
    "codec": None,
    "roots": None,
    "json": json_texts.table,
    "plain": plain.table,
    "slices": slices.table,
}


def written(path, text):
    with open(path, "w", encoding="utf-8") as file:
        file.write(text)


def stored(subject):
    with open(os.path.join(ROWS, "text", subject + ".txt"), encoding="utf-8") as file:
        return file.read()


def made(subject, table):
    """The wanted lines of a table, whose files are written."""
    for ending, text in table.files.items():
        written(os.path.join(CRATE, "data", subject + ending), text)
    return "".join(line + "\n" for line in table.wanted)


def main():
    parts = []
    for subject, table in SUBJECTS.items():
        wanted = made(subject, table()) if table else stored(subject)
        parts.append("=== %s\n%s" % (subject, wanted))
    written(os.path.join(CRATE, "stdout"), "".join(parts))


if __name__ == "__main__":
    argparse.ArgumentParser(description=__doc__, formatter_class=argparse.RawDescriptionHelpFormatter).parse_args()
    main()
