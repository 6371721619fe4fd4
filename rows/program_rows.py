#!/usr/bin/env python3
"""Writes the runs of crates/program_rows, and what is wanted of them.

  python3 rows/program_rows.py     from anywhere; writes data/ and stdout

Each module of rows/program has the runs of a subject, in the order in which they are run. What is
wanted is computed there from the text of the standard and of docs/formats.md over plain values, or
known from outside; nothing of the program takes part.
"""
import argparse
import os

from program import clashes, drawn, drawn_partials, ethereum, faults, known, partials, parts
from program import scripts, weaves, works
from program.runs import TOP, example

CRATE = os.path.join(TOP, "crates", "program_rows")
SUBJECTS = {
    "known.txt": (known, "roots and proofs whose answers are known from outside"),
    "ethereum.txt": (ethereum, "roots and generalized indices of the consensus layer's types"),
    "parts.txt": (parts, "parts of values in their encodings"),
    "clashes.txt": (clashes, "what two proofs come to"),
    "scripts.txt": (scripts, "scripts of versions"),
    "weaves.txt": (weaves, "scripts of several writers in turns"),
    "works.txt": (works, "drawn edits"),
    "partials.txt": (drawn_partials, "scripts over the chunks of a proof"),
    "faults.txt": (faults, "each command with a call that fails, each in turn"),
}
SCHEMAS = {
    "known.json": known.SCHEMA,
    "run.json": drawn.SCHEMA,
    "weave.json": weaves.TYPES,
    "work.json": works.TYPES,
    "partial.json": partials.SCHEMA,
    **{name: example(file) for name, file in ethereum.SCHEMAS.items()},
}


def write(name, text):
    with open(os.path.join(CRATE, name), "w", encoding="ascii", newline="") as file:
        file.write(text)


def main():
    os.makedirs(os.path.join(CRATE, "data"), exist_ok=True)
    for name, text in SCHEMAS.items():
        write(os.path.join("data", name), text)
    wanted = ""
    for name, (module, about) in SUBJECTS.items():
        runs = list(module.runs())
        text = "# %d runs: %s" % (len(runs), about)
        write(os.path.join("data", name), "\n".join([text] + [run.text() for run in runs]))
        wanted += "# %s\n" % name + "".join(run.wanted() for run in runs)
    write("stdout", wanted)


if __name__ == "__main__":
    argparse.ArgumentParser(description=__doc__, formatter_class=argparse.RawDescriptionHelpFormatter).parse_args()
    main()
