#!/usr/bin/env python3
"""Says which fields of two values of a container differ, by the proofs of all their fields.

  diff.py SCHEMA TYPE ONE OTHER    prints the script that proves all fields of the values in the files ONE and OTHER
  diff.py SCHEMA TYPE SAID         SAID is a file with what that script printed (or another one that proves all fields of two versions):
                                   prints a line for each field that differs, with its two roots
"""
import json
import sys


def leaves_of(line):
    """The leaves of a proof's line by their indices."""
    words = line.removeprefix("proof ").split(" / ")[0].split()
    return dict(word.split("=") for word in words)


def fields_of(schema, name):
    """The names of a container's fields by their indices."""
    with open(schema, encoding="ascii") as file:
        fields = dict(json.load(file)["types"])[name]["container"]
    first = 1 << (len(fields) - 1).bit_length()
    return {str(first + number): field for number, (field, _) in enumerate(fields)}


def script(schema, name, files):
    """The script that proves all fields of the values in these files."""
    indices = " ".join(fields_of(schema, name))
    return "".join(f"load V{number} {name} {file}\nprove V{number} {indices}\n" for number, file in enumerate(files, 1))


def differing(schema, name, said):
    """The lines of the fields that differ."""
    with open(said, encoding="ascii") as file:
        one, other = (leaves_of(line) for line in file if line.startswith("proof "))
    fields = fields_of(schema, name).items()
    return "".join(f"/{field} {one[index]} {other[index]}\n" for index, field in fields if one[index] != other[index])


if __name__ == "__main__":
    if {"-h", "--help"} & set(sys.argv[1:]):
        sys.exit(print(__doc__))
    if len(sys.argv) not in (4, 5):
        sys.exit(__doc__)
    schema_file, type_name, *rest = sys.argv[1:]
    print(script(schema_file, type_name, rest) if len(rest) == 2 else differing(schema_file, type_name, *rest), end="")
