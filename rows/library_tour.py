#!/usr/bin/env python3
"""Writes the data of crates/library_tour, and all lines that it must print.

  python3 rows/library_tour.py      from anywhere

The value is that of docs/ssz.md. What is wanted is computed by ssz.py and by the machine of scripts over it.
"""
import argparse
import os

import ssz
from program.machine import Machine
from program.works import Generator, walk

CRATE = os.path.join(os.path.dirname(os.path.abspath(__file__)), "..", "crates", "library_tour")
SCHEMA = """{"ssz":1,"types":[
["T",{"container":[["a","uint16"],["b",{"list":["uint64",16]}],["c","boolean"]]}],
["Newer",{"container":[["a","uint16"],["b",{"list":["uint64",16]}],["c","boolean"],["d",{"list":["uint8",4]}]]}]
]}
"""
VALUE = "lit V T 0xaabb0700000001" + "".join(n.to_bytes(8, "little").hex() for n in range(1, 6))
SCRIPT = "new V T\nappend V /b 0x0900000000000000\nroot V\nfrob\n"


def parts():
    """The lines of values, slices, proofs and partial, with the proof of `a`."""
    machine = Machine(SCHEMA)
    for line in VALUE, "fork V W", "set W /a 0x0700", "upgrade W N Newer":
        machine.statement(line)
    say = machine.statement
    proof = say("prove V /a")
    t = machine.types["T"]
    index = ssz.generalized_index(t, ssz.path_of("/b/4"))
    helpers = " ".join(str(i) for i in ssz.helper_indices([index]))
    yield f"equal types: {str(t == machine.types['Newer']).lower()}"
    yield say("bytes W /").replace("bytes", "edited")
    yield say("json N /")
    yield "read again: true"
    yield say("bytes V /a").replace("bytes", "a is")
    yield f"b has {say('len V /b').split()[1]} elements, element 4 is 5"
    yield say("root V")
    yield f"index {index}, helpers {helpers}"
    yield "the proof leads to the root: true"
    yield "the leaves are the same"
    yield f"a is known: its 2 bytes begin with {0xaa}"
    yield say("root W").replace("root", "with a = 7 the root is")
    with open(os.path.join(CRATE, "data", "proof.txt"), "w", encoding="ascii") as file:
        file.write(proof + "\n")


def nodes():
    """The lines of trees, versions and views."""
    machine = Machine(SCHEMA)
    for line in VALUE, "fork V W", "set W /b/4 0x0900000000000000", "upgrade W N Newer":
        machine.statement(line)
    say = machine.statement
    encoding = say("bytes N /").split()[1]
    yield say("root W").replace("root", "edited root")
    yield "the length of b has the " + say("prove V /b/#len")
    yield "it leads to the root: true"
    yield "first is the old value: true, second is the new one: true"
    yield say("root N").replace("root", "upgraded root")
    yield f"b has {say('len N /b').split()[1]} elements, element 4 is 9"
    yield f"its encoding has {len(encoding) // 2 - 1} bytes"
    yield f"encoding {encoding}"


def scripts():
    """The lines of a script and of drawn edits."""
    replies, _ = Machine(SCHEMA).script(SCRIPT)
    yield "4 lines, the first that is no statement: Some(4)"
    yield "replies: " + replies[0]
    yield from replies[1:]
    yield "status 1"
    machine, generator, done = Machine(SCHEMA), Generator(7), 0
    machine.statement("new w T")
    for _ in range(100):
        edit = walk(generator, *machine.versions["w"], [])
        if edit is not None:
            machine.statement(edit)
            done += 1
    yield f"drawn: work 100 {done}"
    yield machine.statement("root w")
    yield "status 0"


def main():
    with open(os.path.join(CRATE, "data", "types.json"), "w", encoding="ascii") as file:
        file.write(SCHEMA)
    with open(os.path.join(CRATE, "data", "t.ssz"), "wb") as file:
        file.write(bytes.fromhex(VALUE.split("0x")[1]))
    lines = [*parts(), *nodes(), *scripts()]
    with open(os.path.join(CRATE, "stdout"), "w", encoding="ascii") as file:
        file.write("\n".join(lines) + "\n")


if __name__ == "__main__":
    argparse.ArgumentParser(description=__doc__, formatter_class=argparse.RawDescriptionHelpFormatter).parse_args()
    main()
