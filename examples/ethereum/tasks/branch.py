#!/usr/bin/env python3
"""Turns the proof of one place into a branch, and a branch into a proof.

  branch.py PROOF                     PROOF is a file with the line that `prove` prints: prints the index, the leaf and the branch, each in
                                      a line, the branch from the leaf up, as the specifications' is_valid_merkle_branch takes it
  branch.py INDEX LEAF NODE..         prints the proof's line, which `ssz verify ROOT FILE` takes
"""
import sys


def branch_of(line):
    """The index, the leaf and the nodes of a proof of one place."""
    leaves, nodes = line.removeprefix("proof ").split(" / ") if " / " in line else (line.removeprefix("proof ").rstrip(" /"), "")
    index, leaf = leaves.split("=")
    return [index, leaf] + [node.split("=")[1] for node in nodes.split()]


def proof_of(index, leaf, nodes):
    """The line of a proof, whose nodes stand beside the path from the leaf up."""
    named = [f"{(index >> level) ^ 1}={node}" for level, node in enumerate(nodes)]
    return " ".join(["proof", f"{index}={leaf}", "/"] + named)


def main(words):
    if len(words) == 1 and not words[0].startswith("-"):
        with open(words[0], encoding="ascii") as file:
            print("\n".join(branch_of(file.read().strip())))
    elif len(words) > 1:
        print(proof_of(int(words[0]), words[1], words[2:]))
    else:
        sys.exit(__doc__)


if __name__ == "__main__":
    if {"-h", "--help"} & set(sys.argv[1:]):
        sys.exit(print(__doc__))
    main(sys.argv[1:])
