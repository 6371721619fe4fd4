#!/usr/bin/env python3
"""Writes src/known_branches.rt of crates/call_tests: branches that lead to known roots.

  python3 rows/call_tests.py      from anywhere

The deposit contract's are made by hashlib alone. Those of states are what the machine of scripts over ssz.py proves of a state of
examples/ethereum. The generalized indices are the constants of the specifications (altair/light-client/sync-protocol.md and
electra/light-client/sync-protocol.md), and the root of the empty contract is mainnet's.
"""
import argparse
import hashlib
import os

from program.machine import Machine

TOP = os.path.join(os.path.dirname(os.path.abspath(__file__)), "..")
EMPTY_CONTRACT = "d70a234731285c6804c2a4f56711ddb8c82c99740f207854891028af34e27e5e"
HEAD = """// Branches that lead to known roots: a leaf, and the chunks beside its way to the root, from below.
// Made by rows/call_tests.py, which says of what.
"""


def pair(left, right):
    return hashlib.sha256(left + right).digest()


def contract(deposits, k):
    """The root of the deposit contract with these leaves, and leaf k with its branch: 32 levels, and the count beside them."""
    level, zero, place = list(deposits), bytes(32), k
    chunks = [deposits[k] if k < len(deposits) else zero]
    for _ in range(32):
        beside = place ^ 1
        chunks.append(level[beside] if beside < len(level) else zero)
        level = [pair(level[j], level[j + 1] if j + 1 < len(level) else zero) for j in range(0, len(level), 2)]
        zero, place = pair(zero, zero), place // 2
    count = len(deposits).to_bytes(32, "little")
    return pair(level[0] if level else zero, count), b"".join(chunks) + count


def state(fork):
    """A state of a fork with a slot and a finalized root: the machine that has it."""
    with open(f"{TOP}/examples/ethereum/{fork}.json", encoding="utf-8") as file:
        machine = Machine(file.read())
    for line in "new S BeaconState", "set S /slot 0x0700000000000000", "set S /finalized_checkpoint/root 0x" + "1d" * 32:
        assert machine.statement(line) == "ok"
    return machine


def proved(machine, index):
    """The root of the state, and the chunk at an index with its branch."""
    leaf, nodes = machine.statement(f"prove S {index}").removeprefix("proof ").split("/")
    chunks = [bytes.fromhex(word.partition("=0x")[2]) for word in (leaf + nodes).split()]
    return bytes.fromhex(machine.statement("root S").removeprefix("root 0x")), b"".join(chunks)


def constant(name, what, data):
    lines = ["    " + ", ".join(f"0x{byte:02x}" for byte in data[k:k + 16]) + "," for k in range(0, len(data), 16)]
    return f"\n// {what}.\npub const {name}: [u8; {len(data)}] = [\n" + "\n".join(lines) + "\n];\n"


def constants():
    root, branch = contract([], 0)
    assert root.hex() == EMPTY_CONTRACT
    yield "EMPTY_ROOT", "The root of the deposit contract of mainnet before its first deposit", root
    yield "EMPTY", "The zero leaf at 2^33 there", branch
    root, branch = contract([hashlib.sha256(bytes([k])).digest() for k in range(3)], 2)
    yield "DEPOSITS_ROOT", "The root of the contract with three deposits", root
    yield "DEPOSITS", "The last of these, at 2^33 + 2", branch
    for fork, finalized, committee in ("deneb", 105, 54), ("electra", 169, 86):
        machine, name = state(fork), fork.upper()
        root, branch = proved(machine, finalized)
        yield f"{name}_ROOT", f"The root of a state of {fork}", root
        yield f"{name}_FINALIZED", f"Its finalized root, at {finalized}", branch
        if fork == "deneb":
            yield f"{name}_CHECKPOINT", "The checkpoint of that root, at 52", proved(machine, finalized // 2)[1]
        yield f"{name}_COMMITTEE", f"Its current sync committee, at {committee}", proved(machine, committee)[1]


def main():
    argparse.ArgumentParser(description=__doc__, formatter_class=argparse.RawDescriptionHelpFormatter).parse_args()
    with open(f"{TOP}/crates/call_tests/src/known_branches.rt", "w", encoding="utf-8") as file:
        file.write(HEAD + "".join(constant(*one) for one in constants()))


main()
