"""Proofs: texts are judged by the grammar alone, leaves and nodes by their indices, and roots are those that hashlib makes."""

from __future__ import annotations

import copy
import hashlib
import pickle
import random
import re
import time
import unittest
from types import SimpleNamespace
from typing import Any, Callable, NamedTuple, Optional
from unittest import mock

import ssz
from ssz.proof import as_chunk

TEXTS = 4000
#: The form of a proof's line (docs/formats.md, Proofs).
_ENTRY = r" [1-9][0-9]{0,38}=0x[0-9a-fA-F]{64}"
LINE = re.compile(rf"proof((?:{_ENTRY})+) /((?:{_ENTRY})*)\n?")
Nodes = dict[int, bytes]


class Judged(NamedTuple):
    """A proof's leaves and helpers, and the root that they lead to."""

    leaves: Nodes
    helpers: Nodes
    root: bytes


def hashed(left: bytes, right: bytes) -> bytes:
    """The node above two."""
    return hashlib.sha256(left + right).digest()


def branch_indices(index: int) -> list[int]:
    """The siblings of the nodes from an index to the root (consensus-specs, ssz/merkle-proofs.md)."""
    return [(index >> level) ^ 1 for level in range(index.bit_length() - 1)]


def path_indices(index: int) -> list[int]:
    """The nodes from an index to the root."""
    return [index >> level for level in range(index.bit_length())]


def helper_indices(leaves: list[int]) -> list[int]:
    """The nodes that leaves need, in descending order."""
    helpers = {node for index in leaves for node in branch_indices(index)}
    return sorted(helpers - {node for index in leaves for node in path_indices(index)}, reverse=True)


def root_of(leaves: Nodes, helpers: Nodes) -> bytes:
    """The root that leaves and helpers lead to."""
    known = {**leaves, **helpers}
    for index in sorted({node >> 1 for leaf in leaves for node in path_indices(leaf) if node > 1}, key=int.bit_length, reverse=True):
        known[index] = hashed(known[2 * index], known[2 * index + 1])
    return known[1]


def judged(leaves: list[tuple[int, bytes]], helpers: list[tuple[int, bytes]]) -> Optional[Judged]:
    """What leaves and helpers are; None where they are no multiproof."""
    indices = [index for index, _ in leaves]
    is_sound = len(set(indices)) == len(indices) > 0 and all(0 < index < 1 << 128 for index in indices)
    if not is_sound or {above for index in indices for above in path_indices(index >> 1)} & set(indices):
        return None
    if [index for index, _ in helpers] != helper_indices(indices):
        return None
    return Judged(dict(leaves), dict(helpers), root_of(dict(leaves), dict(helpers)))


def read(text: str) -> Optional[Judged]:
    """What a text is, by the grammar; None where it is no proof."""
    found = LINE.fullmatch(text)
    if not found:
        return None
    entries = [[word.split("=0x") for word in words.split()] for words in found.groups()]
    leaves, helpers = ([(int(index), bytes.fromhex(chunk)) for index, chunk in words] for words in entries)
    return judged(leaves, helpers)


def written(leaves: list[tuple[int, bytes]], helpers: list[tuple[int, bytes]]) -> str:
    """The line of leaves and helpers, in this order."""
    words = [[f"{index}=0x{chunk.hex()}" for index, chunk in nodes] for nodes in (leaves, helpers)]
    return " ".join(["proof", *words[0], "/", *words[1]])


def drawn(draw: random.Random) -> tuple[list[tuple[int, bytes]], list[tuple[int, bytes]]]:
    """Leaves, none of which is above another, and their helpers."""
    indices: list[int] = []
    for _ in range(draw.randint(1, 5)):
        index = draw.randrange(1, 1 << draw.choice([2, 3, 4, 6, 6, 20] if draw.random() < 0.95 else [60, 128]))
        if not any(index in path_indices(other) or other in path_indices(index) for other in indices):
            indices.append(index)
    return ([(index, draw.randbytes(32)) for index in indices], [(index, draw.randbytes(32)) for index in helper_indices(indices)])


def mistaken(draw: random.Random, text: str) -> str:
    """A proof's line with a mistake, or with a change that is none."""
    at = draw.randrange(len(text))
    words = text.split(" ")
    one, other = draw.randrange(len(words)), draw.randrange(len(words))
    swapped = list(words)
    swapped[one], swapped[other] = words[other], words[one]
    ways: list[Callable[[], str]] = [
        lambda: text[:at] + draw.choice("0129afAFgxX=/+-_. \t\n\r\0\x7f") + text[at + 1 :],
        lambda: text[:at] + draw.choice(["0", "+", " ", "_", "=", "0x", "\n"]) + text[at:],
        lambda: text[:at] + text[at + 1 :],
        lambda: text[:at] + text[at].swapcase() + text[at + 1 :],
        lambda: text + draw.choice([" ", "\n", "\n\n", "\r\n", "\0", "/", " /"]),
        lambda: draw.choice([" ", "\n", "\ufeff", "x"]) + text,
        lambda: " ".join(swapped),
        lambda: " ".join(words[:one] + words[one + 1 :]),
        lambda: " ".join(words[:one] + [words[other]] + words[one:]),
        lambda: re.sub(r" (\d+)=", lambda found: f" {int(found[1]) ^ 1 << draw.randrange(4)}=", text, count=draw.randint(1, 2)),
    ]
    return draw.choice(ways)()


ONE, TWO, THREE = (bytes([number]) * 32 for number in (1, 2, 3))
GOOD = written([(2, ONE)], [(3, TWO)])
ROOT = hashed(ONE, TWO)
#: Lines that are no proof.
BAD_LINES = {
    "nothing": "",
    "a sign": GOOD.replace("2=", "+2="),
    "a leading zero": GOOD.replace("2=", "02="),
    "a blank at the end": GOOD + " ",
    "a blank at the start": " " + GOOD,
    "two blanks": GOOD.replace(" /", "  /"),
    "a tab": GOOD.replace(" /", "\t/"),
    "two line feeds": GOOD + "\n\n",
    "a carriage return": GOOD + "\r\n",
    "0X": GOOD.replace("0x", "0X"),
    "a sign in digits": GOOD.replace("0x01", "0x+1"),
    "63 digits": GOOD.replace("0x01", "0x1"),
    "digits of another script": GOOD.replace("2=", "２="),
    "a lone surrogate": GOOD + "\ud800",
    "a NUL": GOOD + "\0",
    "another word": GOOD.replace("proof", "Proof"),
    "no leaf": written([], [(2, ONE), (3, TWO)]),
    "no slash": GOOD.replace(" /", ""),
    "two slashes": GOOD + " /",
    "a leaf twice": written([(2, ONE), (2, ONE)], [(3, TWO)]),
    "a leaf twice, with two chunks": written([(2, ONE), (2, TWO)], [(3, TWO)]),
    "a leaf above another": written([(2, ONE), (4, TWO)], [(5, ONE), (3, TWO)]),
    "a leaf among the nodes": written([(2, ONE)], [(3, TWO), (2, ONE)]),
    "nodes in ascending order": written([(4, ONE)], [(3, TWO), (5, TWO)]),
    "a node that is missing": written([(4, ONE)], [(5, TWO)]),
    "index 0": GOOD.replace("2=", "0="),
    "index 2^128": GOOD.replace("2=", f"{1 << 128}="),
    "an index of 5,000 digits": GOOD.replace("2=", f"{'9' * 5000}="),
}
#: What is no root, and the error.
BAD_ROOTS: list[tuple[Any, type]] = [
    (32, TypeError), (True, TypeError), (None, TypeError), (1.5, TypeError), ([0] * 32, TypeError), (10**6000, TypeError), (b"", ValueError),
    (bytes(31), ValueError), (bytes(33), ValueError), (memoryview(bytes(64)).cast("H"), ValueError), (memoryview(bytes(32)).cast("H"), ValueError),
    ("", ValueError), ("00" * 31, ValueError), ("0x" + "00" * 33, ValueError), ("0X" + "00" * 32, ValueError), ("01 " * 32, ValueError),
    ("00" * 32 + "\n", ValueError), (" " + "00" * 32, ValueError), ("+" + "0" * 63, ValueError), ("zz" * 32, ValueError), ("\ud800" * 64, ValueError),
    ("０" * 64, ValueError), ("0x" * 32, ValueError),
]
#: Leaves and helpers that are no multiproof.
BAD_NODES: dict[str, tuple[Any, Any]] = {
    "no leaf": ({}, {}),
    "no leaf and a root": ({}, {1: ONE}),
    "index 0": ({0: ONE}, {}),
    "a negative index": ({-2: ONE}, {3: TWO}),
    "index 2^128": ({1 << 128: ONE}, {}),
    "a huge index": ({10**6000: ONE}, {}),
    "True": ({True: ONE}, {}),
    "a float": ({2.0: ONE}, {3: TWO}),
    "a text": ({"2": ONE}, {3: TWO}),
    "None": ({None: ONE}, {3: TWO}),
    "indices of several kinds": ({2: ONE, "3": TWO}, {}),
    "a helper at 0": ({2: ONE}, {3: TWO, 0: ONE}),
    "a helper at True": ({2: ONE}, {3: TWO, True: ONE}),
    "a number as a chunk": ({2: 32}, {3: TWO}),
    "a number as a helper's chunk": ({2: ONE}, {3: 32}),
    "digits as a chunk": ({2: ONE.hex()}, {3: TWO}),
    "a list as a chunk": ({2: [1] * 32}, {3: TWO}),
    "a chunk of 31 bytes": ({2: ONE[:31]}, {3: TWO}),
    "a chunk of 33 bytes": ({2: ONE}, {3: TWO + b"\0"}),
    "16 numbers of 2 bytes": ({2: memoryview(ONE).cast("H")}, {3: TWO}),
    "a node that is missing": ({4: ONE}, {5: TWO}),
    "all nodes missing": ({4: ONE}, {}),
    "a node too many": ({2: ONE}, {3: TWO, 7: TWO}),
    "a leaf among the helpers": ({2: ONE}, {2: ONE, 3: TWO}),
}
#: Words that are no branch, and what the error says.
BAD_BRANCHES: dict[str, tuple[Any, Any, Any, str]] = {
    "index 0": (0, ONE, [], "index"),
    "a negative index": (-1, ONE, [], "index"),
    "True": (True, ONE, [], "index"),
    "a float": (2.0, ONE, [TWO], "index"),
    "a text": ("2", ONE, [TWO], "index"),
    "None": (None, ONE, [TWO], "index"),
    "index 2^128": (1 << 128, ONE, [TWO] * 128, "2^128 - 1"),
    "a huge index": (10**6000, ONE, [TWO], "2^128 - 1"),
    "too few nodes": (105, ONE, [TWO] * 5, "6 nodes, and 5"),
    "too many nodes": ((1 << 128) - 1, ONE, [TWO] * 128, "127 nodes, and 128"),
    "a number as a leaf": (2, 32, [TWO], "a leaf is 32 bytes"),
    "a number as a node": (2, ONE, [32], "a node is 32 bytes"),
    "a node of 31 bytes": (2, ONE, [TWO[:31]], "a node is 32 bytes"),
    "nodes in one": (2, ONE, TWO, "list of chunks"),
    "no nodes": (2, ONE, None, "list of chunks"),
    "nodes in a set": (2, ONE, {TWO}, "list of chunks"),
    "nodes in a dict": (2, ONE, {TWO: 1}, "list of chunks"),
}


class Texts(unittest.TestCase):
    """Lines of proofs."""

    def judge(self, text: str) -> bool:
        """Whether a text is a proof: all calls say so, or none."""
        wanted = read(text)
        if wanted is None:
            for given in (text, text.encode("utf-8", "surrogatepass")):
                self.assertRaises(ssz.BadProof, ssz.Proof.parse, given)
                self.assertRaises(ssz.BadProof, ssz.verify, ROOT, given)
            return False
        for given in (text, text.encode(), bytearray(text.encode()), memoryview(text.encode())):
            proof = ssz.Proof.parse(given)
            self.assertEqual((proof.leaves, proof.helpers), wanted[:2])
            self.assertEqual([ssz.verify(root, given) for root in (wanted.root, bytes(32))], [True, False])
        self.assertEqual([proof.verify(root) for root in (wanted.root, bytes(32))], [True, False])
        self.assertEqual(ssz.Proof.parse(str(proof)), proof)
        return True

    def test_drawn_lines(self) -> None:
        draw, count = random.Random(70), 0
        for turn in range(TEXTS):
            text = written(*drawn(draw))
            for _ in range(turn % 3):
                text = mistaken(draw, text or " ")
            count += self.judge(text)
        self.assertTrue(TEXTS // 3 < count < TEXTS * 2 // 3, count)

    def test_lines_that_are_no_proof(self) -> None:
        for name, text in BAD_LINES.items():
            with self.subTest(name):
                self.assertFalse(self.judge(text))

    def test_lines_that_are_proofs(self) -> None:
        lines = [GOOD, GOOD + "\n", written([(1, ONE)], []), written([(3, ONE), (2, TWO)], []), GOOD.replace("01", "aB"),
                 written([((1 << 128) - 1, ONE)], [(index, TWO) for index in branch_indices((1 << 128) - 1)])]
        for text in lines:
            self.assertTrue(self.judge(text), text)

    def test_what_is_no_text(self) -> None:
        for given in (None, 5, ["proof"], object(), ssz.Proof):
            self.assertRaises(TypeError, ssz.Proof.parse, given)
            self.assertRaises(TypeError, ssz.verify, ROOT, given)

    def test_other_errors_are_their_own(self) -> None:
        long = "proof " + " " * (1 << 26)
        for does in (ssz.Proof.parse, lambda text: ssz.verify(ROOT, text)):
            with self.assertRaises(ssz.SszError) as caught:
                does(long)
            self.assertEqual((caught.exception.name, isinstance(caught.exception, ssz.BadProof)), ("TOO_LONG", False))
            with mock.patch("ssz.proof.library", lambda: SimpleNamespace(ssz_verify=lambda *_: ssz.Status.NO_MEMORY)):
                with self.assertRaises(ssz.SszError) as caught:
                    does(GOOD)
            self.assertEqual((caught.exception.name, isinstance(caught.exception, ssz.BadProof)), ("NO_MEMORY", False))

    def test_a_long_line_costs_as_much_as_short_ones(self) -> None:
        times = []
        for power in (14, 17):
            text = written([(index, ONE) for index in range(1 << power, 2 << power)], [])
            start = time.perf_counter()
            self.assertEqual(len(ssz.Proof.parse(text).leaves), 1 << power)
            times.append(time.perf_counter() - start)
        self.assertLess(times[1], 8 * 4 * times[0])


class Roots(unittest.TestCase):
    """What is taken as a root."""

    def test_what_is_none(self) -> None:
        proof = ssz.Proof.parse(GOOD)
        for root, error in BAD_ROOTS:
            for does in (proof.verify, as_chunk, lambda root: ssz.verify(root, GOOD), lambda root: ssz.verify(root, proof)):
                with self.assertRaises(error) as caught:
                    does(root)
                self.assertRegex(str(caught.exception), "32 bytes.*64 hexadecimal digits")
                self.assertLess(len(str(caught.exception)), 200)

    def test_what_is_one(self) -> None:
        proof = ssz.Proof.parse(GOOD)
        for root in (ROOT, bytearray(ROOT), memoryview(ROOT), ROOT.hex(), "0x" + ROOT.hex(), "0x" + ROOT.hex().upper()):
            self.assertTrue(proof.verify(root))
            self.assertTrue(ssz.verify(root, GOOD))
            self.assertEqual(as_chunk(root), ROOT)


class ByHand(unittest.TestCase):
    """Proofs made of leaves and helpers."""

    def test_what_is_no_proof(self) -> None:
        for name, (leaves, helpers) in BAD_NODES.items():
            with self.subTest(name):
                self.assertRaises(ssz.BadProof, lambda: ssz.Proof(leaves, helpers).verify(ROOT))
                self.assertRaises(ssz.BadProof, lambda: ssz.Proof(leaves, helpers).branch())

    def test_drawn_nodes(self) -> None:
        draw = random.Random(71)
        for _ in range(600):
            leaves, helpers = drawn(draw)
            proof, root = ssz.Proof(dict(leaves), dict(helpers)), root_of(dict(leaves), dict(helpers))
            self.assertEqual([proof.verify(root), proof.verify(bytes(32))], [True, False])
            if helpers:
                lacking = dict(helpers)
                del lacking[draw.choice(helpers)[0]]
                self.assertRaises(ssz.BadProof, ssz.Proof(dict(leaves), lacking).verify, root)

    def test_what_are_no_dicts(self) -> None:
        for given in (None, 5, [(2, ONE)], "2"):
            self.assertRaises(TypeError, ssz.Proof, given, {})
            self.assertRaises(TypeError, ssz.Proof, {2: ONE}, given)

    def test_nobody_changes_it(self) -> None:
        leaves, helpers, chunk = {2: ONE}, {3: TWO}, bytearray(ONE)
        proof, other = ssz.Proof(leaves, helpers), ssz.Proof({2: chunk}, helpers)
        leaves[4], chunk[0] = THREE, 9
        del helpers[3]
        self.assertEqual([each.verify(ROOT) for each in (proof, other)], [True, True])
        with self.assertRaises(TypeError):
            proof.leaves[4] = THREE  # type: ignore[index]
        with self.assertRaises(AttributeError):
            proof.leaves = {}  # type: ignore[misc]

    def test_equal_proofs(self) -> None:
        proof, other = ssz.Proof({2: ONE}, {3: TWO}), ssz.Proof({2: ONE}, {3: THREE})
        for same in (ssz.Proof.parse(GOOD), copy.copy(proof), copy.deepcopy(proof), pickle.loads(pickle.dumps(proof)),
                     eval(repr(proof), {"Proof": ssz.Proof})):
            self.assertEqual((same, hash(same), str(same), repr(same)), (proof, hash(proof), GOOD, repr(proof)))
            self.assertNotEqual(same, other)
        self.assertEqual(len({proof, other, ssz.Proof.parse(GOOD)}), 2)


class Branches(unittest.TestCase):
    """Proofs of one leaf."""

    def test_drawn_branches(self) -> None:
        draw = random.Random(72)
        for turn in range(300):
            index = draw.randrange(1, 1 << (turn % 128 + 1))
            leaf, nodes = draw.randbytes(32), [draw.randbytes(32) for _ in branch_indices(index)]
            root = leaf
            for level, node in enumerate(nodes):
                root = hashed(node, root) if index >> level & 1 else hashed(root, node)
            proof = ssz.Proof.of_branch(index, leaf, nodes)
            self.assertEqual(proof.branch(), ssz.Branch(index, leaf, nodes))
            self.assertEqual([proof.verify(root), proof.verify(bytes(32))], [True, False])

    def test_what_is_no_branch(self) -> None:
        for name, (index, leaf, nodes, word) in BAD_BRANCHES.items():
            with self.subTest(name):
                with self.assertRaises(ValueError) as caught:
                    ssz.Proof.of_branch(index, leaf, nodes)
                self.assertIn(word, str(caught.exception))

    def test_of_more_leaves_than_one(self) -> None:
        with self.assertRaises(ValueError) as caught:
            ssz.Proof({2: ONE, 3: TWO}, {}).branch()
        self.assertIn("one leaf, and this proof has 2", str(caught.exception))

    def test_other_nodes(self) -> None:
        branch = ssz.Branch(4, ONE, [TWO, THREE])
        for nodes in ((TWO, THREE), iter([TWO, THREE]), [bytearray(TWO), "0x" + THREE.hex()]):
            self.assertEqual(ssz.Proof.of_branch(4, ONE.hex(), nodes).branch(), branch)


if __name__ == "__main__":
    unittest.main()
