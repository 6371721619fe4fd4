"""Commands on proofs: gindex, prove, verify, branch, show."""

from __future__ import annotations

import argparse

from ..errors import BadProof
from ..proof import Branch, Proof, verify as leads_to
from ..schema import Type
from . import picture
from .progress import Progress
from .values import show_json
from .words import Problem, checked, content, is_digits, problem, root_of, type_of, value_of, write

Given = argparse.Namespace


def gindex(given: Given) -> int:
    """Prints the generalized index of each part."""
    kind = type_of(given.schema, given.type)
    for path in given.paths:
        print(kind.gindex(path) if len(given.paths) == 1 else f"{path} {kind.gindex(path)}")
    return 0


def prove(given: Given) -> int:
    """Prints the multiproof of parts, as verify and ssz verify take it."""
    kind = type_of(given.schema, given.type)
    print(proof_of(kind, checked(kind, given.value, given.hex), given.paths))
    return 0


def verify(given: Given) -> int:
    """Says whether a proof leads to a root; the status is 1 where it does not."""
    root, text = root_of(given.root), given.proof.encode() if given.proof[:6] == "proof " else content(given.proof)
    try:
        is_right = leads_to(root, text.removesuffix(b"\n"))
    except BadProof as error:
        raise problem(given.proof[:40], f"this is no proof: {error}") from None
    print("valid: the proof leads to the root" if is_right else "invalid: the proof leads to another root")
    return int(not is_right)


def names_on(kind: Type, paths: list[str]) -> dict[int, str]:
    """The indices of the parts on the way to paths, with their last step."""
    names = {1: kind.name}
    for path in paths:
        steps = path.split("/")[1:] if path != "/" else []
        for count in range(1, len(steps) + 1):
            names.setdefault(kind.gindex("/" + "/".join(steps[:count])), "/" + steps[count - 1])
    return names


def proof_of(kind: Type, data: bytes, paths: list[str]) -> Proof:
    """The proof of parts of a value."""
    for path in paths:
        kind.gindex(path)
    with Progress(f"hashing {len(data):,} bytes"), kind.schema.session() as session:
        session.load("V", kind.name, data)
        return session.prove("V", *paths)


def show(given: Given) -> int:
    """Draws the tree on the way to parts, as SVG: leaves, helpers and root of their proof."""
    kind = type_of(given.schema, given.type)
    data = checked(kind, given.value, given.hex)
    proof = proof_of(kind, data, given.paths)
    text = picture.svg(proof, names_on(kind, given.paths), f"{kind.name}: {' '.join(given.paths)}")
    if given.out in (None, "-"):
        print(text, end="")
    else:
        write(text.encode(), given.out)
    return 0


def branch(given: Given) -> int:
    """Turns a proof of one place into a light client's branch, and a branch into a proof."""
    words = given.words
    if len(words) == 4 and not words[0].isdigit():
        kind = type_of(words[0], words[1])
        return show_branch(proof_of(kind, checked(kind, words[2], given.hex), [words[3]]))
    if len(words) == 1 and not words[0].isdigit():
        try:
            return show_branch(Proof.parse(content(words[0])))
        except (BadProof, ValueError, KeyError) as error:
            raise problem(words[0], f"this is no proof of one place ({error})", "It is one line, as prove prints it.") from None
    if words[0].isdigit() and len(words) > 1:
        chunks = [value_of(word) if is_digits(word) else b"" for word in words[1:]]
        bad = next((word for word, chunk in zip(words[1:], chunks) if len(chunk) != 32), None)
        if bad:
            raise problem(bad, "this is no chunk", "A leaf and a node are 0x and 64 hexadecimal digits.")
        try:
            print(Proof.of_branch(int(words[0]), chunks[0], chunks[1:]))
        except ValueError as error:
            raise problem(words[0], str(error)) from None
        return 0
    raise Problem("branch takes SCHEMA TYPE VALUE PATH, or a file with a proof, or INDEX LEAF NODE..; ssz branch --help has examples")


def show_branch(proof: Proof) -> int:
    """Prints a branch as JSON."""
    found: Branch = proof.branch()
    show_json({"index": found.index, "leaf": "0x" + found.leaf.hex(), "branch": ["0x" + node.hex() for node in found.nodes]}, False)
    return 0
