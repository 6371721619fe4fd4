"""The door of Python: the calls of the package below the values' classes."""

from __future__ import annotations

from array import array
from typing import Any, Callable

import ssz

from . import careless
from .steps import BY_LINE, LACKS, NONE, Step, of_reply

#: Errors of the package's own, by their classes: what is no branch is a ValueError.
BRANCH = "BRANCH"


def said(error: ssz.SszError) -> str:
    """An error as ssz.h names its status."""
    name = error.status.name
    if name in ("INVALID", "BAD_SCHEMA", "BAD_JSON"):
        return f"{name} {error.code} {error.position}"
    return f"{name} {error.code}" if name == "REFUSED" else name


def text_of(word: bytes) -> str:
    """A text with these bytes; those that are no UTF-8 become what can't be encoded."""
    return word.decode("utf-8", "surrogateescape")


def hexed(data: bytes) -> str:
    return "ok 0x" + bytes(data).hex()


def as_buffer(data: bytes) -> Any:
    """Bytes as one of the objects that are taken for them, always the same for the same bytes."""
    kinds: list[Callable[[bytes], Any]] = [bytes, bytearray, memoryview, lambda data: array("B", data), lambda data: memoryview(bytearray(data))]
    if len(data) % 8 == 0:
        kinds += [lambda data: array("Q", data), lambda data: memoryview(array("h", data)), lambda data: memoryview(data).cast("B", (len(data) // 4, 4)) if data else data]
    return kinds[(len(data) + sum(data[:8])) % len(kinds)](data)


class Door:
    """A round in Python: a schema and a session, and the answers of steps."""

    def __init__(self, text: bytes) -> None:
        self.schema = ssz.Schema(text)
        self.session = self.schema.session() if len(text) % 2 else ssz.Session(text)

    def close(self) -> None:
        """Gives up what the round has."""
        self.session.close()
        self.schema.close()

    def answer(self, step: Step) -> str:
        """What a step is answered."""
        line = step.line()
        if step.op in LACKS["python"]:
            return NONE
        try:
            if step.op == "run" or step.as_line or step.op in BY_LINE["python"]:
                return NONE if line is None else self.run(line)
            return getattr(self, "do_" + step.op)(*step.words)
        except ssz.SszError as error:
            str(error), repr(error)
            return said(error)

    def run(self, line: str) -> str:
        return of_reply(self.session.run(line))

    # ---- what the schema alone is asked

    def type(self, name: bytes) -> ssz.Type:
        return self.schema.type(text_of(name))

    def do_check(self, name: bytes, data: bytes) -> str:
        self.type(name).check(as_buffer(data))
        return "ok"

    def do_root(self, name: bytes, data: bytes) -> str:
        return hexed(self.type(name).hash_tree_root(as_buffer(data)))

    def do_gindex(self, name: bytes, path: bytes) -> str:
        return f"ok {self.type(name).gindex(text_of(path))}"

    def do_part(self, name: bytes, data: bytes, path: bytes) -> str:
        return hexed(self.type(name).part(as_buffer(data), text_of(path)))

    def do_slice(self, name: bytes, data: bytes, *paths: bytes) -> str:
        """Of each path the part and its place; the bytes may change meanwhile."""
        given = bytearray(data)
        words = ["ok"]
        with self.type(name).open(given) as opened:
            given[:] = bytes(len(given))
            for path in map(text_of, paths):
                words.append(f"{_tried(lambda: hexed(opened.part(path)))} / {_tried(lambda: _place(opened.place(path)))}")
        return " ".join(words)

    def do_json(self, name: bytes, data: bytes) -> str:
        """By a session of its own, which has it as a statement alone."""
        with self.type(name).schema.session() as session:
            session.load("V", text_of(name), data)
            return of_reply(session.run("json V /"))

    def do_default(self, name: bytes) -> str:
        with self.type(name).schema.session() as session:
            session.new("V", text_of(name))
            return hexed(session.get("V"))

    def do_describe(self, name: bytes) -> str:
        kind = self.type(name)
        form = type(kind.form).__name__.lower()
        is_list, limit = getattr(kind.form, "is_list", False), kind.limit
        form = {"series": "list" if is_list else "vector", "bits": "bitlist" if is_list else "bitvector"}.get(form, form)
        parts = len(getattr(kind.form, "options", kind.fields)) or int(form in ("list", "vector"))
        return f"ok {form} {kind.size or 0} {'none' if limit is None else limit} {parts} {','.join(kind.fields) or 'none'} {kind.first_name}"

    def do_names(self) -> str:
        return " ".join(["ok", *self.schema.all_names()])

    def do_share(self, name: bytes, data: bytes) -> str:
        with self.schema.share() as first:
            other = first.share()
        with other:
            other.type(text_of(name)).check(data)
        return "ok"

    def do_schema(self, text: bytes) -> str:
        ssz.Schema(text).close()
        return "ok"

    def do_verify(self, root: bytes, text: bytes) -> str:
        """By the line, and by the proof that it is."""
        verdict = "ok" if ssz.verify(root, text) else "UNLIKE"
        proof = ssz.Proof.parse(text.decode("ascii"))
        assert ("ok" if proof.verify(root.hex()) else "UNLIKE") == verdict, "a line and its proof have two verdicts"
        assert ssz.Proof(proof.leaves, proof.helpers) == proof == ssz.Proof.parse(str(proof)), "a proof is another one"
        return verdict

    def do_branch_of(self, text: bytes) -> str:
        proof = ssz.Proof.parse(text)
        try:
            branch = proof.branch()
        except ssz.SszError:
            raise
        except ValueError:
            return "NO_BRANCH"
        return f"ok {branch.index} {branch.leaf.hex()} {b''.join(branch.nodes).hex()}".rstrip()

    def do_entries(self, root: bytes, count: bytes, *words: bytes) -> str:
        """Of leaves and nodes that a dict can have."""
        nodes = list(zip(map(int, words[::2]), words[1::2]))
        leaves, helpers = nodes[: int(count)], nodes[int(count) :]
        if len(dict(leaves)) < len(leaves) or helpers != sorted(dict(helpers).items(), reverse=True):
            return NONE
        return "ok" if ssz.Proof(dict(leaves), dict(helpers)).verify(root) else "UNLIKE"

    def do_branch(self, root: bytes, index: bytes, leaf: bytes, nodes: bytes) -> str:
        try:
            proof = ssz.Proof.of_branch(int(index), leaf, [nodes[at : at + 32] for at in range(0, len(nodes), 32)])
        except ValueError:
            return BRANCH
        return "ok" if proof.verify(root) else "UNLIKE"

    def do_closed(self, kind: bytes) -> str:
        """A call on what was closed, twice."""
        other: Any = {b"schema": self.schema.share, b"session": self.schema.session, b"slice": lambda: self.schema.type("uint8").open(b"\0")}[kind]()
        other.close()
        other.close()
        return _tried({b"schema": lambda: other.type("uint8").check(b"\0"), b"session": lambda: str(other.nodes()),
                       b"slice": lambda: hexed(other.part("/"))}[kind])

    def do_careless(self, name: bytes, number: bytes) -> str:
        return careless.answer(self, text_of(name), int(number))

    def do_long(self, name: bytes) -> str:
        return f"ok {self.type(name).gindex('/' * ((1 << 26) + 1))}"

    # ---- a session's steps

    def do_new(self, name: bytes, kind: bytes) -> str:
        self.session.new(text_of(name), text_of(kind))
        return "ok"

    def do_load(self, name: bytes, kind: bytes, data: bytes) -> str:
        self.session.load(text_of(name), text_of(kind), as_buffer(data))
        return "ok"

    def do_get(self, name: bytes, path: bytes) -> str:
        return hexed(self.session.get(text_of(name), text_of(path), room=len(path) % 3 * 40))

    def do_len(self, name: bytes, path: bytes) -> str:
        return f"ok {self.session.length(text_of(name), text_of(path))}"

    def do_set(self, name: bytes, path: bytes, data: bytes) -> str:
        self.session.set(text_of(name), text_of(path), as_buffer(data))
        return "ok"

    def do_append(self, name: bytes, path: bytes, data: bytes) -> str:
        self.session.append(text_of(name), text_of(path), as_buffer(data))
        return "ok"

    def do_pop(self, name: bytes, path: bytes) -> str:
        self.session.pop(text_of(name), text_of(path))
        return "ok"

    def do_choose(self, name: bytes, path: bytes, selector: bytes, data: bytes) -> str:
        self.session.choose(text_of(name), text_of(path), int(selector), as_buffer(data))
        return "ok"

    def do_fork(self, name: bytes, other: bytes) -> str:
        self.session.fork(text_of(name), text_of(other))
        return "ok"

    def do_upgrade(self, name: bytes, other: bytes, kind: bytes) -> str:
        self.session.upgrade(text_of(name), text_of(other), text_of(kind))
        return "ok"

    def do_drop(self, name: bytes) -> str:
        self.session.drop(text_of(name))
        return "ok"

    def do_compact(self) -> str:
        self.session.compact()
        return "ok"

    def do_nodes(self) -> str:
        return f"ok {self.session.nodes()}"

    def do_list(self) -> str:
        return " ".join(["ok", *self.session.names()])

    def do_sroot(self, name: bytes) -> str:
        return hexed(self.session.root(text_of(name)))

    def do_prove(self, name: bytes, path: bytes) -> str:
        return f"ok {self.session.prove(text_of(name), text_of(path))}"

    def do_prove_all(self, name: bytes, *indices: bytes) -> str:
        return f"ok {self.session.prove(text_of(name), *map(int, indices))}"

    def do_prove_paths(self, name: bytes, *paths: bytes) -> str:
        return f"ok {self.session.prove(text_of(name), *map(text_of, paths))}"


def _place(place: slice) -> str:
    return f"ok {place.start} {place.stop - place.start}"


def _tried(call: Callable[[], str]) -> str:
    try:
        return call()
    except ssz.SszError as error:
        return said(error)
