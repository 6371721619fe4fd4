"""The good steps of a round: each should be done, and most of its answers are known beforehand by the plain model."""

from __future__ import annotations

from typing import Any

from .drawn import Maker, Round, is_grown, is_sized, step_of
from .plain import branch_root, entries_of, hexed, place_of, proof_text, ssz as plain
from .steps import Step

# ---- what the schema alone is asked


def check(round: Round) -> Step:
    name, t = round.type()
    return step_of("check", name, round.data(t))


def root(round: Round) -> Step:
    name, t = round.type()
    value, data = round.value(t)
    wanted = f"ok {hexed(plain.hash_tree_root(t, value))}" if len(data) < 400 else "ok"
    return step_of("root", name, data, wanted=wanted)


def with_end(round: Round, path: str, t: Any) -> str:
    """A path, sometimes to the length or the selector of the part."""
    word = {"list": "#len", "bitlist": "#len", "union": "#sel"}.get(t[0])
    return f"{path.rstrip('/')}/{word}" if word and round.draw.random() < 0.3 else path


def gindex(round: Round) -> Step:
    name, t = round.type()
    value, _ = round.value(t)
    path, _, part_type, _ = round.found(t, value) or ("/", [], t, value)
    path = with_end(round, path, part_type)
    return step_of("gindex", name, path, wanted=f"ok {plain.generalized_index(t, plain.path_of(path))}")


def part(round: Round) -> Step:
    name, t = round.type()
    value, data = round.value(t)
    path, _, part_type, _ = round.found(t, value) or ("/", [], t, value)
    path = with_end(round, path, part_type)
    found = plain.encode(*plain.part_at(t, value, plain.path_of(path)))
    return step_of("part", name, data, path, wanted=f"ok {hexed(found)}")


def opened(round: Round) -> Step:
    """A slice, of which some parts and places are asked."""
    name, t = round.type()
    value, data = round.value(t)
    paths, wanted = [], ["ok"]
    for _ in range(round.draw.randint(1, 3)):
        path, _, part_type, _ = round.found(t, value) or ("/", [], t, value)
        path = with_end(round, path, part_type)
        steps = plain.path_of(path)
        place = place_of(t, data, steps)
        wanted.append(f"ok {hexed(plain.encode(*plain.part_at(t, value, steps)))} / " + (f"ok {place[0]} {place[1]}" if place else "NO_PLACE"))
        paths.append(path)
    return step_of("slice", name, data, *paths, wanted=" ".join(wanted))


def to_json(round: Round) -> Step:
    name, t = round.type()
    value, data = round.value(t)
    return step_of("json", name, data, wanted=f"ok {plain.json_text(t, value)}")


def of_json(round: Round) -> Step:
    name, t = round.type()
    value, data = round.value(t)
    return step_of("unjson", name, plain.json_text(t, value), wanted=f"ok {hexed(data)}")


def default(round: Round) -> Step:
    name, t = round.type()
    return step_of("default", name, wanted=f"ok {hexed(plain.encode(t, plain.default(t)))}")


def describe(round: Round) -> Step:
    """What a type is: its form, size, limit, the names of its fields and the first of its own."""
    name, t = round.type()
    size = plain.fixed_size(t) or 0
    limit = t[1] if plain.is_bits(t) else t[2] if plain.is_sequence(t) else "none"
    parts = len(t[1]) if t[0] in ("container", "union") else int(plain.is_sequence(t))
    fields = ",".join(field for field, _ in t[1]) if t[0] == "container" else "none"
    return step_of("describe", name, wanted=f"ok {t[0]} {size} {limit} {parts} {fields} {round.first_names[name]}")


def names(round: Round) -> Step:
    known = sorted({*round.named, *plain.BUILT_IN})
    return step_of("names", wanted=f"ok {' '.join(known)}")


def share(round: Round) -> Step:
    name, t = round.type()
    return step_of("share", name, round.data(t))


def indices_of(round: Round, t: Any, value: Any, count: int) -> list[int]:
    """Some generalized indices of parts, none above another."""
    kept: list[int] = []
    for _ in range(count):
        path, _, part_type, _ = round.found(t, value) or ("/", [], t, value)
        index = plain.generalized_index(t, plain.path_of(with_end(round, path, part_type)))
        if plain.are_flat([*kept, index]):
            kept.append(index)
    return kept


def proved(round: Round) -> tuple[bytes, str, int]:
    """A root, the line of a proof that leads to it, and how many leaves it has."""
    _, t = round.type()
    value = plain.default(t) if round.draw.random() < 0.3 else round.value(t)[0]
    indices = indices_of(round, t, value, round.draw.choice([1, 1, 2, 3]))
    return plain.hash_tree_root(t, value), proof_text(t, value, indices), len(set(indices))


def verify(round: Round) -> Step:
    root, text, _ = proved(round)
    return step_of("verify", root, text + round.draw.choice(["", "\n"]))


def entries(round: Round) -> Step:
    """A proof by its entries."""
    root, text, _ = proved(round)
    leaves, nodes = entries_of(text.encode()) or ([], [])
    return step_of("entries", *words_of_entries(root, leaves[::-1], nodes))


def words_of_entries(root: bytes, leaves: list[tuple[int, bytes]], nodes: list[tuple[int, bytes]]) -> list[str | bytes | int]:
    """The words of a step of entries."""
    words: list[str | bytes | int] = [root, len(leaves)]
    for node in leaves + nodes:
        words += node
    return words


def proof_branch(round: Round) -> Step:
    """The branch of a proof's line."""
    _, text, count = proved(round)
    return step_of("branch_of", text, wanted="ok" if count == 1 else "NO_BRANCH")


def branch(round: Round) -> Step:
    """A branch of random chunks, and the root that it leads to."""
    levels = round.draw.choice([0, 1, 2, 5, 20, 63, 64, 100, 127])
    index = round.draw.getrandbits(levels) | 1 << levels
    leaf, nodes = round.draw.randbytes(32), [round.draw.randbytes(32) for _ in range(levels)]
    return step_of("branch", branch_root(index, leaf, nodes), index, leaf, b"".join(nodes), wanted="ok")


# ---- a session's steps


def new(round: Round) -> Step | None:
    name, (type_name, t) = round.free(), round.type()
    if not name:
        return None
    round.versions[name] = type_name, t, plain.default(t)
    return step_of("new", name, type_name)


def load(round: Round) -> Step | None:
    name, (type_name, t) = round.free(), round.type()
    if not name:
        return None
    value, data = round.value(t)
    round.versions[name] = type_name, t, value
    return step_of("load", name, type_name, data)


def get(round: Round) -> Step | None:
    found = round.place()
    if not found:
        return None
    name, path, _, t, _ = found
    path = with_end(round, path, t)
    return step_of("get", name, path, wanted=f"ok {hexed(plain.encode(*plain.part_at(*round.versions[name][1:], plain.path_of(path))))}")


def json_of(round: Round) -> Step | None:
    found = round.place()
    if not found:
        return None
    name, path, _, t, value = found
    return step_of("jsonof", name, path, wanted=f"ok {plain.json_text(t, value)}")


def length(round: Round) -> Step | None:
    found = round.place(is_sized)
    return step_of("len", found[0], found[1], wanted=f"ok {len(found[4])}") if found else None


def set_(round: Round) -> Step | None:
    found = round.place()
    if not found:
        return None
    name, path, steps, t, _ = found
    value, data = round.value(t)
    round.changed(name, steps, plain.set_to(value))
    return step_of("set", name, path, data)


def append(round: Round) -> Step | None:
    found = round.place(lambda t, value: is_grown(t, value) and len(value) < t[-1])
    if not found:
        return None
    name, path, steps, t, _ = found
    value, data = round.value(t[1] if t[0] == "list" else plain.BOOLEAN)
    round.changed(name, steps, plain.append(value))
    return step_of("append", name, path, data)


def pop(round: Round) -> Step | None:
    found = round.place(lambda t, value: is_grown(t, value) and len(value) > 0)
    if not found:
        return None
    name, path, steps, _, _ = found
    round.changed(name, steps, plain.pop)
    return step_of("pop", name, path)


def choose(round: Round) -> Step | None:
    found = round.place(lambda t, value: t[0] == "union")
    if not found:
        return None
    name, path, steps, t, _ = found
    selector = round.draw.randrange(len(t[1]))
    value, data = (None, b"") if t[1][selector] is None else round.value(t[1][selector])
    if round.draw.random() < 0.3:
        value = None if t[1][selector] is None else plain.default(t[1][selector])
        round.changed(name, steps, plain.choose(selector, value))
        return step_of("choose_default", name, path, selector)
    round.changed(name, steps, plain.choose(selector, value))
    return step_of("choose", name, path, selector, data)


def fork(round: Round) -> Step | None:
    name, other = round.version(), round.free()
    if not name or not other:
        return None
    round.versions[other] = round.versions[name]
    return step_of("fork", name, other)


def upgrade(round: Round) -> Step | None:
    name, other = round.version(), round.free()
    if not name or not other or round.versions[name][1][0] != "container":
        return None
    type_name = round.draw.choice(["C", "D"])
    old, t = round.versions[name][1:], round.types[type_name]
    fields = {field: (part, value) for (field, part), value in zip(old[0][1], old[1])}
    value = [fields[field][1] if field in fields and fields[field][0] == part else plain.default(part) for field, part in t[1]]
    round.versions[other] = type_name, t, value
    return step_of("upgrade", name, other, type_name)


def drop(round: Round) -> Step | None:
    name = round.version()
    if not name or len(round.versions) < 2:
        return None
    del round.versions[name]
    return step_of("drop", name)


def session_root(round: Round) -> Step | None:
    name = round.version()
    return step_of("sroot", name) if name else None


def session_gindex(round: Round) -> Step:
    step = gindex(round)
    return Step("sgindex", step.words, step.wanted)


def prove(round: Round) -> Step | None:
    """A proof of one place, by its path or its index."""
    found = round.place()
    if not found:
        return None
    name, path, _, t, _ = found
    path = with_end(round, path, t)
    by_number = round.draw.random() < 0.3
    return step_of("prove", name, plain.generalized_index(round.versions[name][1], plain.path_of(path)) if by_number else path)


def prove_all(round: Round) -> Step | None:
    name = round.version()
    if not name:
        return None
    return step_of("prove_all", name, *indices_of(round, *round.versions[name][1:], round.draw.randint(1, 4)))


def prove_paths(round: Round) -> Step | None:
    found = round.place()
    if not found:
        return None
    name, paths = found[0], [found[1]]
    t, value = round.versions[name][1:]
    other = round.found(t, value)
    indices = [plain.generalized_index(t, plain.path_of(path)) for path in (*paths, other[0])] if other else []
    if other and plain.are_flat(indices):
        paths.append(other[0])
    return step_of("prove_paths", name, *paths)


def alone(op: str) -> Maker:
    """A step without words."""
    return lambda round: step_of(op)


def listed(round: Round) -> Step:
    return step_of("list", wanted=" ".join(["ok", *sorted(round.versions)]))


def line(round: Round) -> Step:
    """A line that is no statement of its own, or a statement with blanks."""
    return step_of("run", round.draw.choice(["", "  ", "# a comment \\ \"", "\t#x", " list ", "hashes\t", "compact", " # list"]))


GOOD: list[tuple[Maker, int]] = [
    (check, 2), (root, 2), (gindex, 1), (part, 2), (opened, 2), (to_json, 1), (of_json, 2), (default, 1), (describe, 1), (names, 1), (share, 1),
    (verify, 2), (entries, 1), (proof_branch, 1), (branch, 1), (new, 3), (load, 4), (get, 4), (json_of, 3), (length, 3), (set_, 10), (append, 10),
    (pop, 7), (choose, 10), (fork, 4), (upgrade, 3), (drop, 2), (session_root, 4), (session_gindex, 1), (prove, 4), (prove_all, 3), (prove_paths, 3),
    (alone("compact"), 2), (alone("nodes"), 1), (alone("hashes"), 1), (listed, 1), (line, 1),
]
#: What most rounds begin with.
FIRST: list[tuple[Maker, int]] = [(load, 4), (new, 1)]
