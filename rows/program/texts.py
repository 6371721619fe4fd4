"""Values read from their JSON texts, with the first fault of a text, as docs/formats.md has them, by Python's json."""
import json
import re

from ssz import BYTE, NUMBER, json_text


class Whole(int):
    """A whole number as serde_json keeps one: not -0, and of 64 bits."""


def number_of(digits):
    n = int(digits)
    return float(n) if digits == "-0" or not -2 ** 63 <= n < 2 ** 64 else Whole(n)


def no_number(word):
    raise ValueError(word)


class Misspelled(Exception):
    """The first fault of a text: its code, and the number of the part."""


def wrong(code, n):
    raise Misspelled((code, n))


def hex_in(d, n):
    if not re.match(r"0x([0-9a-f]{2})*\Z", d):
        wrong(3, n)
    return list(bytes.fromhex(d[2:]))


def number_in(t, d, n):
    if t[1] == 256:
        b = hex_in(d, n)
        if len(b) != 32:
            wrong(5, n)
        return int.from_bytes(bytes(b), "little")
    if not NUMBER.match(d):
        wrong(3, n)
    if int(d) >= 2 ** t[1]:
        wrong(4, n)
    return int(d)


def leaf_in(t, d, n):
    """The value of a part without parts."""
    k = t[0]
    if not isinstance(d, bool if k == "boolean" else str):
        wrong(2, n)
    if k == "boolean":
        return d
    if k == "uint":
        return number_in(t, d, n)
    if k in ("bitvector", "bitlist") and not re.match(r"[01]*\Z", d):
        wrong(3, n)
    v = [c == "1" for c in d] if k in ("bitvector", "bitlist") else hex_in(d, n)
    if len(v) > t[-1] or (k in ("bitvector", "vector") and len(v) != t[-1]):
        wrong(5, n)
    return v


def union_in(t, d, n):
    if not (isinstance(d, list) and len(d) == 2 and isinstance(d[0], Whole) and 0 <= d[0] < 256):
        wrong(2, n)
    if d[0] >= len(t[1]):
        wrong(7, n)
    option = t[1][d[0]]
    if option is not None:
        v, m = walk(option, d[1], n + 1)
        return (int(d[0]), v), m
    if d[1] is not None:
        wrong(2, n + 1)
    return (int(d[0]), None), n + 2


def parts_in(t, d, n):
    """The types of the parts, and what stands for each."""
    k = t[0]
    if not isinstance(d, dict if k == "container" else list):
        wrong(2, n)
    if k == "container":
        if set(d) != {name for name, _ in t[1]}:
            wrong(6, n)
        return [(p, d[name]) for name, p in t[1]]
    if len(d) > t[2] or (k == "vector" and len(d) != t[2]):
        wrong(5, n)
    return [(t[1], x) for x in d]


def walk(t, d, n):
    """The value of the part numbered n, and the number of the next part."""
    k = t[0]
    if k in ("uint", "boolean", "bitvector", "bitlist") or k in ("vector", "list") and t[1] == BYTE:
        return leaf_in(t, d, n), n + 1
    if k == "union":
        return union_in(t, d, n)
    todo, n = parts_in(t, d, n), n + 1
    out = []
    for p, x in todo:
        v, n = walk(p, x, n)
        out.append(v)
    return out, n


def spelled(t, b):
    """The value whose text the bytes are, or the first fault (raises)."""
    try:
        d = json.loads(b.decode(), parse_int=number_of, parse_constant=no_number)
    except ValueError:
        wrong(1, 0)
    v, _ = walk(t, d, 0)
    if json_text(t, v).encode() != b:
        wrong(8, 0)
    return v
