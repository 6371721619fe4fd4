"""Classes of misuse of texts: of proofs, of branches, of JSON and of schemas."""

from __future__ import annotations

import json
import re
from typing import Any

from .drawn import Round, step_of
from .good import proved, words_of_entries
from .plain import branch_root, entries_of, ssz as plain, verdict, verdict_of_entries
from .steps import Step

# ---- texts of proofs


def spoilt_text(round: Round, text: str) -> tuple[str, str]:
    """The line of a proof, spoilt in its grammar or in its nodes, and how."""
    head, _, tail = text.partition(" /")
    leaves, nodes = head.split()[1:], tail.split()

    def line(leaves: list[str], nodes: list[str]) -> str:
        return " ".join(["proof", *leaves, "/", *nodes])

    index, _, digits = leaves[0].partition("=0x")
    ways = {
        "leaves twice": line(leaves + leaves[:1], nodes), "leaves descending": line(leaves[::-1], nodes),
        "index sign": line([f"+{index}=0x{digits}", *leaves[1:]], nodes), "index zeros": line([f"0{index}=0x{digits}", *leaves[1:]], nodes),
        "odd digits": line([f"{index}=0x{digits[1:]}", *leaves[1:]], nodes), "digits with blanks": line([f"{index}=0x{digits[:2]} {digits[3:]}", *leaves[1:]], nodes),
        "digits with signs": line([f"{index}=0x+{digits[1:]}", *leaves[1:]], nodes), "upper case": line([f"{index}=0x{digits.upper()}", *leaves[1:]], nodes),
        "0X": line([f"{index}=0X{digits}", *leaves[1:]], nodes), "leaf at 0": line([f"0=0x{digits}"], nodes),
        "leaf at 2^128": line([f"{1 << 128}=0x{digits}"], nodes), "leaf at 2^127": line([f"{1 << 127}=0x{digits}"], nodes),
        "two blanks": text.replace(" ", "  ", 1), "blank before": " " + text, "blank after": text + " ", "carriage return": text + "\r\n",
        "two line feeds": text + "\n\n", "tab": text.replace(" ", "\t", 1), "no slash": text.replace("/ ", ""), "two slashes": text + " /",
        "no leaves": line([], nodes), "other word": "Proof" + text[5:], "no line": "", "NUL": text + "\0",
        "nodes missing": line(leaves, nodes[1:]), "nodes swapped": line(leaves, nodes[::-1]), "nodes too many": line(leaves, [*nodes, f"1=0x{digits}"]),
        "nodes twice": line(leaves, nodes + nodes[:1]), "other chunk": line([f"{index}=0x{flipped(digits)}", *leaves[1:]], nodes),
        "letters beyond ASCII": text + "\u0661",
    }
    how = round.draw.choice(sorted(ways))
    return ways[how], how


def flipped(digits: str) -> str:
    """Digits of which the last bit is another one."""
    return digits[:-1] + f"{int(digits[-1], 16) ^ 1:x}"


def wrong_proof(round: Round) -> Step:
    """A text of a proof that leads elsewhere, or is none."""
    root, text, _ = proved(round)
    text, how = spoilt_text(round, text)
    data = text.encode()
    if round.draw.random() < 0.3:
        found = entries_of(data)
        wanted = "BAD_PROOF" if found is None else "ok" if len(found[0]) == 1 else "NO_BRANCH"
        return step_of("branch_of", data, wanted=wanted, misuse="proof: " + how)
    return step_of("verify", root, data, wanted=verdict(root, data), misuse="proof: " + how)


def wrong_entries(round: Round) -> Step:
    """Entries that are no proof, or one of another root."""
    root, text, _ = proved(round)
    leaves, nodes = entries_of(text.encode()) or ([], [])
    index, chunk = leaves[0]
    how = round.draw.choice(["leaf twice", "leaf below", "leaf at 0", "leaf at 2^128 - 1", "no leaves", "node missing", "node too many", "nodes swapped",
                             "other chunk", "node at 0"])
    if how.startswith("leaf"):
        other = {"leaf twice": index, "leaf below": min(2 * index, (1 << 128) - 1), "leaf at 0": 0, "leaf at 2^128 - 1": (1 << 128) - 1}[how]
        leaves.append((other, chunk))
    elif how == "no leaves":
        leaves = []
    elif how == "other chunk":
        leaves[0] = index, round.draw.randbytes(32)
    else:
        nodes = {"node missing": nodes[:-1], "node too many": [*nodes, (1, chunk)], "nodes swapped": nodes[::-1], "node at 0": [*nodes, (0, chunk)]}[how]
    return step_of("entries", *words_of_entries(root, leaves, nodes), wanted=verdict_of_entries(root, leaves, nodes), misuse="entries: " + how)


def wrong_branch(round: Round) -> Step:
    """A branch with too few or too many nodes, another leaf, or part of a node."""
    draw, levels = round.draw, round.draw.choice([1, 2, 5, 40])
    index, leaf, nodes = draw.getrandbits(levels) | 1 << levels, draw.randbytes(32), [draw.randbytes(32) for _ in range(levels)]
    root = branch_root(index, leaf, nodes)
    how = draw.choice(["node missing", "node too many", "ragged", "other leaf", "other root", "index 0"])
    if how == "index 0":
        return step_of("branch", root, 0, leaf, b"".join(nodes), wanted="BAD_PROOF", misuse="branch: index 0")
    if how == "node missing":
        nodes.pop()
    elif how == "node too many":
        nodes.append(draw.randbytes(32))
    elif how == "other leaf":
        leaf = draw.randbytes(32)
    elif how == "other root":
        root = draw.randbytes(32)
    data = b"".join(nodes)[: -1 if how == "ragged" else None]
    return step_of("branch", root, index, leaf, data, wanted="UNLIKE" if how.startswith("other") else "BAD_PROOF", misuse="branch: " + how)



# ---- texts of values and of schemas


def wrong_json(round: Round) -> Step | None:
    """JSON that is well, but not the text of a value: blanks, another order, members twice, other spellings."""
    name, t = round.type()
    value, _ = round.value(t)
    text = plain.json_text(t, value)
    how, spoilt = round.draw.choice(json_ways(text) + json_ways_of(t, value, text))
    if spoilt == text:
        return None
    wanted = {"blank": "BAD_JSON 8 0", "order": "BAD_JSON 8 0", "member twice": "BAD_JSON 8 0", "no JSON": "BAD_JSON 1 0", "other kind": "BAD_JSON 2 0",
              "member missing": "BAD_JSON 6 0", "other member": "BAD_JSON 6 0", "selector": "BAD_JSON 7 0", "count": "BAD_JSON 5 0"}.get(how, "BAD_JSON")
    return step_of("unjson", name, spoilt if isinstance(spoilt, bytes) else spoilt.encode(), wanted=wanted, misuse="JSON: " + how)


def json_ways(text: str) -> list[tuple[str, str | bytes]]:
    """A text of JSON, spoilt in each way that there is."""
    ways: list[tuple[str, str | bytes]] = [("blank", text + round_blank) for round_blank in (" ", "\n")]
    ways += [("no JSON", text + "]"), ("no JSON", text[:-1]), ("no JSON", b"\xff" + text.encode()), ("no JSON", text + "\0"), ("no JSON", "")]
    number = re.search(r'"(\d{1,39})"', text)
    if number and not re.fullmatch("[01]*", number[1]):
        for how, digits in ("zeros", "0" + number[1]), ("negative", "-" + number[1]), ("sign", "+" + number[1]), ("number too large", number[1] + "9" * 40):
            ways.append((how, text[: number.start(1)] + digits + text[number.end(1) :]))
        ways.append(("number", text[: number.start()] + number[1] + text[number.end() :]))
    if "0x" in text:
        ways += [("odd digits", text.replace('"0x', '"0x0', 1)), ("0X", text.replace("0x", "0X", 1)), ("digits with blanks", text.replace('"0x', '"0x ', 1))]
    if text.startswith("{"):
        members = json.loads(text, object_pairs_hook=list)
        first = json.dumps(members[0][0])
        if len(members) > 1 and not any(isinstance(member[1], list) for member in members):
            ways.append(("order", "{" + ",".join(f"{json.dumps(name)}:{json.dumps(member)}" for name, member in members[::-1]) + "}"))
        ways += [("member twice", text[:-1] + f",{first}:" + same_member(text) + "}"), ("blank", "{ " + text[1:])]
    return ways


def json_ways_of(t: Any, value: Any, text: str) -> list[tuple[str, str | bytes]]:
    """A text of JSON, spoilt in the ways that go by its type."""
    ways: list[tuple[str, str | bytes]] = []
    if not text.startswith("["):
        ways.append(("other kind", f"[{text}]"))
    if t[0] == "container":
        kept = {name: plain.json_of(field, part) for (name, field), part in zip(t[1][:-1], value)}
        some = [("member missing", kept), ("other member", {**kept, "nothing": 0, t[1][-1][0]: plain.json_of(t[1][-1][1], value[-1])})]
        ways += [(how, json.dumps(members, sort_keys=True, separators=(",", ":"))) for how, members in some]
    if t[0] == "union":
        ways.append(("selector", f"[{len(t[1])},{text.partition(',')[2]}"))
    if t == ("uint", 256) or t[0] in ("vector", "list") and t[1] == plain.BYTE and (t[0] == "vector" or len(value) == t[2]):
        ways.append(("count", text[:-1] + '00"'))
    return ways


def same_member(text: str) -> str:
    """The text of the first member's value."""
    decoder = json.JSONDecoder()
    start = text.index(":") + 1
    _, end = decoder.raw_decode(text, start)
    return text[start:end]


SCHEMAS = [
    ("{", "1 0"), ("\ufeff{}", "1 0"), ('{"ssz":3,"types":[]}', "2 0"), ("[]", "2 0"), ('{"ssz":1,"types":[["1T","uint8"]]}', "3 0"),
    ('{"ssz":1,"types":[["T","uint8"],["T","uint8"]]}', "4 1"), ('{"ssz":1,"types":[["T","unit8"]]}', "5 0"),
    ('{"ssz":1,"types":[["T",{"vector":["uint8",0]}]]}', "6 0"), ('{"ssz":1,"types":[["T",{"container":[]}]]}', "7 0"),
    ('{"ssz":1,"types":[["T",{"union":["uint8",null]}]]}', "8 0"), ('{"ssz":1,"types":[["T",{"union":[]}]]}', "9 0"),
    ('{"ssz":1,"types":[["T",{"container":[["a","uint8"],["a","uint8"]]}]]}', "10 0"),
    ('{"ssz":1,"types":[["T",{"list":["uint8",1099511627777]}]]}', "11 0"), ('{"ssz":1,"types":[["T",{"list":["uint8",-1]}]]}', "2 0"),
    ('{"ssz":1,"types":[["T",{"list":[{"list":["uint64",1099511627776]},1099511627776]}]]}', "13 0"),
    ('{"ssz":1,"types":[["T",{"list":["uint8",1.5]}]]}', "2 0"), ('{"ssz":1,"types":[["T",{"vector":["uint8",16777217]}]]}', "14 0"),
    ('{"ssz":1,"types":[["T",' + '{"vector":[' * 32 + '"uint8"' + ",1]}" * 32 + "]]}", "12 0"), ("[" * 200 + "]" * 200, "1 0"), ("", "1 0"), ("\xff", "1 0"),
]


def wrong_schema(round: Round) -> Step:
    text, fault = round.draw.choice(SCHEMAS)
    return step_of("schema", text.encode("latin-1" if text == "\xff" else "utf-8"), wanted=f"BAD_SCHEMA {fault}", misuse="schema at fault")
