"""Steps of a round: what is asked, how it is said as a line of a script, and what may be answered.

A step has a name and words, which are bytes. A session's step is a statement, another one asks the schema alone. An answer is a
line: `ok` with what was found, or the name of the status in ssz.h with its numbers, as `INVALID 3 17` and `REFUSED 6`. `-` is the
answer of a door that has no such call.
"""

from __future__ import annotations

import re
from dataclasses import dataclass, field

#: The answer of a door that has no such call, or whose texts can't have such bytes.
NONE = "-"

#: How a session's step is said as a statement: its name, and which word is bytes of a value.
STATEMENTS = {
    "new": ("new", None), "load": ("lit", 2), "get": ("bytes", None), "jsonof": ("json", None), "len": ("len", None),
    "set": ("set", 2), "append": ("append", 2), "pop": ("pop", None), "choose": ("choose", 3), "choose_default": ("choose", None),
    "fork": ("fork", None), "upgrade": ("upgrade", None), "drop": ("drop", None), "sroot": ("root", None),
    "sgindex": ("gindex", None), "prove": ("prove", None), "prove_all": ("prove", None), "prove_paths": ("prove", None),
    "compact": ("compact", None), "hashes": ("hashes", None), "list": ("list", None),
}

#: Steps that a door does not have as calls of its own, and says as lines; where they are no lines, it answers NONE.
BY_LINE = {
    "c": {"prove_paths", "hashes", "list"},
    "rust": {"jsonof", "choose_default", "sgindex", "hashes", "list"},
    "python": {"jsonof", "choose_default", "sgindex", "hashes"},
}

#: Steps that a door has in no way.
LACKS = {"c": {"branch_of", "careless"}, "rust": {"unjson", "null", "itself", "closed", "careless"}, "python": {"unjson", "null", "itself"}}


@dataclass
class Step:
    """What is asked; whether it is good or which misuse; and how the answer must begin."""

    op: str
    words: list[bytes] = field(default_factory=list)
    wanted: str = ""
    misuse: str = ""
    #: Said as a line, by each door.
    as_line: bool = False

    def line(self) -> str | None:
        """The statement, where the words can be said in one."""
        if self.op == "run":
            return self.words[0].decode("latin-1")
        if self.op not in STATEMENTS:
            return None
        name, place = STATEMENTS[self.op]
        words = ["0x" + word.hex() if at == place else word.decode("latin-1") for at, word in enumerate(self.words)]
        return spaced([name, *words]) if all(re.fullmatch("[!-~]+", word) for word in words) else None

    def said(self) -> str:
        """The step in one line for people."""
        words = [word.decode("ascii") if re.fullmatch(rb"[!-~]{1,60}", word) else repr(word[:24]) for word in self.words]
        return " ".join([self.op, *words]) + (f"  ({self.misuse})" if self.misuse else "") + ("  as a line" if self.as_line else "")


def spaced(words: list[str]) -> str:
    """Words in a line, with blanks as they may stand there: one way or another by their number of letters."""
    between, around = [(" ", ""), (" ", ""), ("  ", ""), ("\t", " "), (" \t ", "\t")][sum(map(len, words)) % 5]
    return around + between.join(words) + around


def wire(step: Step, door: str) -> str | None:
    """The step as a driver reads it: its name and its words as digits, `-` for none. None where the door has no way to say it."""
    op, words = step.op, step.words
    if op in LACKS[door]:
        return None
    if step.as_line or op in BY_LINE[door]:
        line = step.line()
        if line is None:
            return None
        op, words = "run", [line.encode("latin-1")]
    return " ".join([op, *(word.hex() or "-" for word in words)])


def of_reply(reply: str) -> str:
    """The answer that the reply to a statement is."""
    words = reply.split()
    if reply == "":
        return "ok"
    if words[0] == "refused":
        code = int(words[2])
        if code == 1:
            return "SYNTAX"
        if len(words) == 6:
            return f"{'BAD_JSON' if code == 18 else 'INVALID'} {words[4][1:]} {words[5]}"
        return f"REFUSED {code}"
    if words[0] in ("ok", "proof"):
        return reply if words[0] == "ok" else f"ok {reply}"
    return " ".join(["ok", *reply.split(" ")[1:]])


def fits(answer: str, wanted: str) -> bool:
    """Whether an answer begins so."""
    return answer == wanted or answer.startswith(wanted + " ") or not wanted


def chunks_of(answer: str) -> str:
    """A proof without its indices: of one leaf the chunks from the leaf up."""
    return "ok " + "".join(re.findall("=0x([0-9a-f]{64})", answer)) if answer.startswith("ok proof") else answer
