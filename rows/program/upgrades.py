"""Upgrades of a state from each fork to the next, by the lines that examples/ethereum/make.py writes.

What the lines come to is compared with what the specification's function makes of the whole value (`upgrade_functions`), before a row is
written; the rows' replies are those of the machine over whole values.
"""
import json
import os
import random
import sys
import types

import ssz
from program import g1, upgrade_functions
from program.machine import Machine
from program.runs import ETHEREUM, example
from program.scripts import run_of

sys.path.insert(0, ETHEREUM)
import bls  # noqa: E402
import make  # noqa: E402
import upgrade  # noqa: E402

SCHEMAS = {"mainnet": "upgrade.json", "minimal": os.path.join("minimal", "upgrade.json")}
# A state of altair on mainnet, at the first slot of an epoch, with a validator of compounding credentials and one that waits
ALTAIR = """\
new OLD AltairBeaconState
set OLD /slot 0x0020830000000000
set OLD /fork 0x0000000001000000001d010000000000
append OLD /validators 0x%s
append OLD /validators 0x%s
set OLD /balances 0x00902f500900000000c817a804000000
root OLD
"""


def view(t, v):
    """A value with its fields by their names, and byte vectors as bytes."""
    if t[0] == "container":
        return types.SimpleNamespace(**{name: view(field, part) for (name, field), part in zip(t[1], v)})
    if ssz.is_sequence(t):
        return bytes(v) if t[1] == ssz.BYTE and t[0] == "vector" else [view(t[1], part) for part in v]
    return v


def value(t, seen):
    """The value of a view that has the type's fields, and maybe others; a field that is not there is its default."""
    if t[0] == "container":
        return [value(field, getattr(seen, name)) if hasattr(seen, name) else ssz.default(field) for name, field in t[1]]
    return [value(t[1], part) for part in seen] if ssz.is_sequence(t) else seen


def parts_of(t, v, paths):
    """The encodings of parts, as the program would read them from a file."""
    return {path: ssz.encode(*ssz.part_at(t, v, ssz.path_of(path))) for path in paths}


class Chain:
    """A script that goes from a state to those of the next forks."""

    def __init__(self, preset, script):
        self.schema = example(SCHEMAS[preset])
        self.forms, self.constants = dict(json.loads(self.schema)["types"]), make.constants_of(preset)
        self.machine, self.text = Machine(self.schema), ""
        self.run(script)

    def run(self, script):
        replies, refused = self.machine.script(script)
        assert not refused, [reply for reply in replies if reply.startswith("refused")]
        self.text += script

    def to(self, fork):
        """Goes on to a fork, and sees that it comes to what the specification's function says."""
        before = make.FORKS[make.FORKS.index(fork) - 1]
        t, v = self.machine.versions["OLD"]
        parts = parts_of(t, v, upgrade.needed(self.forms, before, fork))
        self.run("\n".join([*upgrade.lines(self.forms, before, fork, self.constants, parts), "root NEW", ""]))
        t_new, v_new = self.machine.versions["NEW"]
        function = getattr(upgrade_functions, "upgrade_to_" + fork)
        wanted = value(t_new, function(view(t, v), types.SimpleNamespace(**self.constants)))
        assert v_new == wanted, fork
        self.run("drop OLD\nfork NEW OLD\ndrop NEW\n")


def in_place(task):
    """The script of a task without the files that it loads, on the state OLD."""
    lines = example(os.path.join("tasks", task + ".script")).replace(" S ", " OLD ").replace("root S", "root OLD").splitlines()
    return "".join(line + "\n" for line in lines if not line.startswith(("load", "save")))


def through(chain, forks):
    """The script through these forks; in bellatrix a payload comes."""
    for fork in forks:
        chain.to(fork)
        if fork == "bellatrix":
            chain.run(in_place("header"))
    return chain.text


def validator(secret, prefix=0, balance=32 * 10 ** 9, eligible=0, active=0, left=2 ** 64 - 1):
    """The encoding of a validator."""
    epochs = [eligible, active, left, left]
    return g1.pubkey(secret) + bytes([prefix]) + bytes(31) + ssz.le(balance, 8) + b"\0" + b"".join(ssz.le(epoch, 8) for epoch in epochs)


def drawn_script(seed):
    """A state of phase 0 with drawn validators and mixes, whose active balance is above the limits of exits."""
    draw, never = random.Random(seed), 2 ** 64 - 1
    registry = [validator(number % 64 + 1, draw.choice([0, 1, 2]), 10 ** 9 * draw.choice([16, 31, 32, 320]), draw.choice([3, never]),
                          draw.choice([0, 0, 0, 11, never]), draw.choice([never, never, 3, 20])) for number in range(150)]
    balances = b"".join(ssz.le(draw.randrange(64 * 10 ** 9), 8) for _ in registry)
    mixes = [f"set OLD /randao_mixes/{number} 0x{draw.randbytes(32).hex()}\n" for number in range(6, 12)]
    return "".join([f"new OLD Phase0BeaconState\nset OLD /slot 0x{ssz.le(80, 8).hex()}\nset OLD /validators 0x{b''.join(registry).hex()}\n",
                    f"set OLD /balances 0x{balances.hex()}\n", *mixes])


def check_points():
    """Sums of known keys: of equal ones, of others, and of one and its negative."""
    keys = {secret: bytes.fromhex(key) for secret, key in g1.KNOWN.items()}
    assert bls.aggregate([keys[1]] * 4) == keys[4] and bls.aggregate([keys[2], keys[3]]) == keys[5]
    x, y = bls.point_of(keys[5])
    assert bls.key_of(bls.add((x, y), (x, bls.MODULUS - y))) == b"\xc0" + bytes(47)


def runs():
    check_points()
    minimal, mainnet = (example(SCHEMAS[preset]) for preset in ("minimal", "mainnet"))
    yield run_of("sha", through(Chain("minimal", in_place("phase0")), make.FORKS[1:]), (), "minimal-upgrade.json", minimal)
    registry = [validator(1, 2), validator(2, 0, 20 * 10 ** 9, 7, 2 ** 64 - 1)]
    made = ALTAIR % tuple(one.hex() for one in registry)
    yield run_of("sha", through(Chain("mainnet", made), make.FORKS[2:]), (), "upgrade.json", mainnet)
    # not among the rows, for their length
    through(Chain("minimal", drawn_script(1)), make.FORKS[1:])
    through(Chain("mainnet", drawn_script(2)), ["altair"])
