"""Scripts of statements drawn at random, most of them accepted, over types of every form."""
import json
import random

from program.machine import Machine
from ssz import BOOLEAN, BYTE, default, encode, json_text, types_of, uint

SCHEMA = """{"ssz":1,"types":[
["P",{"container":[["a","uint64"],["b","uint64"]]}],
["Q",{"container":[["a","uint8"],["b","uint8"]]}],
["O",{"container":[["a","uint64"]]}],
["M",{"container":[["a","uint16"],["b",{"list":["uint8",4]}]]}],
["U",{"union":[null,"uint64",{"list":["uint16",5]}]}],
["L",{"list":["uint8",1]}],
["L8",{"list":["uint64",8]}],
["Long",{"list":["uint64",1099511627776]}],
["B512",{"bitlist":512}],
["V4",{"vector":["uint32",9]}],
["BL",{"bitlist":300}],["BV",{"bitvector":10}],["U2",{"union":[null,"uint64"]}],\
["B3",{"bitvector":3}],
["LP",{"list":["P",5]}],["LU",{"list":["U",3]}],["LL",{"list":[{"list":["uint64",7]},3]}],
["W",{"container":[["w","uint256"],["x","uint128"],["t","boolean"]]}],
["Wide",{"vector":[{"vector":["uint64",4]},65536]}],
["K",{"container":[["u","U"],["p","P"],["l","LP"],["bits","BL"],["v",{"vector":["M",3]}],\
["big",{"list":["uint8",1099511627776]}],["w","W"]]}],
["N",{"container":[["b","uint64"],["a","uint8"],["c","uint64"]]}],
["R",{"container":[["p","P"],["l","L8"]]}],
["S",{"container":[["l",{"list":["uint64",8]}],["u","U"],["p","P"]]}],
["S8",{"container":[["p","Q"],["l",{"list":["uint64",9]}],["R","P"]]}]
]}
"""
NAMES = ["P", "M", "U", "V4", "BL", "BV", "LP", "LU", "LL", "W", "K"]


def rand(t, r):
    k = t[0]
    if k == "uint":
        return r.getrandbits(t[1]) if r.random() < 0.6 else r.choice([0, 1, 2 ** t[1] - 1])
    if k == "boolean":
        return r.random() < 0.5
    if k == "bitvector":
        return [r.random() < 0.5 for _ in range(t[1])]
    if k == "bitlist":
        length = r.choice([0, 1, 7, 8, 255, 256, 257, min(t[1], 9)])
        return [r.random() < 0.5 for _ in range(length)][:t[1]]
    if k == "vector":
        return [rand(t[1], r) for _ in range(t[2])]
    if k == "list":
        return [rand(t[1], r) for _ in range(r.randint(0, min(t[2], 6)))]
    if k == "container":
        return [rand(p, r) for _, p in t[1]]
    i = r.randrange(len(t[1]))
    return (i, None if t[1][i] is None else rand(t[1][i], r))


def element_step(t, v, r):
    """A step to an element, most often one that is there, and the type and the value there."""
    k, n, most = t[0], len(v), t[-1]
    i = r.randrange(n) if n and r.random() < 0.85 else r.choice([0, n, most - 1, most])
    part = t[1] if k in ("vector", "list") else BOOLEAN
    return f"/{max(i, 0)}", part, v[i] if i < n else default(part)


def rpath(t, v, r, stop=0.3):
    """A path of a value, most often to a part that is there, and the type there."""
    p = ""
    while True:
        if r.random() < stop:
            break
        k = t[0]
        if k == "container":
            i = r.randrange(len(t[1]))
            p += "/" + t[1][i][0]
            t, v = t[1][i][1], v[i]
        elif k in ("vector", "list", "bitvector", "bitlist"):
            if k in ("list", "bitlist") and r.random() < 0.1:
                return p + "/#len", uint(64)
            step, t, v = element_step(t, v, r)
            p += step
        elif k == "union":
            if r.random() < 0.15:
                return p + "/#sel", BYTE
            i = v[0] if r.random() < 0.8 else r.randrange(len(t[1]) + 1)
            p += f"/#{i}"
            if i >= len(t[1]) or t[1][i] is None:
                return p, BOOLEAN
            t = t[1][i]
            v = v[1] if v[0] == i else default(t)
        else:
            break
    if r.random() < 0.03:
        p += "/zz"
    return p or "/", t


# Texts

def places(d):
    """The places of a JSON value: what holds a part, and under which key; not the whole."""
    keys = d if isinstance(d, dict) else range(len(d)) if isinstance(d, list) else ()
    out = []
    for k in keys:
        out += [(d, k)] + places(d[k])
    return out


def other(d, r):
    """Another JSON value, much like this one."""
    if isinstance(d, list) and d and r.random() < 0.5:
        return r.choice([d + d[:1], d[:-1], d[::-1]])
    if isinstance(d, dict) and r.random() < 0.7:
        return r.choice([{**d, "zz": "0"}, {k: v for k, v in list(d.items())[1:]}])
    if isinstance(d, str) and r.random() < 0.7:
        return r.choice([d + "0", "0" + d, d[:-1], d.upper(), d + " ", d.replace("0", "2"),
                         "1" + "0" * 39, "-1", ""])
    return r.choice([None, True, 1, 0, 256, 1.0, "0", "1", "0x", "0x00", "0xAB", "0x" + "00" * 32,
                     "101", [], {}, [0, None]])


def mistold(t, v, r):
    """A text that is much like that of the value."""
    d = json.loads(json_text(t, v))
    x = r.random()
    if x < 0.7:
        holder = [d]
        at, k = r.choice(places(holder))
        at[k] = other(at[k], r)
        return json.dumps(holder[0], sort_keys=True, separators=(",", ":"))
    text = json_text(t, v)
    if x < 0.8:
        return r.choice([text + " ", text[:-1], " " + text, text + ",", text.replace('"', "'"),
                         text.replace(",", ", ")])
    if x < 0.9:
        turned = dict(reversed(d.items())) if isinstance(d, dict) else d
        return json.dumps(turned, separators=(",", ":"))
    return text.replace("0", "\\u0030", 1)


def drawn_texts():
    """For each type some texts of its values, and some that are much like them."""
    names, out = types_of(SCHEMA), {}
    for T in NAMES:
        r = random.Random(T)
        for i in range(4):
            out[f"{T}.{i}"] = json_text(names[T], rand(names[T], r))
            out[f"{T}.{i}x"] = mistold(names[T], rand(names[T], r), r)
            out[f"{T}.{i}y"] = mistold(names[T], rand(names[T], r), r)
    return out


TEXTS = {
    "json1": '{"a":"48042","b":"0x0102"}',
    "json2": '{"b":"0x0102","a":"48042"}',
    "json3": '{"a":"65536","b":"0x"}',
    "json4": '{"a":"01","b":"0x"}',
    "json5": '{"a":"1"}',
    "json6": '{"a":"1","b":"0x0102030405"}',
    "json7": "{",
    "none": "[0,null]",
    "five": '[1,"5"]',
    "none0": '[0,"0"]',
    "third": "[2,null]",
    "bits": '"101"',
}
TEXTS |= drawn_texts()


# Scripts

def literal(t, r):
    b = encode(t, rand(t, r))
    x = r.random()
    if x < 0.05:
        b = b[:-1]
    elif x < 0.1:
        b += b"\1"
    elif x < 0.15 and b:
        i = r.randrange(len(b))
        b = b[:i] + bytes([b[i] ^ 1 << r.randrange(8)]) + b[i + 1:]
    return "0x" + b.hex()


class Drawing:
    """Draws the statements of a script, as the machine stands that has heard those before."""

    def __init__(self, r, machine):
        self.r, self.machine = r, machine

    def statement(self, spells):
        r, m = self.r, self.machine
        listed = sorted(m.versions)
        v = r.choice(listed) if listed and r.random() < 0.95 else r.choice("ABCDXYZ")
        c = r.choice(weights(spells)) if listed else r.choice(["new", "lit"])
        t, x = m.versions.get(v, (BYTE, 0))
        return getattr(self, c, self.plain)(c, v, t, x)

    def plain(self, c, v, t, x):
        r = self.r
        if c in ("bytes", "json", "len"):
            return f"{c} {v} {rpath(t, x, r)[0]}"
        return {
            "fork": lambda: f"fork {v} {r.choice('ABCDE')}",
            "drop": lambda: f"drop {v}",
            "root": lambda: f"root {v}",
            "list": lambda: "list",
            "frob": lambda: r.choice(["frob", "set A", "# note", "root 1x", "new A", "  root  A ",
                                      "bytes A b", "drop A B"]),
            "save": lambda: f"save {v} f{r.randrange(3)}",
        }[c]()

    def new(self, c, v, t, x):
        T = self.r.choice(NAMES)
        return f"new {self.r.choice('ABCDE')} {T}"

    def lit(self, c, v, t, x):
        T = self.r.choice(NAMES)
        w = self.r.choice("ABCDE")
        return f"lit {w} {T} {literal(self.machine.types[T], self.r)}"

    def load(self, c, v, t, x):
        T = self.r.choice(NAMES)
        return f"load {self.r.choice('ABCDE')} {T} f{self.r.randrange(3)}"

    def gindex(self, c, v, t, x):
        T = self.r.choice(NAMES)
        named = self.machine.types[T]
        return f"gindex {T} {rpath(named, default(named), self.r)[0]}"

    def prove(self, c, v, t, x):
        r, listed = self.r, []
        few = [1, 2, 3, 4, 5, 6, 7, 8, 9, 11, 13]
        for _ in range(r.randint(1, 3)):
            if r.random() < 0.3:
                listed.append(str(r.choice(few + [r.randrange(64), 0])))
            else:
                listed.append(rpath(t, x, r, 0.1)[0])
        return f"prove {v} " + " ".join(listed)

    def loadjson(self, c, v, t, x):
        r = self.r
        T = r.choice(NAMES)
        near = [name for name in sorted(TEXTS) if name.startswith(T + ".")]
        file = r.choice([x for x in near if x[-1].isdigit()] if r.random() < 0.5 else near)
        file = file if r.random() < 0.9 else r.choice(sorted(TEXTS) + ["f0", "absent"])
        free = [x for x in "ABCDEFGH" if x not in self.machine.versions]
        w = r.choice(free) if free and r.random() < 0.8 else r.choice("ABCDE")
        return f"loadjson {w} {T} {file}"

    def set(self, c, v, t, x):
        p, q = rpath(t, x, self.r)
        return f"set {v} {p} {literal(q, self.r)}"

    def near(self, t, x, kinds):
        """A path to a part of these kinds, most often."""
        for _ in range(8):
            p, q = rpath(t, x, self.r, 0.4)
            if q[0] in kinds:
                break
        return p, q

    def pop(self, c, v, t, x):
        return f"pop {v} {self.near(t, x, ('list', 'bitlist'))[0]}"

    def append(self, c, v, t, x):
        p, q = self.near(t, x, ("list", "bitlist"))
        return f"append {v} {p} {literal(q[1] if q[0] == 'list' else BOOLEAN, self.r)}"

    def choose(self, c, v, t, x):
        r = self.r
        p, q = self.near(t, x, ("union",))
        k = r.randrange(4)
        o = q[1][k] if q[0] == "union" and k < len(q[1]) else None
        line = f"choose {v} {p} {k}"
        if r.random() < 0.4:
            return line
        return line + " " + (literal(o, r) if o else r.choice(["0x", "0x00"]))


def weights(spells):
    """The names of statements, as often as each is to come."""
    often = ["new", "lit", "fork", "drop", "list"] + ["set"] * 6 + ["append"] * 5 + ["pop"] * 3
    often += ["choose"] * 3 + ["root"] * 4 + ["bytes"] * 3 + ["len"] * 2 + ["gindex"]
    often += ["prove"] * 3 + ["save", "load", "frob"]
    return often + (["json"] * 12 + ["loadjson"] * 12 + ["drop"] * 6 if spells else [])


def script(seed, n, held=None, spells=False):
    """A script of n statements, of a writer that holds these versions."""
    machine = Machine(SCHEMA, files={name: text.encode() for name, text in TEXTS.items()})
    machine.versions = dict(held or {})
    drawing, lines = Drawing(random.Random(seed), machine), []
    for _ in range(n):
        lines.append(drawing.statement(spells))
        machine.script(lines[-1])
    return "\n".join(lines) + "\n"


def compacting(seed, text):
    """The same with a `compact` behind some of its lines."""
    r = random.Random(seed)
    return "".join(line + "\n" + "compact\n" * (r.random() < 0.3)
                   for line in text.split("\n")[:-1])
