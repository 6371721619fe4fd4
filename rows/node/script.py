"""Lines of scripts, with the replies that an engine is to make."""
from node.texts import TEXTS
from ssz import (
    BOOLEAN, BUILT_IN, Refused, append, are_flat, at, bitlist, bitvector, choose, container, default, edited, encode,
    generalized_index, helper_indices, json_text, list_of, part_at, path_of, pop, root, set_to, tree, uint, union, vector)

MAX_BYTES = 64

P = container(a=uint(64), b=uint(64))
M = container(a=uint(16), b=list_of(uint(8), 4))
WIDE = container(
    wide=uint(256), flags=bitvector(10), marks=bitlist(300), texts=list_of(M, 3),
    pick=union(None, uint(64), M), truths=list_of(BOOLEAN, 40), halves=vector(uint(16), 20))
TYPES = {
    "P": P,
    "Q": container(a=uint(8), b=uint(8)),
    "O": container(a=uint(64)),
    "M": M,
    "K": container(a=BOOLEAN, b=list_of(uint(8), 4)),
    "U": union(None, uint(64)),
    "L": list_of(uint(8), 1),
    "Eight": list_of(uint(64), 8),
    "Lists": list_of(list_of(uint(8), 4), 4),
    "Marks": bitlist(8),
    "Few": bitlist(3),
    "Four": bitvector(4),
    "None": list_of(uint(64), 0),
    "Far": list_of(uint(64), 2 ** 40),
    "Bits": bitlist(512),
    "Long": vector(uint(8), 80),
    "Nine": vector(uint(64), 9),
    "Three": bitvector(3),
    "Wides": list_of(uint(256), 2),
    "Wide": WIDE,
}
CODES = {
    "Syntax": 1, "NoType": 2, "NoVersion": 3, "NameTaken": 4, "BadPath": 5, "Absent": 6,
    "NotThat": 7, "Full": 8, "Empty": 9, "BadSelector": 10, "BadLiteral": 11, "TooLong": 12,
    "NoNode": 13, "Nested": 14, "NotHere": 15,
    "BadJson": 18,
}


def hexed(octets):
    return "0x" + octets.hex()


class Script:
    """Lines, with the replies that are wanted. A weave has two writers, who say a line in turn."""

    def __init__(self, name, pair, is_weave=False):
        self.name, self.pair, self.is_weave = name, pair, is_weave
        self.lines, self.wanted, self.saved = [], [], {}
        self.versions = [{}, {}]

    def own(self):
        return self.versions[len(self.lines) % 2 if self.is_weave else 0]

    def line(self, text, reply):
        """A line, and its reply: a function that may refuse, or the text."""
        try:
            said = reply() if callable(reply) else reply
        except Refused as refusal:
            code = CODES[str(refusal).split()[0]]
            said = "refused %d %d %s" % (len(self.lines) + 1, code, refusal)
        self.lines.append(text)
        if said is not None:
            self.wanted.append(said)

    def none(self, text):
        self.line(text, None)

    def refused(self, text, why):
        """A line that is refused for a reason that is not computed here."""
        def reply():
            raise Refused(why)
        self.line(text, reply)

    def held(self, v):
        if v not in self.own():
            raise Refused("NoVersion")
        return self.own()[v]

    def type_of(self, name):
        if name not in TYPES and name not in BUILT_IN:
            raise Refused("NoType")
        return TYPES.get(name) or BUILT_IN[name]

    def made(self, v, name, value, own):
        t = self.type_of(name)
        if v in own:
            raise Refused("NameTaken")
        own[v] = (t, default(t) if value is None else value)
        return "ok"

    def new(self, v, name):
        self.line("new %s %s" % (v, name), lambda: self.made(v, name, None, self.own()))

    def lit(self, v, name, value):
        text = hexed(encode(self.type_of(name), value))
        self.line("lit %s %s %s" % (v, name, text), lambda: self.made(v, name, value, self.own()))

    def load(self, v, name, value, file):
        self.line("load %s %s %s" % (v, name, file), lambda: self.made(v, name, value, self.own()))

    def fork(self, v, w):
        def reply():
            held = self.held(v)
            if w in self.own():
                raise Refused("NameTaken")
            self.own()[w] = held
            return "ok"
        self.line("fork %s %s" % (v, w), reply)

    def drop(self, v):
        def reply():
            self.held(v)
            del self.own()[v]
            return "ok"
        self.line("drop " + v, reply)

    def compact(self):
        self.line("compact", "ok")

    def list(self):
        self.line("list", lambda: " ".join(["list"] + sorted(self.own())))

    def edit(self, head, v, path, edit, tail=""):
        def reply():
            t, value = self.held(v)
            self.own()[v] = (t, edited(t, value, path_of(path), edit))
            return "ok"
        self.line("%s %s %s%s" % (head, v, path, tail), reply)

    def set(self, v, path, octets, value):
        """The bytes encode the value."""
        self.edit("set", v, path, set_to(value), " " + hexed(octets))

    def append(self, v, path, octets, value):
        self.edit("append", v, path, append(value), " " + hexed(octets))

    def pop(self, v, path):
        self.edit("pop", v, path, pop)

    def choose(self, v, path, selector, octets, value):
        tail = " %d" % selector + ("" if octets is None else " " + hexed(octets))
        self.edit("choose", v, path, choose(selector, value), tail)

    def root(self, v):
        self.line("root " + v, lambda: "root " + hexed(root(tree(*self.held(v)), self.pair)))

    def bytes(self, v, path):
        def reply():
            octets = encode(*part_at(*self.held(v), path_of(path)))
            if len(octets) > MAX_BYTES:
                raise Refused("TooLong")
            return "bytes " + hexed(octets)
        self.line("bytes %s %s" % (v, path), reply)

    def json(self, v, path):
        def reply():
            text = json_text(*part_at(*self.held(v), path_of(path)))
            if len(text) > MAX_BYTES:
                raise Refused("TooLong")
            return "json " + text
        self.line("json %s %s" % (v, path), reply)

    def loadjson(self, v, name, value, file):
        """The file has the text of the value."""
        assert TEXTS[file] == json_text(self.type_of(name), value)
        text = "loadjson %s %s %s" % (v, name, file)
        self.line(text, lambda: self.made(v, name, value, self.own()))

    def len(self, v, path):
        def reply():
            t, value = part_at(*self.held(v), path_of(path))
            if t[0] not in ("vector", "list", "bitvector", "bitlist"):
                raise Refused("NotThat")
            return "len %d" % len(value)
        self.line("len %s %s" % (v, path), reply)

    def save(self, v, file):
        def reply():
            if self.is_weave:
                raise Refused("NotHere")
            octets = encode(*self.held(v))
            if len(octets) > MAX_BYTES:
                raise Refused("TooLong")
            self.saved[file] = octets
            return "ok"
        self.line("save %s %s" % (v, file), reply)

    def gindex(self, name, path):
        def reply():
            index = generalized_index(self.type_of(name), path_of(path))
            if index is None:
                raise Refused("BadPath")
            return "gindex %d" % index
        self.line("gindex %s %s" % (name, path), reply)

    def prove(self, v, *words):
        def reply():
            t, value = self.held(v)
            asked = []
            for word in words:
                index = generalized_index(t, path_of(word)) if isinstance(word, str) else word
                if index is None:
                    raise Refused("BadPath")
                asked.append(index)
            asked = sorted(set(asked))
            whole = tree(t, value)
            if any(at(whole, index) is None for index in asked):
                raise Refused("NoNode")
            if not are_flat(asked):
                raise Refused("Nested")

            def entries(indices):
                return "".join(" %d=%s" % (i, hexed(root(at(whole, i), self.pair))) for i in indices)
            return "proof%s /%s" % (entries(asked), entries(helper_indices(asked)))
        self.line("prove %s %s" % (v, " ".join(str(word) for word in words)), reply)

    def hashes(self, count):
        refused = "refused %d 15 NotHere" % (len(self.lines) + 1)
        self.line("hashes", refused if self.is_weave else "hashes %d" % count)
