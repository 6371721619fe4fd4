"""A machine of scripts over whole values, by the table of statements of docs/formats.md.

It knows no node, no sharing and no cache, and has nothing of the program. A file that is not there
holds no bytes.
"""
import re

import ssz
from program.texts import Misspelled, spelled
from ssz import (
    BOOLEAN, LEN, NAME, NUMBER, SEL, Fault, decode, default, edited, encode, generalized_index, json_text, part_at, path_of,
    path_type, set_to, types_of)

CODES = {
    1: "Syntax", 2: "NoType", 3: "NoVersion", 4: "NameTaken", 5: "BadPath", 6: "Absent",
    7: "NotThat", 8: "Full", 9: "Empty", 10: "BadSelector", 11: "BadLiteral", 12: "TooLong",
    13: "NoNode", 14: "Nested", 15: "NotHere", 16: "NotContainer", 18: "BadJson",
}
MOST = 268435456


class Refused(Exception):
    """A code, and the fault where one is told."""


def refuse(*code):
    raise Refused(code)


# The words of statements

def is_name(word):
    return NAME.match(word) is not None


def is_path(word):
    return path_of(word) is not None


def is_file(word):
    return re.match(r"[A-Za-z0-9_.\-/]{1,255}\Z", word) is not None


def is_literal(word):
    return re.match(r"0x([0-9a-fA-F]{2})*\Z", word) is not None


def is_selector(word):
    return NUMBER.match(word) is not None and int(word) < 256


def is_index(word):
    return NUMBER.match(word) is not None and int(word) < 2 ** 128 or is_path(word)


def bytes_of(word):
    return bytes.fromhex(word[2:])


# A statement's name, and what its words are
FORMS = {
    "new": [is_name, is_name],
    "lit": [is_name, is_name, is_literal],
    "load": [is_name, is_name, is_file],
    "loadjson": [is_name, is_name, is_file],
    "fork": [is_name, is_name],
    "upgrade": [is_name, is_name, is_name],
    "drop": [is_name],
    "list": [],
    "hashes": [],
    "compact": [],
    "set": [is_name, is_path, is_literal],
    "append": [is_name, is_path, is_literal],
    "pop": [is_name, is_path],
    "choose": [is_name, is_path, is_selector, is_literal],
    "root": [is_name],
    "bytes": [is_name, is_path],
    "json": [is_name, is_path],
    "len": [is_name, is_path],
    "save": [is_name, is_file],
    "gindex": [is_name, is_path],
    "prove": [is_name, is_index],
}


def forms_of(name, count):
    """What so many words behind a name must be, or None where there must be others."""
    forms = FORMS.get(name)
    if name == "prove" and count > 2:
        forms = forms + [is_index] * (count - 2)
    if name == "choose" and count == 3:
        forms = forms[:3]
    return forms if forms is not None and len(forms) == count else None


def is_statement(words):
    forms = forms_of(words[0], len(words) - 1)
    return forms is not None and all(is_it(word) for is_it, word in zip(forms, words[1:]))


def value_of(t, data):
    try:
        return decode(t, data)
    except Fault as fault:
        refuse(11, fault.args)


def value_of_text(t, data):
    try:
        return spelled(t, data)
    except Misspelled as fault:
        refuse(18, fault.args[0])


class Machine:
    def __init__(self, text, pair=ssz.sha, files=None):
        self.types, self.pair = types_of(text), pair
        self.versions, self.files = {}, dict(files or {})

    def statement(self, line):
        """The reply of a statement."""
        words = line.split()
        if not is_statement(words):
            refuse(1)
        return getattr(self, words[0] + "_")(*words[1:]) or "ok"

    def script(self, text):
        """The replies, and whether one is a refusal."""
        out, refused = [], False
        lines = text.split("\n")
        for i, line in enumerate(lines, 1):
            # one carriage return is dropped, where a line feed follows
            line = line[:-1] if line.endswith("\r") and i < len(lines) else line
            words = [x for x in line.replace("\t", " ").split(" ") if x]
            if not words or words[0].startswith("#"):
                continue
            try:
                if not all(32 <= ord(c) < 127 or c == "\t" for c in line):
                    refuse(1)
                out.append(self.statement(line))
            except Refused as why:
                code, *more = why.args[0]
                refused = True
                tail = [(" J%d %d" if code == 18 else " F%d %d") % fault for fault in more]
                out.append("refused %d %d %s" % (i, code, CODES[code]) + "".join(tail))
        return out, refused

    # What statements ask of the machine

    def type_(self, name):
        return self.types[name] if name in self.types else refuse(2)

    def version(self, name):
        return self.versions[name] if name in self.versions else refuse(3)

    def free(self, name):
        if name in self.versions:
            refuse(4)

    def part(self, name, word):
        """The version, the path, the type of the part and the part."""
        t, v = self.version(name)
        steps = path_of(word)
        part_type = path_type(t, steps)
        if part_type is None:
            refuse(5)
        try:
            return t, v, steps, part_type, part_at(t, v, steps)[1]
        except ssz.Refused:
            refuse(6)

    # The statements

    def new_(self, name, type_name):
        t = self.type_(type_name)
        self.free(name)
        self.versions[name] = (t, default(t))

    def lit_(self, name, type_name, literal):
        t = self.type_(type_name)
        self.free(name)
        self.versions[name] = (t, value_of(t, bytes_of(literal)))

    def load_(self, name, type_name, file, read=value_of):
        t = self.type_(type_name)
        self.free(name)
        data = self.files.get(file, b"")
        if len(data) > MOST:
            refuse(12)
        self.versions[name] = (t, read(t, data))

    def loadjson_(self, name, type_name, file):
        self.load_(name, type_name, file, value_of_text)

    def fork_(self, name, other):
        version = self.version(name)
        self.free(other)
        self.versions[other] = version

    def upgrade_(self, name, other, type_name):
        t = self.type_(type_name)
        u, v = self.version(name)
        self.free(other)
        if u[0] != "container" or t[0] != "container":
            refuse(16)
        old = {name: (p, x) for (name, p), x in zip(u[1], v)}
        value = [old[name][1] if name in old and old[name][0] == p else default(p)
                 for name, p in t[1]]
        self.versions[other] = (t, value)

    def drop_(self, name):
        self.version(name)
        del self.versions[name]

    def list_(self):
        return " ".join(["list"] + sorted(self.versions))

    def hashes_(self):
        return "hashes ?"

    def compact_(self):
        return "ok"

    def edit(self, name, word, new):
        """Puts what `new` makes of the part's type and the part in its place."""
        t, v, steps, part_type, part = self.part(name, word)
        self.versions[name] = (t, edited(t, v, steps, set_to(new(part_type, part))))

    def set_(self, name, word, literal):
        def new(t, _):
            if word.endswith(("/" + LEN, "/" + SEL)):
                refuse(7)
            return value_of(t, bytes_of(literal))
        self.edit(name, word, new)

    def append_(self, name, word, literal):
        def new(t, part):
            if t[0] not in ("list", "bitlist"):
                refuse(7)
            if len(part) >= t[-1]:
                refuse(8)
            return part + [value_of(t[1] if t[0] == "list" else BOOLEAN, bytes_of(literal))]
        self.edit(name, word, new)

    def pop_(self, name, word):
        def new(t, part):
            if t[0] not in ("list", "bitlist"):
                refuse(7)
            return part[:-1] if part else refuse(9)
        self.edit(name, word, new)

    def choose_(self, name, word, selector, literal=None):
        def new(t, _):
            k = int(selector)
            if t[0] != "union":
                refuse(7)
            if k >= len(t[1]):
                refuse(10)
            option = t[1][k]
            if option is None and literal not in (None, "0x"):
                refuse(11, (2, 0))
            if option is None:
                return (k, None)
            return (k, default(option) if literal is None else value_of(option, bytes_of(literal)))
        self.edit(name, word, new)

    def root_(self, name):
        t, v = self.version(name)
        return "root 0x" + ssz.hash_tree_root(t, v, self.pair).hex()

    def bytes_(self, name, word):
        *_, t, part = self.part(name, word)
        data = encode(t, part)
        return "bytes 0x" + data.hex() if len(data) <= MOST else refuse(12)

    def json_(self, name, word):
        *_, t, part = self.part(name, word)
        text = json_text(t, part)
        return "json " + text if len(text) <= MOST else refuse(12)

    def len_(self, name, word):
        *_, t, part = self.part(name, word)
        if t[0] not in ("vector", "list", "bitvector", "bitlist"):
            refuse(7)
        return "len %d" % len(part)

    def save_(self, name, file):
        data = encode(*self.version(name))
        if len(data) > MOST:
            refuse(12)
        self.files[file] = data

    def gindex_(self, type_name, word):
        g = generalized_index(self.type_(type_name), path_of(word))
        return "gindex %d" % g if g is not None else refuse(5)

    def prove_(self, name, *words):
        t, v = self.version(name)
        listed = [int(w) if NUMBER.match(w) else generalized_index(t, path_of(w)) for w in words]
        if None in listed:
            refuse(5)
        leaves, whole = sorted(set(listed)), ssz.tree(t, v)
        if any(ssz.at(whole, g) is None for g in leaves):
            refuse(13)
        if not ssz.are_flat(leaves):
            refuse(14)

        def entries(indices):
            return "".join(" %d=0x%s" % (g, ssz.root(ssz.at(whole, g), self.pair).hex())
                           for g in indices)
        return "proof%s /%s" % (entries(leaves), entries(ssz.helper_indices(leaves)))
