"""Drawn scripts of `partial`, most of whose statements are accepted, and a balance by its proof."""
import random

import ssz
from program import partials
from program.partials import NAMES, TYPES, of_value
from program.runs import example
from ssz import BYTE


def balance():
    """The state of examples/ethereum/balance.script before its edit, and partial.script."""
    t = TYPES["deneb.json"]["BeaconState"]
    value = ssz.default(t)
    validator = [[0xab] * 48, [0] * 32, 32000000000, False, 0, 0, 2 ** 64 - 1, 2 ** 64 - 1]
    for word, new in (("/balances", [32000000000]), ("/slot", 42), ("/validators", [validator])):
        value = ssz.edited(t, value, ssz.path_of(word), ssz.set_to(new))
    state_root = "c3ab54121778301dfcd6bf87a958bb09a1570876a950c837122bd19e9adcc8c0"
    if ssz.hash_tree_root(t, value).hex() != state_root:
        raise AssertionError("not the state whose root examples/ethereum/README.md has")
    balances = ssz.generalized_index(t, ssz.path_of("/balances"))
    leaf = ssz.generalized_index(t, ssz.path_of("/balances/0"))
    return of_value("sha", "BeaconState", value, [2 * balances + 1, leaf],
                    example("partial.script"), "deneb.json")


class Drawing:
    def __init__(self, seed):
        self.random = random.Random(seed)

    def value(self, t):
        r = self.random
        kind = t[0]
        if kind == "boolean":
            return r.random() < 0.5
        if kind == "uint":
            return r.getrandbits(t[1])
        if kind == "container":
            return [self.value(part) for _, part in t[1]]
        if kind == "union":
            k = r.randrange(len(t[1]))
            return (k, None if t[1][k] is None else self.value(t[1][k]))
        if kind == "bitvector":
            return [r.getrandbits(1) for _ in range(t[1])]
        if kind == "bitlist":
            return [r.getrandbits(1) for _ in range(r.randrange(min(t[1], 400) + 1))]
        count = t[2] if kind == "vector" else r.randrange(min(t[2], 40) + 1)
        return [self.value(t[1]) for _ in range(count)]

    def step(self, t, v):
        """The word of a step into a part, mostly a present one."""
        r, kind = self.random, t[0]
        if kind == "container":
            return r.choice(t[1])[0]
        if kind == "union":
            return r.choice(["#sel", "#%d" % v[0], "#%d" % r.randrange(len(t[1]) + 1)])
        last = len(v) + (r.random() < 0.1)
        word = str(r.randrange(max(last, 1)))
        if kind in ("list", "bitlist") and r.random() < 0.1:
            return r.choice(["#len", str(t[-1] - 1), str(t[-1])])
        return word

    def place(self, t, v):
        """A path to a part, mostly present, and the indices that it needs."""
        path, needs, k = "", [], 1
        while not ssz.is_basic(t):
            word = self.step(t, v)
            path += "/" + word
            step = ssz.step_of(word)
            inside = ssz.step_type(t, step)
            if inside is None or self.random.random() < 0.02:
                return path, None
            is_last = step in (ssz.LEN, ssz.SEL)
            if not is_last and t[0] in ("list", "bitlist", "union"):
                needs.append(2 * k + 1)
            k = ssz.step_index(k, t, step)
            if is_last:
                break
            try:
                v, t = ssz.inner(t, v, step), inside
            except ssz.Refused:
                return path, needs
        return path, needs + [k]

    def literal(self, t):
        r = self.random
        if r.random() < 0.05:
            return bytes(r.getrandbits(8) for _ in range(r.randrange(ssz.fixed_size(t) + 3)))
        return ssz.encode(t, self.value(t))

    def script(self, t, places):
        r, lines = self.random, []
        for _ in range(r.randrange(4, 14)):
            path = r.choice(places)
            draw = r.random()
            if draw < 0.4:
                lines.append("get " + path)
            elif draw < 0.8:
                part = ssz.path_type(t, ssz.path_of(path))
                part = part if part and ssz.is_basic(part) else BYTE
                lines.append("set %s 0x%s" % (path, self.literal(part).hex()))
            elif draw < 0.95:
                lines.append("root")
            else:
                lines.append(r.choice(["", "# note", "roots", "get", "\t"]))
        return "\n".join(lines) + "\n"

    def row(self):
        r = self.random
        name = r.choice(NAMES)
        t = TYPES["partial.json"][name]
        value = self.value(t)
        places = [self.place(t, value) for _ in range(6)]
        asked = [path for path, needs in places if needs is not None for _ in range(4)]
        asked += [path for path, _ in places]
        indices = sorted({g for _, needs in places[:4] for g in needs or [1]})
        flat = [g for g in indices if not any(g in ssz.ancestors(h) for h in indices)]
        hasher = r.choice(["sha", "xor"])
        return of_value(hasher, name, value, flat, self.script(t, asked))


def runs():
    drawing = Drawing(20)
    yield from partials.examples()
    yield from partials.files()
    yield balance()
    yield from (drawing.row() for _ in range(150))
