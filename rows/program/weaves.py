"""Scripts of `weave`: worked examples, and weaves of scripts that are drawn.

The machine of machine.py, once for each writer, with the turns of an order.
"""
import random
import re

from program import drawn
from program.machine import Machine, refuse
from program.runs import USAGE, Run, Shared, lines_of
from program.scripts import fourth_words
from ssz import HASHES

TYPES = drawn.SCHEMA.replace('["P",', '["Bytes",{"list":["uint8",4096]}],\n["P",', 1)


class Writer(Machine):
    """A writer of a weave: `save` and `hashes` are refused before anything else."""

    def save_(self, name, file):
        refuse(15)

    def hashes_(self):
        refuse(15)


def says_something(line):
    words = [word for word in line.replace("\t", " ").split(" ") if word]
    return bool(words) and not words[0].startswith("#")


class Script:
    """The lines of a script that are left, and the writer that says them."""

    def __init__(self, mark, text, writer):
        self.mark, self.writer = mark, writer
        lines = text.split("\n")
        lines = [line[:-1] if line.endswith("\r") and i + 1 < len(lines) else line
                 for i, line in enumerate(lines)]
        self.left = [(i, line) for i, line in enumerate(lines, 1) if says_something(line)]

    def next(self):
        """The line that is printed for the next statement, and whether it is refused."""
        if not self.left:
            return []
        i, line = self.left.pop(0)
        out, refused = self.writer.script("\n" * (i - 1) + line)
        return [(f"{self.mark}: {out[0]}", refused)]

    def all(self):
        out = []
        while self.left:
            out += self.next()
        return out


def weave(hasher, base, order, scripts, files, types=TYPES):
    """The status and the lines."""
    if not scripts or len(scripts) > 10 or not re.match("[0-9]+\\Z", order):
        return 2, [USAGE]
    if int(max(order)) >= len(scripts):
        return 2, [USAGE]

    def begun(mark, text, versions):
        writer = Writer(types, HASHES[hasher], files)
        writer.versions = dict(versions)
        return Script(mark, text, writer)
    first = begun("base", base, {})
    out = first.all()
    writers = [begun(str(i), text, first.writer.versions) for i, text in enumerate(scripts)]
    for digit in order:
        out += writers[int(digit)].next()
    for writer in writers:
        out += writer.all()
    return int(any(refused for _, refused in out)), [line for line, _ in out]


ONE, TWO = '0x0100000000000000', '0x0200000000000000'
BOTH = [f'set S /a {ONE}\nroot S\n', f'set S /b {TWO}\nhashes\n']
EXAMPLES = [
    ('xor', 'new S P\n', '0011', BOTH),
    ('xor', 'new S P\n', '0101', BOTH),
    ('xor', 'new S P\n', '000', ['root S\n', 'list\n']),
    ('sha', 'frob\n', '0', ['']),
    # words that are not taken
    ('sha', 'new S P\n', '0', ['list\n'] * 11),
    ('sha', 'new S P\n', '02', ['list\n'] * 2),
    ('sha', 'new S P\n', '0x', ['list\n'] * 2),
    ('sha', 'new S P\n', '0', []),
    # each writer has versions of its own, of which the others see nothing
    ('sha', f'new S P\nset S /a {ONE}\nfork S T\nroot S\n', '01010101',
     ['drop S\nlist\nnew S Q\nroot S\nroot T\n',
      'list\nroot S\nset S /b 0x0300000000000000\nroot S\nfork S U\nlist\n',
      'list\nbytes S /\nbytes T /\nbytes U /\n']),
    ('sha', 'new S P\nnew T Q\ndrop S\n', '10', ['root S\nlist\n', 'new S O\nroot S\nlist\n']),
    # what does not stand in a weave is refused first, in the base too
    ('sha', 'save S f\nhashes\nnew S P\nsave S f\nsave s\nhashes 1\n', '0', [
     'save S f\nhashes\nsave S a/b\nload T P f\n']),
    # a file that was there before is read as ever
    ('sha', 'load A Bytes w1\nlen A /\n', '1100', ['bytes A /\nload B Bytes base\nbytes B /\n',
     'load A Bytes w0\nlist\nload L8 L8 w0\nload P P w0\n']),
    # texts are written and read as ever; a text that is a script has one line, which is no
    # statement
    ('xor', 'lit S M 0xaabb060000000102\njson S /\n', '0110',
     ['json S /b/1\nloadjson S M w1\nloadjson T M w1\n'
      'set S /a 0x0000\njson T /\njson S /a\nloadjson U M w0\nlist\n',
      '{"a":"48042","b":"0x0102"}', 'list\njson S /\njson T /\nloadjson T U2 base\n']),
    # scripts of unequal length, and one of no line; lines are numbered in each script by itself
    ('sha', '\n# the base\n\nnew S L8\n', '0000012',
     [f'append S / {ONE}\n\nappend S / {TWO}\nlen S /\nfrob\n', '',
      f'# only this\nappend S / {TWO}\nlen S /\nroot S\nroot T\nbytes S /\n']),
    ('sha', 'new S P\r\n', '1', ['root S', '\tlist \r\nroot S \r']),
    # a writer gives up what no version needs, of whichever writer
    ('xor', f'new S P\ncompact\nset S /a {ONE}\n', '0101010101',
     [f'set S /b {TWO}\nroot S\ncompact\nroot S\nbytes S /\n',
      f'root S\ncompact\nroot S\nfork S T\nset T /a {TWO}\nroot S\nroot T\n']),
    ('sha', 'compact\nnew S L8\ncompact\n', '01201201',
     [f'append S / {ONE}\ncompact\nroot S\n', f'drop S\ncompact\nlist\nnew S L8\nroot S\n',
      f'append S / {TWO}\nlist\nroot S\n']),
    # as many writers as there can be
    ('sha', 'new S L8\n', '9876543210' * 2, [
     f'append S / 0x{i:02x}00000000000000\nbytes S /\nlist\n' for i in range(10)]),
]


def drawn_weave(seed, compacts=False):
    r = random.Random(seed)
    base = drawn.script(seed, 12)
    begun = Script("base", base, Writer(TYPES))
    begun.all()
    count = r.randint(1, 4)
    scripts = [drawn.script(1000 * (seed + 1) + i, r.randint(0, 14), begun.writer.versions)
               for i in range(count)]
    if compacts:
        base = drawn.compacting(seed, base)
        scripts = [drawn.compacting(seed + i, text) for i, text in enumerate(scripts)]
    order = "".join(str(r.randrange(count)) for _ in range(r.randint(1, 30)))
    return r.choice(["sha", "xor"]), base, order, scripts


def run_of(hasher, base, order, scripts):
    named = {"base": base, **{f"w{i}": text for i, text in enumerate(scripts)}}
    words = ["weave", "schema", "base", order] + [f"w{i}" for i in range(len(scripts))]
    held = {name: text.encode() for name, text in named.items()}
    status, lines = weave(hasher, base, order, scripts, held)
    absent = dict.fromkeys(fourth_words("\n".join(named.values()), "load", "loadjson"), "")
    files = {"schema": Shared("weave.json"), **absent, **named}
    return Run(hasher, words, files, status, lines_of(lines))


def runs():
    yield from (run_of(*row) for row in EXAMPLES)
    yield from (run_of(*drawn_weave(seed)) for seed in range(24))
    yield from (run_of(*drawn_weave(seed, compacts=True)) for seed in range(24, 32))
