"""Scripts of `run`: worked examples, those of examples/ethereum, and scripts that are drawn."""
import random
import re

from program import drawn
from program.drawn import SCHEMA, TEXTS
from program.machine import Machine
from program.runs import Run, Shared, example, lines_of
from ssz import HASHES

EXAMPLES = [
    ("sha", """\
new V L8
root V
append V / 0x0100000000000000
append V / 0x0100000000000000
append V / 0x0100000000000000
append V / 0x0100000000000000
append V / 0x0100000000000000
pop V /
pop V /
pop V /
pop V /
pop V /
root V
"""),
    ("xor", """\
new A P
fork A B
root A
set B /a 0x0100000000000000
root A
root B
drop B
root A
root B
"""),
    ("sha", """\
lit V O 0x0100000000000000
prove V / /a
"""),
    ("sha", """\
gindex Long /5
gindex Long /#len
gindex B512 /300
gindex U /#1
gindex U /#sel
gindex U /#0
"""),
    ("sha", """\
new V P
prove V 1 2
prove V 4
prove V 0
prove V 4 1
prove V 3 2 2
"""),
    ("sha", """\
new V L
append V / 0x05
append V / 0x06
pop V /
pop V /
set V /0 0x07
set V /1 0x07
set V /#len 0x0000000000000000
"""),
    ("xor", """\
new V U
choose V / 0 0x00
choose V / 3
choose V / 1 0x05
choose V / 1 0x0500000000000000
root V
"""),
    ("sha", ''),
    ("sha", """\
frob
"""),
    ("sha", """\
# note

list
"""),
    ("sha", 'list'),
    ("sha", 'list\r\n\tlist \r'),
    ("sha", """\
lit V M 0xaabb060000000102
bytes V /
bytes V /b
len V /b
save V f
load W M f
bytes W /
list
"""),
    ("xor", """\
lit V Q 0x0102
root V
prove V /a
"""),
    ("xor", """\
load V M f
save V f
lit V M 0xaabb060000000102
save V f
load W U f
load X M f
root X
load V M f
load Y Z f
"""),
    ("sha", """\
new V Wide
len V /
len V /7
bytes V /65535/3
"""),
    ("xor", """\
lit V M 0xaabb060000000102
json V /
json V /b/#len
json V /b/1
json V /b/2
json V /b/4
json V /b/2/c
json W /
new U U2
json U /
choose U / 1 0x0500000000000000
json U /
json U /#1
json U /#sel
json U /#0
lit B B3 0x05
json B /
json B /1
"""),
    ("sha", """\
loadjson V M json1
bytes V /
root V
loadjson W M json2
loadjson W M json3
loadjson W M json4
loadjson W M json5
loadjson W M json6
loadjson W M json7
loadjson W M absent
loadjson W U2 none0
loadjson W U2 third
loadjson W X none
loadjson V X json1
loadjson V U2 json7
loadjson W U2 none
bytes W /
loadjson U U2 five
bytes U /
loadjson B B3 bits
bytes B /
set V /a 0x0100
append V /b 0x03
json V /
list
"""),
    ("xor", """\
lit V P 0x01000000000000000200000000000000
upgrade V W N
bytes W /
root W
upgrade V X U
upgrade V W N
root V
"""),
    ("sha", """\
new V P
new X U
upgrade V V N
upgrade V V Z
upgrade Y V Z
upgrade Y V N
upgrade Y W Z
upgrade X V P
upgrade X W P
upgrade V W U
upgrade V W uint64
upgrade X W V4
upgrade V W P
list
"""),
    # names of definitions do not matter, limits and the types of parts do; what is taken stays
    # under edits
    ("sha", """\
lit V R 0x01000000000000000200000000000000140000000300000000000000
upgrade V W S
upgrade V X S8
upgrade W Y R
bytes W /
bytes X /
bytes Y /
root V
root W
root X
root Y
set V /p/a 0x0900000000000000
append W /l 0x0400000000000000
choose W /u 1 0x0500000000000000
upgrade W Z R
bytes V /
bytes W /
bytes Z /
root V
root W
root Z
drop V
compact
root Z
prove Z /l/1 /p
list
"""),
    ("sha", 'upgrade V W P\njson V\nloadjson V P\njson V / /\nloadjson V P f g\n'
     'loadjson V 1 f\ncompact V\nhashes x\nnew V\nnew 1 P\nset V a 0x\nprove V\n'
     'lit V P 0x0\nlit V P 0xzz\nbytes V /a/\nbytes V /01\n\x01\n'),
]
# with the numbers of `hashes`, which follow from the pairs of the trees
COUNTED = [
    ("xor", """\
new V P
set V /a 0x0100000000000000
set V /a 0x0200000000000000
set V /a 0x0300000000000000
hashes
root V
hashes
root V
hashes
""", ['hashes 0', 'hashes 1', 'hashes 1']),
    ("xor", """\
new V Q
set V /a 0x05
root V
hashes
compact
root V
hashes
""", ['hashes 1', 'hashes 1']),
    # the same type shares all: the pair above the fields alone is new; another type adds its
    # defaults' pairs
    ("sha", """\
new V R
root V
hashes
upgrade V W R
root W
hashes
upgrade V X S
root X
hashes
upgrade X Y R
root Y
hashes
""", ['hashes 3', 'hashes 4', 'hashes 8', 'hashes 9']),
    # what V has still to hash is hashed for W, once
    ("sha", """\
new V R
upgrade V W R
hashes
root W
hashes
root V
hashes
""", ['hashes 0', 'hashes 3', 'hashes 4']),
    # what was not hashed before is hashed later, once; what two names share is shared as before
    ("sha", """\
compact
new V P
fork V W
set V /a 0x0100000000000000
fork V X
compact
compact
hashes
root X
hashes
compact
root V
root X
hashes
drop X
drop V
compact
hashes
root W
hashes
list
""", ['hashes 0', 'hashes 1', 'hashes 1', 'hashes 1', 'hashes 2']),
]
MOST_PRINTED = 4096


def fourth_words(script, *names):
    """The fourth words of the lines of four that begin with one of these."""
    lines = [line.split() for line in script.split("\n")]
    return sorted({words[3] for words in lines if len(words) == 4 and words[0] in names})


def told_texts(script):
    """What the files hold that a script reads, and nothing where none is told."""
    return {name: TEXTS.get(name, "") for name in fourth_words(script, "load", "loadjson")}


def saved_names(script):
    return sorted(set(re.findall(r"^save [^ \n]+ ([^ \n]+)$", script, re.M)))


def run_of(hasher, script, numbers=(), name="run.json", types=SCHEMA):
    """The run of a script; the numbers of `hashes` are told."""
    files = {"schema": Shared(name), "script": script, **told_texts(script)}
    machine = Machine(types, HASHES[hasher], {name: text.encode() for name, text in TEXTS.items()})
    lines, refused = machine.script(script)
    numbers = iter(numbers)
    lines = [next(numbers) if line == "hashes ?" else line for line in lines]
    held = {name: text.encode() for name, text in told_texts(script).items()} | machine.files
    # a longer file is only loaded again, by its script
    saved = {name: held.get(name) for name in saved_names(script)
             if len(held.get(name, b"")) <= MOST_PRINTED}
    return Run(hasher, ["run", "schema", "script"], files, int(refused), lines_of(lines), saved)


def of_seed(seed, script):
    return run_of(random.Random(seed).choice(["sha", "xor"]), script)


def runs():
    yield from (run_of(*row) for row in EXAMPLES)
    yield from (of_seed(seed, drawn.script(seed, 60)) for seed in range(40))
    yield from (of_seed(seed, drawn.script(seed, 60, spells=True)) for seed in range(40, 64))
    yield from (of_seed(seed, drawn.compacting(seed, drawn.script(seed, 60)))
                for seed in range(64, 80))
    yield from (run_of(*row) for row in COUNTED)
    yield run_of("sha", example("state.script"), (), "deneb.json", example("deneb.json"))
