"""What an engine replies to scripts: the runs of scripts and of two writers by either hasher, and
runs of which a call fails.

Each reply is computed here from nothing over plain values. First faults of bytes and of texts, and
the counts that `hashes` prints, are written beside their lines by hand, from the rules of the
formats.
"""
import json

from node.script import MAX_BYTES, TYPES, Script, hexed
from node.scripts import SCRIPTS
from node.texts import TEXTS
from ssz import HASHES, ZERO, form_of, le, number_chunk, xor

# Files that are no texts.
OCTETS = {"short": b"\xaa", "long": bytes(MAX_BYTES + 1), "longs": le(7, 8) + le(8, 8)}

# How runs of these lines end in which a call fails: the status, what the sink took, what f holds. A
# put that fails leaves the first half of what it was given. The call of the files and that of the
# sink which fail are numbered from 1: the calls of files are the save and the load, those of the
# sink the lines.
FAULTY = ["new V P", "save V f", "root V", "load W P longs", "root W"]
OK = "ok\n"
OF_ZERO = "root " + hexed(ZERO) + "\n"
OF_LONGS = "root " + hexed(xor(number_chunk(7), number_chunk(8))) + "\n"
FAILING = [(0, 0), (1, 0), (2, 0), (0, 1), (0, 2), (0, 3), (0, 4)]
ENDINGS = [
    (0, OK + OK + OF_ZERO + OK + OF_LONGS, bytes(16)),
    (5, OK, bytes(8)),
    (4, OK + OK + OF_ZERO, bytes(16)),
    (5, "o", None),
    (5, OK + "o", bytes(16)),
    (5, OK + OK + OF_ZERO[:36], bytes(16)),
    (5, OK + OK + OF_ZERO + "o", bytes(16)),
]

# The same where a text is read: no file is read for what is refused before.
UNREAD = ["new V P", "loadjson V P absent", "loadjson W X absent", "loadjson U U chosen",
          "loadjson W P absent", "list"]
BEFORE_READ = OK + "refused 2 4 NameTaken\nrefused 3 2 NoType\n"
UNREAD_ENDINGS = [(4, BEFORE_READ + OK), (4, BEFORE_READ)]


def files_text():
    """Each file behind a line with its name, or its digits on that line."""
    digits = ["--- %s %s\n" % (name, octets.hex()) for name, octets in OCTETS.items()]
    return "".join(digits + ["--- %s\n%s\n" % item for item in TEXTS.items()])


def run_text(head, lines):
    return "=== %s\n" % head + "".join(line + "\n" for line in lines)


def wanted_of(script, hasher):
    """The lines of a run by a hasher."""
    wanted = ["%s %s" % (script.name, hasher)] + script.wanted
    if not script.is_weave:
        is_refused = any(line.startswith("refused") for line in script.wanted)
        wanted.append("status %d" % is_refused)
    saved = sorted(script.saved.items())
    return wanted + ["%s %s" % (file, hexed(octets)) for file, octets in saved]


def scripts():
    """The runs of the scripts, and the wanted lines."""
    runs, wanted = "", []
    for name, fill, is_weave in SCRIPTS:
        for hasher, pair in HASHES.items():
            script = Script(name, pair, is_weave)
            fill(script)
            wanted += wanted_of(script, hasher)
        runs += run_text(("weave " if is_weave else "run ") + name, script.lines)
    return runs, wanted


def failing():
    """The runs of which a call fails, and the wanted lines."""
    runs, wanted = "", []
    for calls, (status, taken, saved) in zip(FAILING, ENDINGS):
        runs += run_text("fail %d %d f" % calls, FAULTY)
        wanted += ["status %d" % status, *(taken + "|").split("\n")]
        wanted.append("no f" if saved is None else "f " + hexed(saved))
    for fails, (status, taken) in enumerate(UNREAD_ENDINGS):
        runs += run_text("fail %d 0" % fails, UNREAD)
        wanted += ["status %d" % status, *(taken + "|").split("\n")]
    return runs, wanted


def made():
    """The files of the subject, and the wanted lines."""
    runs, wanted = scripts()
    failing_runs, failing_wanted = failing()
    types = [[name, form_of(t)] for name, t in TYPES.items()]
    files = {
        "engine_schema.json": json.dumps({"ssz": 1, "types": types}) + "\n",
        "engine.txt": runs + failing_runs,
        "engine_files.txt": files_text(),
    }
    return files, wanted + failing_wanted
