#!/usr/bin/env python3
"""Runs the worked examples with devices that fail, and compares status, output and saved files.

First each read and each write of each example fails in turn, or moves half of its bytes, or each
is interrupted by a signal and moves one byte at a time. Then whole files and outputs are bad: full,
closed, absent, a folder, forbidden to the user, endless, or cut while they are read.

  python3 hostile/devices.py     after 'rt run' in crates/ssz_cli, which builds the program; SSZ=FILE names another
"""
import hashlib
import os
import shutil
import subprocess
import threading

import rows
from rows import Row, chunk, hexed, merkleize, pair, root_of_p
from runs import BEFORE, Place, Tally, words_of

NOBODY = 65534


def stopped(row, number, moved):
    """The output and the saved files where this write fails once it has moved some bytes."""
    said, held = b"", {name: BEFORE for name in row.saved}
    writes = [event for event in row.events() if event[0] != "get"]
    for place, (what, name, data) in enumerate(writes, 1):
        part = data if place < number else data[:moved(len(data))]
        if what == "put":
            held[name] = part
        else:
            said += part
        if place == number:
            break
    return said, held


def printed_before(row, number):
    """The lines before this read: a file takes one for its bytes, if it has some, and one for its
    end."""
    said = b""
    for what, _, data in row.events():
        if what == "line":
            said += data
        if what == "get":
            number -= 2 if data else 1
            if number <= 0:
                break
    return said


def saved(place, row):
    return {name: place.held(name) for name in row.saved}


def failing_calls(place, tally, row):
    place.give(row)
    _, (_, reads, wrote) = place.counts(row.words)
    for number in range(1, reads + 1):
        place.give(row)
        ended = place.run(row.words, read=number)
        wanted = 4, printed_before(row, number)
        tally.check("%s, read %d" % (row.name, number), ended == wanted, ended)
    for how, moved in ("write", lambda length: 0), ("half", lambda length: length // 2):
        for number in range(1, wrote + 1):
            place.give(row)
            said, held = stopped(row, number, moved)
            ended = place.run(row.words, **{how: number}), saved(place, row)
            tally.check("%s, %s %d" % (row.name, how, number), ended == ((5, said), held), ended)
    place.give(row)
    ended = place.run(row.words, slow=1), saved(place, row)
    tally.check(row.name + ", slow", ended == ((row.status, row.text()), row.saved), ended)


def bad_outputs(place, tally, row):
    """A full device, a pipe that nobody reads, and no output at all."""
    wanted = 5 if row.lines else row.status
    reader, pipe = os.pipe()
    os.close(reader)
    with open("/dev/full", "wb") as device, os.fdopen(pipe, "wb") as unread:
        for name, out in ("full", device), ("unread", unread):
            place.give(row)
            ended = place.run(row.words, out=out)
            tally.check("%s, %s output" % (row.name, name), ended[0] == wanted, ended)
    place.give(row)
    ran = subprocess.run(["sh", "-c", 'exec "$@" >&-', "", rows.SSZ, *row.words],
                         cwd=place.folder, env={})
    tally.check(row.name + ", closed output", ran.returncode == wanted, ran.returncode)


def absent_files(place, tally, row):
    """Each file of a row is absent or a folder in turn, which ends it unless it is not read."""
    for name in {word for word in row.words if word in row.files}:
        wanted = (row.status, row.text()) if name in row.unread else (4, b"")
        for what in "absent", "folder":
            place.give(row)
            os.remove(place.path(name))
            if what == "folder":
                os.mkdir(place.path(name))
            ended = place.run(row.words)
            if what == "folder":
                os.rmdir(place.path(name))
            tally.check("%s, %s %s" % (row.name, name, what), ended == wanted, ended)


def script(lines, files=None):
    text = "".join(line + "\n" for line in lines).encode()
    return {"s": rows.TYPES, "script": text, "v": bytes(16), **(files or {})}


# Scripts with one bad name: what they print before it, and the status.
BAD_NAMES = [
    (["new V P", "save V /dev/full", "root V"], 5),
    (["new V P", "save V folder", "root V"], 5),
    (["new V P", "save V absent/f", "root V"], 5),
    (["new V P", "load W P absent", "root V"], 4),
    (["new V P", "load W P folder", "root V"], 4),
    (["new V P", "load W P v/f", "root V"], 4),
    (["new V P", "loadjson W P folder", "root V"], 4),
]
FORBIDDEN = [
    (["new V P", "save V shut/f", "root V"], 5),
    (["new V P", "save V closed", "root V"], 5),
    (["new V P", "load W P shut/g", "root V"], 4),
    (["new V P", "load W P closed", "root V"], 4),
]


def bad_names(place, tally):
    os.mkdir(place.path("folder"))
    for lines, status in BAD_NAMES:
        place.give(Row("", [], script(lines), 0, []))
        ended = place.run(["run", "s", "script"])
        tally.check(lines[1], ended == (status, b"ok\n"), ended)


def forbidden(place, tally):
    """As a user who may neither write into a folder nor read a file; the superuser may do both."""
    program = shutil.copy(rows.SSZ, place.path("ssz"))
    os.mkdir(place.path("shut"))
    place.give(Row("", [], script([], {"closed": bytes(16), "shut/g": bytes(16)}), 0, []))
    for name, mode in ("", 0o755), ("closed", 0), ("shut", 0o000):
        os.chmod(place.path(name), mode)
    user = {"user": NOBODY, "group": NOBODY} if os.geteuid() == 0 else {}

    def run(words, wanted):
        ran = subprocess.run([program, *words], cwd=place.folder, env={}, capture_output=True,
                             **user)
        ended = ran.returncode, ran.stdout
        tally.check("%s, forbidden" % words, ended == wanted, ended)
    for lines, status in FORBIDDEN:
        place.give(Row("", [], script(lines), 0, []))
        run(["run", "s", "script"], (status, b"ok\n"))
    run(["root", "s", "P", "closed"], (4, b""))
    run(["root", "s", "P", "shut/g"], (4, b""))
    run(["root", "closed", "P", "v"], (4, b""))
    run(["verify", "0" * 64, "closed"], (4, b""))
    os.chmod(place.path("shut"), 0o755)


def endless(place, tally):
    """Devices that never end are read no further than the most that a file may have."""
    place.give(Row("", [], script(["load V P /dev/zero"]), 0, []))
    known = rows.proof([(2, chunk(1)), (3, chunk(2))], [])
    place.give(Row("", [], {"p": known.encode()}, 0, []))
    zeros, zero = "0" * 64, "/dev/zero"
    for words, wanted in [
        (["root", zero, "P", "v"], (3, "schema S15\n")),
        (["root", "s", "P", zero, "--max-bytes", "16"], (1, "refused 0 12 TooLong\n")),
        (["part", "s", "P", zero, "/", "--max-bytes", "16"], (1, "refused 0 12 TooLong\n")),
        (["run", "s", "script", "--max-bytes", "16"], (1, "refused 1 12 TooLong\n")),
        (["run", "s", zero], (1, "refused 0 12 TooLong\n")),
        (["weave", "s", zero, "0", "script"], (1, "refused 0 12 TooLong\n")),
        (["weave", "s", "script", "0", zero], (1, "refused 0 12 TooLong\n")),
        (["partial", "s", "P", zero, "script"], (1, "badproof\n")),
        (["partial", "s", "P", "p", zero], (1, "refused 0 12 TooLong\n")),
        (["verify", zeros, zero], (1, "badproof\n")),
        (["clash", zero, "p"], (1, "badproof 1\n")),
        (["clash", "p", zero], (1, "badproof 2\n")),
        (["verify", zeros, "/dev/null"], (1, "badproof\n")),
        (["root", "/dev/null", "P", "v"], (3, "schema S1\n")),
        (["root", "s", "P", "/dev/null"], (1, "invalid F1 0\n")),
        (["run", "s", "/dev/null"], (0, "")),
    ]:
        status, said = place.run(words)
        tally.check(words, (status, said.decode()) == wanted, (status, said))


def cut_files(place, tally):
    """A file whose end comes while it is read is as long as what was read, whatever it was."""
    data = hashlib.shake_256(b"").digest(200000)
    place.give(Row("", [], {"s": rows.schema('["B",{"list":["byte",1048576]}]'), "v": data}, 0, []))
    for number, length in (3, 0), (4, 65536), (5, 131072), (6, 196608), (7, 200000):
        chunks = [data[at:min(at + 32, length)].ljust(32, b"\0") for at in range(0, length, 32)]
        wanted = "root %s\n" % hexed(pair(merkleize(chunks, 15), chunk(length)))
        ended = place.run(["root", "s", "B", "v"], end=number)
        tally.check("end at read %d" % number, ended == (0, wanted.encode()), ended)
    wanted = 3, b"schema S1\n"
    ended = place.run(["root", "s", "B", "v"], end=1)
    tally.check("end at read 1", ended == wanted, ended)


def pipes(place, tally):
    """A named pipe whose writer sends a value in two pieces, or hangs up within it."""
    os.mkfifo(place.path("pipe"))
    place.give(Row("", [], {"s": rows.TYPES}, 0, []))
    for pieces, wanted in [
        ([bytes(9), bytes(7)], (0, b"root %s\n" % hexed(root_of_p(0, 0)).encode())),
        ([bytes(9)], (1, b"invalid F1 0\n")),
        ([], (1, b"invalid F1 0\n")),
    ]:
        def send():
            with open(place.path("pipe"), "wb", buffering=0) as pipe:
                for piece in pieces:
                    pipe.write(piece)
        writer = threading.Thread(target=send)
        writer.start()
        ended = place.run(["root", "s", "P", "pipe"])
        writer.join()
        tally.check("pipe of %d pieces" % len(pieces), ended == wanted, ended)


def main():
    place, tally = Place(), Tally()
    for row in rows.rows():
        failing_calls(place, tally, row)
        bad_outputs(place, tally, row)
        absent_files(place, tally, row)
    for part in bad_names, endless, cut_files, pipes, forbidden:
        part(place, tally)
    tally.end()


if __name__ == "__main__":
    words_of(__doc__)
    main()
