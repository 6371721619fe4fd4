#!/usr/bin/env python3
"""Prints what the gate takes of each crate, of its tests and of its must-fail edits, in seconds of processor time.

  python3 bench/gate.py            starts rt ci --anew, which proves all, in a fresh clone of what is committed
  python3 bench/gate.py --pid N    watches the rt ci that is process N from here on, to its end

A check is a process `rattle .. --crate-name NAME`: of tests where its words hold --test, of an edit where it works in a
folder rt-edit-, and else of the crate. /proc is read several times a second, and the last sample of each process counts,
so that up to a quarter of a second a process is lost; `all` is the system's own count, rt, linking and running with it.
"""
import collections
import os
import subprocess
import sys
import tempfile
import time

TOP = os.path.realpath(os.path.join(os.path.dirname(os.path.abspath(__file__)), ".."))
TICK = os.sysconf("SC_CLK_TCK")
KINDS = ("proof", "tests", "edits")

Process = collections.namedtuple("Process", "parent began own waited")


def read(process):
    """The parent of a process, when it began, and the seconds that it took and that its ended children took."""
    with open(f"/proc/{process}/stat") as file:
        fields = file.read().rpartition(")")[2].split()
    user, system, ended_user, ended_system = map(int, fields[11:15])
    return Process(int(fields[1]), fields[19], (user + system) / TICK, (ended_user + ended_system) / TICK)


def processes():
    """All processes by their numbers."""
    found = {}
    for number in filter(str.isdigit, os.listdir("/proc")):
        try:
            found[int(number)] = read(number)
        except OSError:
            pass
    return found


def below(top, found):
    """The numbers of the processes that stand under a process."""
    children = collections.defaultdict(list)
    for number, process in found.items():
        children[process.parent].append(number)
    numbers = list(children[top])
    for number in numbers:
        numbers += children[number]
    return numbers


def check_of(number):
    """The crate that a process checks, and what for, or None of another process."""
    with open(f"/proc/{number}/cmdline") as file:
        words = file.read().split("\0")
    if os.path.basename(words[0]) != "rattle" or "--crate-name" not in words:
        return None
    name = words[words.index("--crate-name") + 1]
    if "/rt-edit-" in os.readlink(f"/proc/{number}/cwd"):
        return name, "edits"
    return name, "tests" if "--test" in words else "proof"


def watch(top, is_over):
    """Looks at what stands under a process until it is over: the seconds of each check by process, and those of all."""
    checks, whole = {}, 0.0
    while not is_over():
        found = processes()
        if top in found:
            whole = found[top].own + found[top].waited
        for number in below(top, found):
            try:
                check = check_of(number)
            except OSError:
                continue
            if check:
                checks[number, found[number].began] = *check, found[number].own
        time.sleep(0.2)
    return checks, whole


def run_in_clone():
    """Starts rt ci --anew in a fresh clone and watches it: its checks, the seconds of all, and its last line."""
    with tempfile.TemporaryDirectory(prefix="gate-") as room, open(f"{room}/log", "w+", errors="replace") as log:
        subprocess.run(["git", "clone", "-q", TOP, f"{room}/clone"], check=True)
        before = os.times()
        print(f"{room}/log has what it says", file=sys.stderr, flush=True)
        gate = subprocess.Popen(["rt", "ci", "--anew"], cwd=f"{room}/clone", stdout=log, stderr=subprocess.STDOUT, stdin=subprocess.DEVNULL)
        checks, _ = watch(gate.pid, lambda: gate.poll() is not None)
        after = os.times()
        log.seek(0)
        whole = after.children_user + after.children_system - before.children_user - before.children_system
        return checks, whole, (log.read().splitlines() or [""])[-1]


def attach(top):
    """Watches the rt ci that runs as this process: its checks, the seconds of all, and no line."""
    began = read(top).began

    def is_over():
        try:
            return read(top).began != began
        except OSError:
            return True

    return *watch(top, is_over), ""


def main(words):
    if words and (len(words) != 2 or words[0] != "--pid" or not words[1].isdigit()):
        sys.exit(__doc__)
    began = time.monotonic()
    checks, whole, said = attach(int(words[1])) if words else run_in_clone()
    minutes = (time.monotonic() - began) / 60
    taken = collections.defaultdict(float)
    for name, kind, seconds in checks.values():
        taken[name, kind] += seconds
    print("| Crate | proof | tests | edits |\n|---|---|---|---|")
    for crate in sorted({name for name, _ in taken}):
        cells = [f"{taken[crate, kind]:.0f}" if (crate, kind) in taken else "" for kind in KINDS]
        print(f"| `{crate}` | {' | '.join(cells)} |")
    sums = [sum(seconds for (_, kind), seconds in taken.items() if kind == wanted) for wanted in KINDS]
    print(f"| sum | {' | '.join(f'{it:.0f}' for it in sums)} |")
    print(f"\n{sum(sums) / 60:.1f} processor minutes of checks, {whole / 60:.1f} of all, {minutes:.1f} on the clock")
    print(said, end="\n" * bool(said))


if __name__ == "__main__":
    if {"-h", "--help"} & set(sys.argv[1:]):
        sys.exit(print(__doc__))
    main(sys.argv[1:])
