"""What the scripts of this folder share: what a run of a program takes, and the least of some."""
import collections
import os
import re
import subprocess
import sys
import tempfile

TOP = os.path.dirname(os.path.dirname(os.path.abspath(__file__)))
# The programs that are measured: those of `rt run`, or with BUILD=FOLDER those that ./build-v3 FOLDER put there.
BUILD = os.environ.get("BUILD")
BENCH, SSZ = (
    os.path.join(os.path.abspath(BUILD), name) if BUILD else f"{TOP}/crates/{crate}/out/{crate}"
    for crate, name in (("bench", "bench"), ("ssz_cli", "ssz"))
)
TYPES, DENEB = f"{TOP}/crates/bench/data/schema.json", f"{TOP}/examples/ethereum/deneb.json"

# From an element to the next one: an odd number that leads all over a list.
FAR = 2654435761

# The C library's allocator keeps the memory that is given back to it. By default it hands large pieces back to
# the system, which zeroes each page anew: then a second decode of a large value is charged for the system's
# work, and one of a small value is not.
KEEP = dict(os.environ, MALLOC_MMAP_MAX_="0", MALLOC_TRIM_THRESHOLD_=str(1 << 40))
KEEP_MORE = dict(KEEP, MALLOC_TOP_PAD_=str(1 << 26))

# Processor time in seconds, the user's part of it, the peak of memory in bytes, and the first lines and the
# last one that were printed.
Run = collections.namedtuple("Run", "seconds user peak first last")


def is_there(program):
    """Ends where there is no program to be measured, and says what makes it."""
    if not os.access(program, os.X_OK):
        crate = os.path.basename(os.path.dirname(os.path.dirname(os.path.abspath(program))))
        sys.exit(f"no program {program}: rt run in crates/{crate} makes it, and BUILD=FOLDER names what ./build-v3 FOLDER made")


def run(*words, env=None, status=0):
    """A run of a program, which has to end with this status. Its peak of memory is what `time` says, which is
    small: that of a child of this process would be at least what this process holds. Its lines go to a file."""
    is_there(words[0])
    with tempfile.TemporaryFile() as out, tempfile.NamedTemporaryFile("r") as peak:
        time = ["/usr/bin/time", "-q", "-f", "%M", "-o", peak.name]
        # what is said of a fault that is wanted is not looked at
        err = subprocess.DEVNULL if status else None
        child = subprocess.Popen([*time, *map(str, words)], stdout=out, stderr=err, env=env)
        _, ended, used = os.wait4(child.pid, 0)
        child.returncode = os.waitstatus_to_exitcode(ended)
        if child.returncode != status:
            sys.exit("%s: status %d" % (" ".join(map(str, words)), child.returncode))
        size = out.seek(0, os.SEEK_END)
        out.seek(0)
        first = out.read(4096).decode().splitlines()
        out.seek(max(0, size - 4096))
        last = out.read().decode().splitlines()[-1:]
        return Run(used.ru_utime + used.ru_stime, used.ru_utime, int(peak.read()) << 10, first, "".join(last))


# Where the stack begins says how a copy of memory goes, and that hangs on the lengths of the words and of the environment:
# by it alone 1,000 finds took 27,000 instructions more or fewer. So what is counted has one name and one length of all these.
COUNTED = tempfile.TemporaryDirectory()
LENGTH = 4096


def counted(program, *words, env=None, status=0):
    """The instructions of a run of a program, as callgrind counts them, and the lines that it printed."""
    is_there(program)
    link = os.path.join(COUNTED.name, "counted")
    if os.path.lexists(link):
        os.remove(link)
    os.symlink(os.path.abspath(program), link)
    words = list(map(str, words))
    kept = {name: value for name, value in (env or {}).items() if name.startswith("MALLOC_")}
    kept["PATH"] = os.environ["PATH"]
    kept["FILLING"] = "x" * (LENGTH - sum(len(word) + 1 for word in (*words, *kept, *kept.values())))
    command = ["valgrind", "--tool=callgrind", "--callgrind-out-file=/dev/null", link, *words]
    ended = subprocess.run(command, capture_output=True, text=True, env=kept)
    if ended.returncode != status:
        sys.exit("%s: status %d" % (" ".join(words), ended.returncode))
    return int(re.search(r"Collected : (\d+)", ended.stderr)[1]), ended.stdout.splitlines()


def least(runs):
    """The least processor time of runs: other work on the machine only adds to a time."""
    return min(one.seconds for one in runs)


def least_of(rounds, *words, env=None):
    """The least processor time of so many runs of a program."""
    return least(run(*words, env=env) for _ in range(rounds))


def numbers(*defaults):
    """The words of the command line as numbers, and what stands for those that are left out."""
    given = [int(word) for word in sys.argv[1 : 1 + len(defaults)]]
    return given + list(defaults[len(given) :])


def print_load():
    """Prints what else the machine does."""
    print("load", " ".join("%.1f" % load for load in os.getloadavg()), flush=True)
