#!/usr/bin/env python3
"""Runs the commands that the pages show, and compares what they print with what stands there.

  python3 docs/run.py          runs all pages, with `ssz` in the PATH; exit status 1 where something differs
  python3 docs/run.py PAGE ..  runs these
  --without PROGRAM            leaves out the blocks that need this program

Two kinds of fenced blocks are run, those of a page from its first to its last one in one shell:

  sh        is pasted whole, and prints nothing
  console   has commands behind `$ `, and below each exactly what it prints (standard error too); a command goes on
            where a line ends with a backslash, and to the end of a here-document. In what is printed `..` stands for
            any text of a line, and a line `..` for any lines

Words behind these name programs that a block needs besides: `console rt cc`. Without one of them the block is left
out, and its page's last line says so. Blocks that need `rt` run in a shell of their own, in a folder of links to this
repository, with that folder as HOME. A page of examples/ethereum runs in its folder, in a copy of that tree, any other
page in an empty folder. Indented blocks have the usage of commands, formats, and what ./test runs by itself.
"""
import os
import re
import shutil
import subprocess
import sys
import tempfile
from dataclasses import dataclass

TOP = os.path.abspath(os.path.join(os.path.dirname(os.path.abspath(__file__)), ".."))
PAGES = ["README.md", "docs/commands.md", "docs/ssz.md", "docs/formats.md", "examples/ethereum/README.md",
         "examples/ethereum/tasks/README.md", "docs/c.md", "docs/library.md"]
MARK = "the end of a command of docs/run.py"
HOW = """no program ssz in the PATH. README.md, Install, makes it; where it is proved already:
  install -D crates/ssz_cli/out/ssz_cli ~/.local/bin/ssz && PATH=~/.local/bin:$PATH python3 docs/run.py"""


@dataclass
class Command:
    """A command of a page: its line, its text, what is to be printed, and the programs that it needs."""
    line: int
    text: str
    shown: str
    needs: list


def commands(page):
    """The commands of a page."""
    fence, needs, found, here, going_on = None, [], [], None, False
    with open(f"{TOP}/{page}") as file:
        for number, line in enumerate(file, 1):
            if line.startswith("```"):
                words = line[3:].split() or ["text"]
                fence, needs = (None, []) if fence else (words[0], words[1:])
                if fence == "sh":
                    found.append(Command(number + 1, "", "", needs))
            elif fence == "sh":
                found[-1].text += line
            elif fence == "console":
                if here or going_on:
                    found[-1].text += line
                elif line.startswith("$ "):
                    found.append(Command(number, line[2:], "", needs))
                else:
                    found[-1].shown += line
                if here:
                    here = None if line.strip() == here else here
                elif line.startswith("$ ") or going_on:
                    begun = re.search(r"<<'?(\w+)", line)
                    here, going_on = begun and begun.group(1), line.endswith("\\\n")
    return found


def as_shown(shown):
    """The pattern of what is to be printed."""
    text = re.sub(r"(?m)^\\\.\\\.\\?\n", "(?:.*\n)*", re.escape(shown))
    return re.compile(text.replace(r"\.\.", ".*?"))


def run(page, found, folder, home):
    """How many commands of one shell printed something else."""
    script = "".join(f"{one.text}\nstatus=$?; echo '{MARK}'; (exit $status)\n" for one in found)
    # rustc finds its toolchain by HOME, unless it is told
    env = {"RUSTUP_HOME": os.path.expanduser("~/.rustup"), **os.environ, "HOME": home}
    done = subprocess.run(["bash", "-c", script], cwd=folder, stdin=subprocess.DEVNULL, stdout=subprocess.PIPE,
                          stderr=subprocess.STDOUT, text=True, env=env)
    said = done.stdout.split(MARK + "\n")
    said += ["(the shell ended before this command)\n"] * (len(found) - len(said))
    differ = 0
    for one, printed in zip(found, said):
        if not as_shown(one.shown).fullmatch(printed):
            differ += 1
            print(f"{page}:{one.line}: {one.text}is to print\n{one.shown}and prints\n{printed}")
    return differ


def place_of(page, folder):
    """Where the commands of a page run that need no kit."""
    if not page.startswith("examples/ethereum/"):
        return folder
    shutil.copytree(f"{TOP}/examples/ethereum", f"{folder}/ethereum")
    return os.path.join(folder, os.path.dirname(page).removeprefix("examples/"))


def links(folder):
    """A folder of links to what stands at the top of the repository."""
    for name in os.listdir(TOP):
        if name != ".git":
            os.symlink(f"{TOP}/{name}", f"{folder}/{name}")
    return folder


def run_page(page, without):
    """How many commands of a page were run, how many printed something else, and how many were left out."""
    found = commands(page)
    missing = sorted({need for one in found for need in one.needs if need == without or not shutil.which(need)})
    there = [one for one in found if not set(one.needs) & set(missing)]
    kit = [one for one in there if "rt" in one.needs]
    plain = [one for one in there if "rt" not in one.needs]
    differ = 0
    with tempfile.TemporaryDirectory() as folder:
        differ += run(page, plain, place_of(page, folder), os.path.expanduser("~")) if plain else 0
    with tempfile.TemporaryDirectory() as folder:
        differ += run(page, kit, links(folder), folder) if kit else 0
    out = len(found) - len(there)
    left = f", {out} left out (no {', '.join(missing)})" if out else ""
    print(f"{page}: {len(there)} commands, {differ} differ{left}", flush=True)
    return len(there), differ, out


def main(pages):
    if {"-h", "--help"} & set(pages):
        print(__doc__)
        return 0
    without = None
    if "--without" in pages[:-1]:
        place = pages.index("--without")
        without = pages[place + 1]
        pages = pages[:place] + pages[place + 2:]
    others = [page for page in pages if page not in PAGES]
    if others:
        sys.exit(f"no page {', '.join(others)}: there are {', '.join(PAGES)}")
    if not shutil.which("ssz"):
        sys.exit(HOW)
    counts = [run_page(page, without) for page in pages or PAGES]
    total, wrong, out = (sum(column) for column in zip(*counts))
    print(f"{total} commands, {wrong} differ, {out} left out")
    return 1 if wrong or not total else 0


if __name__ == "__main__":
    sys.exit(main(sys.argv[1:]))
