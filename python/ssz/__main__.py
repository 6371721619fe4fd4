"""What can be asked of SSZ values on a command line: `ssz-py`, or `python -m ssz`."""

from __future__ import annotations

import argparse
import os
import sys
from pathlib import Path
from typing import Any

from ._library import LibraryMissing
from .command import about, completion, proofs, script, spec_tests, types, values
from .command.words import Problem, problem
from .errors import SszError

Given = argparse.Namespace
_WORDS = {
    "schema": "a schema file, or a fork: deneb, minimal/deneb", "type": "the name of a type",
    "value": "a file, - for standard input, or 0x and digits", "other": "another value", "json": "a file, -, or JSON",
    "script": "a file with a script, or -", "root": "0x and digits, or a file with a root", "proof": "a file with a proof, -, or its line",
}
_LEAF = "0x" + "0" * 64
#: Of each command what does it, its words, and an example.
_COMMANDS = {
    "check": (values.check, "schema type value", f"check deneb Checkpoint 0x0500000000000000{'':0>64}"),
    "root": (values.root, "schema type value", "root deneb BeaconState state.ssz /finalized_checkpoint"),
    "decode": (values.decode, "schema type value", "decode deneb Checkpoint checkpoint.ssz"),
    "encode": (values.encode, "schema type json", "encode deneb Checkpoint checkpoint.json -o checkpoint.ssz"),
    "part": (values.part, "schema type value", "part deneb BeaconState state.ssz /validators/7 -o validator.ssz"),
    "tree": (values.show_tree, "schema type value", "tree deneb BeaconState state.ssz --depth 2"),
    "diff": (values.diff, "schema type value other", "diff deneb BeaconState before.ssz after.ssz"),
    "types": (types.types, "schema", "types deneb BeaconState"),
    "gindex": (proofs.gindex, "schema type", "gindex deneb BeaconState /finalized_checkpoint/root"),
    "prove": (proofs.prove, "schema type value", "prove deneb BeaconState state.ssz /slot /finalized_checkpoint/root > finality.proof"),
    "verify": (proofs.verify, "root proof", "verify 0xROOT finality.proof"),
    "branch": (proofs.branch, "", "branch deneb BeaconState state.ssz /finalized_checkpoint/root > branch.json\n"
               "  {prog} branch finality.proof\n  {prog} branch 2 0xLEAF 0xNODE > again.proof"),
    "show": (proofs.show, "schema type value", "show deneb BeaconState state.ssz /finalized_checkpoint/root -o proof.svg"),
    "run": (script.run, "schema script", "run deneb edits.script"),
    "api-json": (values.api_json, "schema type value", "api-json deneb BeaconBlockHeader header.ssz\n"
                 "  {prog} api-json --back deneb BeaconBlockHeader header.json -o header.ssz"),
}


def tests(given: Given) -> int:
    """Runs a folder of consensus-spec-tests: ssz_static and ssz_generic."""
    if not os.path.isdir(given.folder):
        raise problem(given.folder, "there is no such folder", "Unpack the archives, and name their folder tests or one below it.")
    last = ""
    for last in spec_tests.lines(Path(given.folder)):
        print(last)
    if last.startswith("0 passed, 0 failed"):
        raise problem(given.folder, "no case lies here", "A case is a folder with serialized.ssz_snappy, below PRESET/FORK/ssz_static/TYPE.")
    return int(not last.endswith(" 0 failed"))


def command(commands: Any, name: str, does: Any, words: str, example: str) -> argparse.ArgumentParser:
    """A command with its words, its help and an example."""
    prog = commands._prog_prefix
    made = commands.add_parser(name, help=does.__doc__.split("\n")[0], description=does.__doc__,
                               epilog=f"example:\n  {prog} {example.format(prog=prog)}",
                               formatter_class=argparse.RawDescriptionHelpFormatter)
    made.set_defaults(does=does)
    for word in words.split():
        made.add_argument(word, metavar=word.upper(), help=_WORDS[word])
    if "value" in words or name == "branch":
        made.add_argument("--hex", action="store_true", help="the value's file holds hexadecimal digits")
    return made


def _more(commands: dict[str, argparse.ArgumentParser]) -> None:
    """The words and flags that not all commands have."""
    for name, what in (("root", "the part (the whole)"), ("decode", "the part (the whole)"), ("tree", "where to begin (the whole)")):
        commands[name].add_argument("path", nargs="?", default="/", metavar="PATH", help=what)
    commands["part"].add_argument("path", metavar="PATH", help="the part")
    for name in ("gindex", "prove", "show"):
        commands[name].add_argument("paths", nargs="+", metavar="PATH", help="the parts")
    commands["types"].add_argument("type", nargs="?", metavar="TYPE", help="the type whose fields are listed (all types)")
    commands["branch"].add_argument("words", nargs="+", metavar="WORD", help="SCHEMA TYPE VALUE PATH, PROOF, or INDEX LEAF NODE..")
    commands["tree"].add_argument("--depth", type=int, default=1, metavar="N", help="how many levels below it (1)")
    commands["tree"].add_argument("--most", type=int, default=8, metavar="N", help="how many elements of a list (8)")
    commands["api-json"].add_argument("--back", action="store_true", help="from JSON to bytes")
    for name in ("decode", "api-json"):
        commands[name].add_argument("--short", action="store_true", help="JSON on one line")
    for name in ("encode", "part", "api-json"):
        commands[name].add_argument("-o", dest="out", metavar="FILE", help="where the bytes go (- standard output; as digits where left out)")
    commands["show"].add_argument("-o", dest="out", metavar="FILE", help="the picture's file (standard output where left out)")


def parser() -> argparse.ArgumentParser:
    """The commands and their words."""
    name = os.path.basename(sys.argv[0])
    whole = argparse.ArgumentParser(prog=name if name == "ssz-py" else "python -m ssz", description=__doc__)
    whole.add_argument("--version", action=about.Version)
    commands = whole.add_subparsers(metavar="COMMAND", required=True)
    _more({name: command(commands, name, *row) for name, row in _COMMANDS.items()})
    made = command(commands, "spec-tests", tests, "", "spec-tests consensus-spec-tests/tests")
    made.add_argument("folder", metavar="FOLDER", help="a folder of the unpacked archives")
    made = command(commands, "completion", completion.show, "", "completion bash > ~/.local/share/bash-completion/completions/ssz-py")
    made.add_argument("shell", choices=["bash"], help="the shell")
    made.set_defaults(commands=[*_COMMANDS, "spec-tests", "completion"])
    return whole


def main(words: list[str] | None = None) -> int:
    """Does what the words ask for. The status is 0, 1 where a value is not as it should be, 2 for other words."""
    given = parser().parse_args(words)
    try:
        return given.does(given)
    except (Problem, SszError, LibraryMissing) as error:
        print(f"ssz: {error}", file=sys.stderr)
        return 1
    except BrokenPipeError:
        os.dup2(os.open(os.devnull, os.O_WRONLY), sys.stdout.fileno())
        return 1
    except KeyboardInterrupt:
        return 130


if __name__ == "__main__":
    sys.exit(main())
