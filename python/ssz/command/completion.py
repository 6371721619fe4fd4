"""What a shell completes: commands, forks, names of types, files."""

from __future__ import annotations

import argparse

from .. import ethereum

_BASH = """# completions of ssz-py for bash
_ssz_py() {{
    local word=${{COMP_WORDS[COMP_CWORD]}}
    case $COMP_CWORD in
    1) COMPREPLY=($(compgen -W "{commands} --help --version" -- "$word")) ;;
    2) COMPREPLY=($(compgen -W "{forks}" -- "$word") $(compgen -f -- "$word")) ;;
    3) COMPREPLY=($(compgen -W "$(ssz-py types "${{COMP_WORDS[2]}}" 2>/dev/null | sed 's/ .*//; 1d')" -- "$word") $(compgen -f -- "$word")) ;;
    *) COMPREPLY=($(compgen -f -- "$word")) ;;
    esac
}}
complete -o filenames -F _ssz_py ssz-py
"""


def show(given: argparse.Namespace) -> int:
    """Prints what lets a shell complete the words of ssz-py."""
    print(_BASH.format(commands=" ".join(given.commands), forks=" ".join([*ethereum.FORKS, *(f"minimal/{fork}" for fork in ethereum.FORKS)])), end="")
    return 0
