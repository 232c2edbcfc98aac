#!/usr/bin/env python3
"""Writes a shell's completion of netrev, nrdb or netrev-go to standard output:  scripts/completion.py bash | zsh NAME

It completes options and commands; every other word is a file's name.
"""

from __future__ import annotations

import argparse
import pathlib
import sys

ROOT = pathlib.Path(__file__).resolve().parents[1]
sys.path.insert(0, str(ROOT / "python"))

from netrev_go import options  # noqa: E402
from nrdb import cli  # noqa: E402

BASH = """\
# bash completion for {name}
_{function}() {{
    COMPREPLY=()
    local word=${{COMP_WORDS[COMP_CWORD]}}
    if [ "$COMP_CWORD" = 1 ] || [ "${{word#-}}" != "$word" ]; then
        mapfile -t COMPREPLY < <(compgen -W "{words}" -- "$word")
    fi
}}
complete -o default -F _{function} {name}
"""
ZSH = """\
#compdef {name}
local -a taken
taken=({words})
if (( CURRENT == 2 )) || [[ $PREFIX == -* ]]; then
    compadd -a taken
fi
_files
"""
OF_NETREV = ["run", "check", "upgrade", "changes", "suspects", "serve", "bench"]


def options_of(parser: argparse.ArgumentParser) -> list[str]:
    return [name for action in parser._actions for name in action.option_strings]


WORDS = {
    "netrev": OF_NETREV,
    "nrdb": options_of(cli.parser()),
    "netrev-go": [*options.COMMANDS, *options_of(options.parser())],
}


def completion(shell: str, name: str) -> str:
    form = BASH if shell == "bash" else ZSH
    return form.format(name=name, function=name.replace("-", "_"), words=" ".join(WORDS[name]))


def main(words: list[str]) -> int:
    if len(words) != 2 or words[0] not in ("bash", "zsh") or words[1] not in WORDS:
        print(f"completion.py bash | zsh {' | '.join(WORDS)}", file=sys.stderr)
        return 2
    sys.stdout.write(completion(*words))
    return 0


if __name__ == "__main__":
    sys.exit(main(sys.argv[1:]))
