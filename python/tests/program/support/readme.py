"""Runs README.md's commands as a reader would, and compares their output with README.

In a block of README, each line begins with four spaces. `$ ` begins a command, and `(netrev) ` begins a line at the
prompt that the last command opened. Other lines are output, and `...` matches any lines. If the text above a block says
that numbers differ from run to run, any number matches any other. If a block shows no output of a command, the command
only has to succeed.
"""

import re
from collections.abc import Iterator
from dataclasses import dataclass, field

from .sharing import ROOT

README = ROOT / "README.md"
COMMAND, PROMPT, OMITTED = "$ ", "(netrev) ", "..."
VARYING = "differ from run to run"
NUMBER = re.compile(r"\d+(?:\.\d+)?")
BLOCK = re.compile(r"(?:^    .*\n)+", re.MULTILINE)
HEADING = re.compile(r"^(?:## (.+)|\*\*(.+?)[.,]?\*\*)", re.MULTILINE)


class ReadmeError(Exception):
    """Raised if the output differs from README; the message has both texts."""


@dataclass
class Typed:
    """A line that a reader types, with the output that README shows for it."""

    text: str
    line: int  # its number in README
    is_varying: bool
    shown: list[str] = field(default_factory=list)

    def compare(self, printed: str) -> None:
        """Fails if the output differs from README."""
        pattern = "".join(self.pattern(line) for line in self.shown)
        if self.shown and not re.fullmatch(pattern, f"{printed.rstrip()}\n"):
            shown = "\n".join(self.shown)
            raise ReadmeError(
                f"README.md:{self.line}: {self.text}\n-- README shows:\n{shown}\n-- what came:\n{printed}"
            )

    def pattern(self, shown: str) -> str:
        """A pattern for a line of README."""
        if shown == OMITTED:
            return r"(?:.*\n)*"
        parts = NUMBER.split(shown) if self.is_varying else [shown]
        return NUMBER.pattern.join(re.escape(part) for part in parts) + r"\n"


@dataclass
class Command(Typed):
    """A command line for a shell, with the lines that are typed at the prompt that it opens."""

    prompts: list[Typed] = field(default_factory=list)

    def fails(self) -> bool:
        """Whether README shows that the command fails. It does if the shown output has a failed test."""
        return "FAIL" in "".join(self.shown)


def sections(text: str) -> dict[str, list[Command]]:
    """The commands of README by heading, or, as in Install, by the bold words that begin a paragraph."""
    found: dict[str, list[Command]] = {}
    end = 0
    for block in BLOCK.finditer(text):
        names = HEADING.findall(text[: block.start()])
        commands = found.setdefault(next(filter(None, names[-1])), [])
        read_block(block[0], text.count("\n", 0, block.start()) + 1, VARYING in text[end : block.start()], commands)
        end = block.end()
    return {name: commands for name, commands in found.items() if commands}


def read_block(block: str, first: int, is_varying: bool, commands: list[Command]) -> None:
    """Adds the commands of a block to the earlier commands. The block's first line has this number."""
    typed: list[Typed] = []
    for number, line in enumerate(block.splitlines(), first):
        shown = line[4:]
        if shown.startswith(COMMAND):
            commands.append(Command(shown.removeprefix(COMMAND), number, is_varying))
            typed = [commands[-1]]
        elif shown.startswith(PROMPT):
            typed = [Typed(shown.removeprefix(PROMPT), number, is_varying)]
            commands[-1].prompts += typed
        elif typed:
            typed[-1].shown.append(shown)


def replies(printed: str, prompts: list[Typed]) -> Iterator[str]:
    """The output of a session in parts: before its first prompt, and after each typed line."""
    rest = printed
    for typed in prompts:
        before, echo, rest = rest.partition(f"{PROMPT}{typed.text}\n")
        if not echo:
            raise ReadmeError(f"README.md:{typed.line}: {typed.text}: the session had ended\n-- what came:\n{printed}")
        yield before
    yield rest
