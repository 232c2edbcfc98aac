"""The examples, as listed in examples/README.md."""

import re
from pathlib import Path
from typing import NamedTuple

EXAMPLES = Path(__file__).resolve().parents[3] / "examples"
LIST = EXAMPLES / "README.md"
ROW = re.compile(r"\| `([\w/-]+)` \| (.+) \| (.+) \| \[.+\]\(.+\) \|")
REFUSED_AT = re.compile(r"refused at step (\d+)")


class Example(NamedTuple):
    """A row of the list."""

    name: str  # the path in the folder, without the ending
    suspect: str | None  # the rule of the first suspect
    refused_at: int | None  # the step that netrev refuses

    @property
    def path(self) -> Path:
        """The recording."""
        return self.beside("jsonl")

    def beside(self, ending: str) -> Path:
        """The file beside the recording that has the same name and this extension."""
        return EXAMPLES / f"{self.name}.{ending}"


def example_of(name: str, statement: str) -> Example:
    """The example in the row with this name, whose suspects column has this text."""
    refused = REFUSED_AT.fullmatch(statement)
    if refused:
        return Example(name, None, int(refused[1]))
    return Example(name, None if statement == "none" else statement, None)


ALL = tuple(example_of(row[1], row[3]) for row in map(ROW.fullmatch, LIST.read_text().splitlines()) if row)
KNOWN = {example.name: example.suspect for example in ALL if example.suspect}
REFUSED = {example.name: example.refused_at for example in ALL if example.refused_at}
