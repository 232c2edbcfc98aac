"""Changes of a few kinds of cells, for callers that need no other changes. netrev's lines are searched for these cells,
and other lines aren't parsed."""

import re
from collections.abc import Iterator

from netrev.recording.step_changes import RecordedChanges

Lines = Iterator[tuple[str, str, str]]


def spelled(cells: str) -> re.Pattern[str]:
    """A pattern for a line with the new value of one of these cells: a number, or words without escapes."""
    # (a pattern that begins with a literal, here the line feed before the line, is searched nearly twice as fast as one
    # that begins with ^)
    return re.compile(rf"\n(\d+) ({cells}) = ([\w -]+)$", re.MULTILINE | re.ASCII)


STATUSES, STATUSES_AND_CLOCK, DEADLINES_AND_CLOCK = map(spelled, (r"gor \d+", r"gor \d+|clock", r"[rw]d \d+|clock"))


def searched(changes: RecordedChanges, lines: re.Pattern[str]) -> Lines:
    """The step, the cell and the value of each line that matches, as texts."""
    for piece in changes.pieces():
        yield from lines.findall("\n" + piece.decode("latin-1"))


def by_cell(lines: Lines) -> dict[str, list[tuple[int, str]]]:
    """For each cell that matching lines change, the steps and the new values."""
    cells: dict[str, list[tuple[int, str]]] = {}
    for step, cell, value in lines:
        cells.setdefault(cell, []).append((int(step), value))
    return cells
