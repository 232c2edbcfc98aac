"""The contents of a page: the calls and failures of the whole run, and netrev's values of each cell for a part of the
run."""

from collections.abc import Callable
from pathlib import Path
from typing import Any, NamedTuple

from netrev.connection.beginnings import begins_at
from netrev.connection.scout import Scout
from netrev.connection.shapes import ListedMark
from netrev.recording.cell_meanings import in_words
from netrev.recording.recording import Recording, shortened
from netrev.recording.step_changes import RecordedChanges
from netrev.session.session import Session
from netrev.text.vocabulary import CELLS

from .calls import Data, calls_data, names_data
from .cell_runs import Runs, Window, runs_of
from .page_data import MOST_TIMES, Connections, lines_data, marks_of, ticks_of, times_of, wakes_of
from .shades import SHADES, shade
from .stories import stories_data
from .waits import requests_data, waits_data

MOST = 20_000  # the maximum number of steps in a part
AT_ONCE = 8_000  # the number of steps in the part of a longer recording, unless a part is named
STAGES = (
    "netrev lists what each step changed",
    "the rules look for suspects, and who waits for whom",
    "calls and their lines",
    "netrev's values of the part that is shown",
)


class PageSources(NamedTuple):
    """The sources of a page: a recording and its file, a netrev for other positions, the changes made by each step, and
    the session's position and marks. `tell` is called with the progress."""

    recording: Recording
    path: str
    scout: Scout
    changes: RecordedChanges
    position: int
    marks: list[ListedMark]
    tell: Callable[[str], None]

    @classmethod
    def by(cls, session: Session, tell: Callable[[str], None]) -> "PageSources":
        """The sources of a session's page."""
        looks, changes, marks = session.looks(), session.changes(), session.netrev.marks()
        return cls(session.text(), session.path, looks, changes, session.current_position().position, marks, tell)

    def begins(self, stage: int) -> None:
        """Reports that a stage begins."""
        self.tell(f"the picture, {stage + 1} of {len(STAGES)}: {STAGES[stage]}")


def collected(shown: PageSources, window: Window | None = None) -> Data:
    """The contents of the page: the calls and stories of the whole run, and each cell's values for a part of the run.
    If no part is given, `part_around` chooses the part: the whole run or, in a long recording, the steps near the first
    story or the session's position."""
    whole = whole_of(shown)
    recording = shown.recording
    stories = whole["suspects"] + whole["causes"]
    round_it = window or part_around(stories, recording.length, shown.position, begins_at(recording))
    return {**whole, **part_of(shown, round_it), "isPart": window is not None}


def part_around(stories: list[Data], length: int, position: int = 0, begins: int = 0) -> Window:
    """The positions for which values are shown: all positions of a short recording. In a long recording, these are the
    positions around the end of the first story, or around the session's position if that is elsewhere and not at the
    start."""
    if length <= MOST:
        return Window(begins, length)
    part = part_about(stories[0]["steps"][-1] if stories else length, length)
    is_shown = position <= begins or part.first <= position <= part.last
    return part if is_shown else part_about(position, length)


def part_about(position: int, length: int) -> Window:
    """The part of a long recording that ends some steps after a position."""
    last = min(position + AT_ONCE // 4, length)
    return Window(max(last - AT_ONCE, 0), max(last, AT_ONCE))


def whole_of(shown: PageSources) -> Data:
    """The data of the whole run: the calls, the waits outside the poller, the clock and what went wrong."""
    shown.begins(0)
    recording, every = shown.recording, Window(0, shown.changes.length)  # (this waits for netrev's whole output)
    shown.begins(1)
    suspects, causes = stories_data(shown.scout, recording)
    shown.begins(2)
    return {
        "name": Path(shown.path).name,
        "length": recording.length,
        "position": shown.position,
        "calls": calls_data(recording, every),
        "names": names_data(recording, every),
        "waits": waits_data(recording),
        "requests": requests_data(recording),
        "peers": recording.lines.peers,
        "ticks": ticks_of(shown.changes),
        "times": times_of(recording, every, MOST_TIMES),
        "shades": {name: vars(shade) | {"of": shade.of.value} for name, shade in SHADES.items()},
        "suspects": suspects,
        "causes": causes,
    }


def part_of(shown: PageSources, window: Window) -> Data:
    """The data of a part of the run: netrev's values, and the data that nrdb computes from these values."""
    shown.begins(3)
    recording = shown.recording
    runs, compared = runs_of(recording, shown.scout, shown.changes, window)
    connections = Connections(recording, window)
    return {
        "first": window.first,
        "last": window.last,
        "compared": compared,
        "steps": steps_of(recording, window),
        "lines": lines_data(recording, window),
        "cells": {cell: [[start, value] for start, value in run] for cell, run in runs.items()},
        "rows": rows_of(runs),
        "uses": connections.uses,
        "groups": connections.groups(runs),
        "wakes": wakes_of(recording, runs),
        "words": words_of(runs),
        "ownTimes": times_of(recording, window, MOST) if recording.length > MOST_TIMES else {},
        "marks": marks_of(shown.marks, recording, window, runs),
    }


def steps_of(recording: Recording, window: Window) -> list[str]:
    """The step that leads to each position, and the step after the last position; an empty text for a step that doesn't
    exist."""
    behind = -1 if recording.has_answers else None

    def text_of(values: list[Any]) -> str:
        return " ".join(shortened(str(value)) for value in values[:behind])

    texts = [*([] if window.first else [""]), *recording.rows(text_of, max(window.first, 1), window.last + 1)]
    return texts + [""] * (window.last + 2 - window.first - len(texts))


def rows_of(runs: Runs) -> list[Data]:
    """The rows with shades. Each row has a name, its cell, and the shade of each of its runs."""
    rows = []
    for cell, run in runs.items():
        name, _, number = cell.partition(" ")
        if name not in ("gor", "lock", "rg", "wg"):
            continue
        spelled = {"gor": f"gor {number}", "lock": f"sock {number}"}.get(name, f"desc {number} {name[0]}")
        rows.append({"name": spelled, "cell": cell, "shades": [shade(name, value) for _, value in run]})
    return rows


def words_of(runs: Runs) -> dict[str, dict[str, str]]:
    """The meanings of the cells' values, keyed by the cell's name. Values without a meaning are left out."""
    shown: dict[str, dict[str, None]] = {}
    for cell, run in runs.items():
        if (name := cell.split()[0]) in CELLS:
            shown.setdefault(name, {}).update((value, None) for _, value in run)
    words = {
        name: {value: meaning for value in values if (meaning := in_words(name, value))}
        for name, values in shown.items()
    }
    return {name: meaning for name, meaning in words.items() if meaning}
