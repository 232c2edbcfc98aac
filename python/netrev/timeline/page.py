"""Writes the page: its data, its style and its script in one file."""

import json
import sys
from pathlib import Path
from typing import Any

from netrev.connection.beginnings import begins_at
from netrev.connection.netrev import NetrevProcess
from netrev.connection.scout import Scout
from netrev.messages import searches as messages
from netrev.recording.recording import Recording
from netrev.recording.suspect_list import SuspectList
from netrev.run.changes import read_with_changes
from netrev.session.files import writing
from netrev.session.session import Session, UsageError
from netrev.system.garbage_collection import take_all_as_kept, without_collections
from netrev.system.interrupts import Interrupts
from netrev.text.files import end_of_page
from netrev.text.plain import plain

from .calls import Data
from .cell_runs import Window
from .page_contents import MOST, PageSources, collected

PAGE = Path(__file__).parents[1] / "page"
of_json = json.JSONEncoder(separators=(",", ":")).encode
NUMBERS = frozenset((int, float, bool, type(None)))
SCRIPTS = (
    "data",
    "calls",
    "waits",
    "rows",
    "axis",
    "view",
    "finding",
    "draw",
    "above",
    "standing",
    "span",
    "saving",
    "tips",
    "panel",
    "input",
)


def write_timeline(session: Session, path: str, first: int | None = None, last: int | None = None) -> str:
    """Writes the page, and returns the line that reports it."""
    recording = session.text()
    window = None
    if first is not None and last is not None:
        window = Window(first, last)
        if not 0 <= first <= last <= recording.length:
            raise UsageError(messages.POSITIONS.format(last=recording.length))
        if last - first > MOST:
            raise UsageError(messages.PAGE_IS_FULL.format(most=MOST, path=path))
    data = write_page(PageSources.by(session, show_progress), path, window)
    return f"{path}: positions {data['first']} to {data['last']}, {len(data['cells'])} cells; {data['calls']['count']} calls"


def write_page(shown: PageSources, path: str, window: Window | None = None) -> Data:
    """Writes the page, and returns its data."""
    with without_collections():
        data = collected(shown, window)
        shown.tell("")
        with writing(path, shown.path) as file:
            file.write(page(data) + end_of_page(shown.recording.data))
        take_all_as_kept()
    return data


def write_page_beside(program: str, path: str, recording: Recording | None = None) -> str:
    """Writes the page beside a recording, without a session, and returns the page's path. `recording` is the file's
    text with netrev's changes, if they are known. Raises an OSError or a NetrevError if that fails."""
    interrupts, beside = Interrupts(), str(Path(path).with_suffix(".html"))
    recording = recording or read_with_changes(program, path)
    assert recording.changes is not None
    recording.suspects = recording.suspects or SuspectList(program, path, interrupts)
    scout = Scout(lambda: NetrevProcess(program, path, interrupts))
    shown = PageSources(recording, path, scout, recording.changes, begins_at(recording), [], lambda _: None)
    try:
        write_page(shown, beside)
    finally:
        scout.drop()
        recording.suspects.drop()
    return beside


def show_progress(text: str) -> None:
    """Prints the progress on a line of the terminal, which the next call overwrites. Prints nothing if errors don't go
    to a terminal."""
    if sys.stderr.isatty():
        sys.stderr.write(f"\r\x1b[K{text}")
        sys.stderr.flush()


def page(data: Data) -> str:
    """The HTML page for this data."""
    json_text = plain_json(data).replace("<", "\\u003c")
    script = "\n".join(read_part(f"{name}.js") for name in SCRIPTS)
    text = read_part("timeline.html").replace("/*STYLE*/", read_part("timeline.css")).replace("/*SCRIPT*/", script)
    return text.replace("/*DATA*/", json_text)


def read_part(name: str) -> str:
    """The text of a file that pages are built from."""
    return (PAGE / name).read_text(encoding="utf-8")


def plain_json(value: Any) -> str:
    """The value in JSON. Each text in the value is escaped."""
    json_text = of_json(value)
    # (if a character of a text must be escaped, its JSON has a backslash)
    return of_json(plainly(value)) if "\\" in json_text else json_text


def plainly(value: Any) -> Any:
    """The value, with each text in it escaped."""
    if isinstance(value, str):
        return plain(value)
    if isinstance(value, dict):
        return {plainly(key): plainly(item) for key, item in value.items()}
    if not isinstance(value, (list, tuple)):
        return value
    return value if NUMBERS.issuperset(map(type, value)) else [plainly(item) for item in value]  # (columns are long)
