"""The waits outside the poller as the page draws them, including the waits of goroutines that use no socket."""

from typing import Any

from netrev.findings.evidence.call_words import place_in, short
from netrev.findings.http.requests import requests_of
from netrev.recording.recording import Recording
from netrev.recording.waits import Name, ObjectWait, waits_of
from netrev.recording.where import OF_THE_PROGRAM
from netrev.run.index import run_of

from .calls import Data, IndexedTexts, program_calls, runs_in

MOST_ROWS, MOST_WAITS = 200, 20_000  # the most rows for goroutines without steps, and the most waits


def waits_data(recording: Recording) -> Data:
    """The waits of a recording. Each of `rows` has a wait's goroutine, the step after which the wait begins, and the
    step up to which it lasts (0: it doesn't end). What the goroutine does, its line and its stack follow as indices
    into `texts`. A goroutine without steps is in `others`, by Go's number, with the function that it runs; its number
    in `rows` is -1 minus its index in `others`. `left_out` counts the goroutines and waits that don't fit on a page.
    Waits that don't end have priority, and then the newest waits."""
    waits, texts = waits_of(recording), IndexedTexts({"": 0})
    shown = {name: list(filter(is_long, some)) for name, some in waits.of.items()}
    others = [name for name, some in shown.items() if some and name.is_goid]
    others.sort(key=lambda name: rank(shown[name]))
    numbers: dict[Name, int] = {name: -1 - place for place, name in enumerate(others[:MOST_ROWS])}
    every = [wait for name, some in shown.items() if not name.is_goid or name in numbers for wait in some]
    every.sort(key=lambda wait: (wait.last is not None, -wait.first))
    rows = [
        [
            numbers.get(wait.name, wait.name.number),
            wait.first,
            wait.last or 0,
            *(texts[text] for text in (wait.does, wait.stack.words(), program_calls(wait.stack))),
        ]
        for wait in every[:MOST_WAITS]
    ]
    return {
        "rows": sorted(rows, key=lambda row: row[1]),
        "others": [[name.number, runs(shown[name])] for name in numbers],
        "texts": list(texts),
        "left_out": [len(others[MOST_ROWS:]), len(every[MOST_WAITS:])],
    }


def requests_data(recording: Recording) -> dict[int, list[str]]:
    """For each socket to which net/http's client wrote requests, the lines of these requests, each once."""
    found: dict[int, dict[str, None]] = {}
    for request in requests_of(run_of(recording)):
        found.setdefault(request.socket, {})[place_in(request.stack).strip().removeprefix("at ")] = None
    return {socket: list(places) for socket, places in found.items()}


def is_long(wait: ObjectWait) -> bool:
    """Whether a wait was in progress at some position."""
    return wait.last is None or wait.last > wait.first


def rank(waits: list[ObjectWait]) -> tuple[bool, int]:
    """The sort key of goroutines: goroutines that wait at the end come first, then the goroutines that waited last."""
    return waits[-1].last is not None, -waits[-1].first


def runs(waits: list[ObjectWait]) -> str:
    """The outermost function of the program that a goroutine is in; empty if the goroutine is in none."""
    return short(next((found for wait in waits if (found := runs_in(wait.stack, OF_THE_PROGRAM))), ""))
