"""Runs a session of nrdb in which an event happens at some point in its communication with netrev. The session's output
must be the same as without the event, or a part of that output. `tests.session.test_interrupts` uses a model of netrev,
and `tests.program.nrdb.test_slow` uses the built program."""

import io
import json
from collections.abc import Callable, Iterator, Sequence
from pathlib import Path
from typing import Any, Generic, NamedTuple, TypeVar

import pytest

from netrev.connection.netrev import Netrev, NetrevEndedError
from netrev.connection.output import JsonPrinter
from netrev.connection.scout import Scout
from netrev.recording.recording import Recording
from netrev.session.session import Session
from netrev.system.interrupts import Interrupts, SessionAbandonedError
from nrdb.prompt.answers import ANSWERS

from .model_sessions import changes_at

EXAMPLE = Path(__file__).resolve().parents[3] / "examples/leaked-reference.jsonl"
TEXT = Recording.read(str(EXAMPLE))
CHANGES = changes_at(EXAMPLE)
BEGINNING = ("goto 14", "watch lock 0", "display rg 0")
PROBES = (
    "where",
    "info breakpoints",
    "history lock 0 all",
    "history clock",
    "reverse-until lock 0 8",
    "info holders 0",
)
SMALL = (("netrev.AT_ONCE", 60), ("scout.JOURNAL", 5))
Events = list[dict[str, Any]]
Connection = TypeVar("Connection", bound=Netrev)
Action = Callable[["Weather[Connection]", Connection], None]


class Weather(Generic[Connection]):
    """Counts the points that all netrevs of a session reach. When `left` falls below 0, the action runs at that point."""

    def __init__(self, interrupts: Interrupts):
        self.interrupts = interrupts
        self.left: int | None = None
        self.count = 0
        self.action: Action[Connection] = nothing

    def happens(self, netrev: Connection) -> None:
        """Called when a point is reached."""
        self.count += 1
        if self.left is not None:
            self.left -= 1
            if self.left < 0:
                self.left = None
                self.action(self, netrev)


def nothing(weather: Weather[Connection], netrev: Connection) -> None:
    """Does nothing."""


class Played(NamedTuple):
    """A session, the event in it, and its output."""

    session: Session
    weather: Weather[Any]
    out: io.StringIO

    def run(self, *lines: str) -> Events:
        """Types these lines, and returns the events that they cause."""
        self.out.seek(0)
        self.out.truncate()
        for line in lines:
            self.session.run(line)
        return self.told()

    def told(self) -> Events:
        """The events that were printed since the last call."""
        return [json.loads(line) for line in self.out.getvalue().splitlines()]

    def end(self) -> None:
        """Ends the session's netrevs."""
        self.session.netrev.drop()
        self.session.looks().drop()


class Disturbances(Generic[Connection]):
    """Makes batches and the journal small, so that a session has many points."""

    def __init__(self, monkeypatch: pytest.MonkeyPatch) -> None:
        for name, size in SMALL:
            monkeypatch.setattr(f"netrev.connection.{name}", size)

    def opened(self, weather: Weather[Connection]) -> Connection:
        """A netrev that runs on the example, disturbed by `weather`."""
        raise NotImplementedError

    def told_by(self, runs: Played, command: str) -> Events:
        """The output of a command during which an event happens."""
        return runs.run(command)

    def settle(self) -> None:
        """Waits until all pending events have happened."""

    def begun(self) -> Played:
        """A session over the example, with a mark and a display."""
        weather: Weather[Connection] = Weather(Interrupts())
        out = io.StringIO()

        def opened() -> Connection:
            return self.opened(weather)

        session = Session(
            opened(), TEXT, Scout(opened), JsonPrinter(out), weather.interrupts, ANSWERS, recorded=CHANGES
        )
        played = Played(session, weather, out)
        session.begin(session.ask("info position"))
        played.run(*BEGINNING)
        return played

    def probed(self, lines: Sequence[str]) -> tuple[int, Events]:
        """The session's state after these lines, and its output there, if no event happens."""
        runs = self.begun()
        runs.run(*lines)
        reports = runs.session.known_position, runs.run(*PROBES)
        runs.end()
        return reports

    def points(self, command: str) -> tuple[int, Events]:
        """The number of points at which a command communicates with netrev, and the command's output."""
        runs = self.begun()
        before = runs.weather.count
        right = runs.run(command)
        runs.end()
        return runs.weather.count - before, right

    def disturbed(
        self, command: str, action: Action[Connection], count: int
    ) -> Iterator[tuple[int, Played, Events, bool]]:
        """For each point of a command, yields what follows if this event happens there: the point, the session, the
        output, and whether the session continues."""
        for point in range(count):
            runs = self.begun()
            runs.weather.left, runs.weather.action = point, action
            try:
                reports = self.told_by(runs, command)
                runs.weather.left = None
                self.settle()
                runs.session.netrev._kept.clear()  # (a kept reply doesn't show that netrev has ended)
                runs.session.current_position()
                yield point, runs, reports, True
            except (SessionAbandonedError, NetrevEndedError):
                runs.weather.left = None
                yield point, runs, runs.told(), False
            runs.end()

    def check(self, commands: Sequence[str], actions: Sequence[Action[Connection]]) -> int:
        """Checks that the output during and after these commands is right for each event at each point. Returns how
        many sessions ended."""
        given_up = 0
        for command in commands:
            told_then = dict(self.probed(lines) for lines in ((), (command,)))
            count, right = self.points(command)
            for action in actions:
                for point, runs, reports, goes_on in self.disturbed(command, action, count):
                    place = f"{command}: {action.__name__} at {point}"
                    reports = [event for event in reports if event["event"] != "note" or event in right]
                    assert reports == right[: len(reports)], place
                    if goes_on:
                        position = runs.session.current_position().position
                        assert runs.run(*PROBES) == told_then[position], place
                    else:
                        given_up += 1
                        with pytest.raises((SessionAbandonedError, NetrevEndedError)):
                            runs.run("info position")
        return given_up
