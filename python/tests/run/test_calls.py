"""Calls instead of steps: nrdb finds in a recording exactly the calls that the goroutines of random traffic made, with
the same steps and results; and the destinations of `next`, `finish` and their reverses."""

import random
from typing import Any, NamedTuple

import pytest

from dev.fuzz.generators.injections import Bug, Traffic
from dev.fuzz.generators.little_go import Turns
from netrev.findings.causes import errors_table
from netrev.recording.call import Call, Outcome
from netrev.recording.recording import Recording
from netrev.run.index import run_of
from netrev.views.calls import GOALS, NoDestinationError, Subject, calls_table, goroutine_at, steps_table

SEEDS = range(300, 312)
LENGTH = 1_500
ENDS = {-1: Outcome.CLOSED, -2: Outcome.TIMED_OUT, -3: Outcome.EVENT_ERROR}
MODES = {"r": "SetReadDeadline", "w": "SetWriteDeadline", "rw": "SetDeadline"}


class Made(NamedTuple):
    """A call that the traffic makes; its last step is 0 if it hasn't ended."""

    goroutine: int
    name: str
    socket: int
    first: int
    last: int
    outcome: Outcome


class Telling(Traffic):
    """Traffic that reports its calls."""

    def __init__(self, seed: int, bug: Bug | None = None) -> None:
        super().__init__(seed, bug, LENGTH)
        self.told: list[Made] = []
        self.last_of: dict[int, int] = {}
        self.answers: list[tuple[Any, ...]] = []

    def do(self, kind: str, *arguments: Any) -> tuple[Any, ...]:
        answer = super().do(kind, *arguments)
        self.answers.append(answer)
        if kind not in ("arrive", "drain", "tick", "pop", "fire", "pollevent", "spawn", "sockopen"):
            self.last_of[arguments[0]] = len(self.steps)
        return answer

    def tell(self, g: int, name: str, s: int, turns: Turns) -> Turns:
        """Makes a call, and reports it."""
        at, first = len(self.told), len(self.steps) + 1
        self.told.append(Made(g, name, s, first, 0, Outcome.DONE))
        result = yield from turns
        outcome = Outcome.CLOSED if self.answers[first - 1][0] == "no" else Outcome.DONE
        if name in ("Read", "Write"):
            outcome = Outcome.EOF if result == 0 and name == "Read" else ENDS.get(result, Outcome.DONE)
        self.told[at] = Made(g, name, s, first, self.last_of[g], outcome)
        return result

    def read(self, g: int, s: int, most: int) -> Turns:
        return (yield from self.tell(g, "Read", s, super().read(g, s, most)))

    def write(self, g: int, s: int, data: bytes) -> Turns:
        return (yield from self.tell(g, "Write", s, super().write(g, s, data)))

    def set_deadline(self, g: int, s: int, mode: str, time: int) -> Turns:
        return (yield from self.tell(g, MODES[mode], s, super().set_deadline(g, s, mode, time)))

    def close(self, g: int, s: int) -> Turns:
        return (yield from self.tell(g, "Close", s, super().close(g, s)))


def seen(call: Call) -> Made:
    """A call that nrdb found, as the traffic reports a call."""
    return Made(call.goroutine, call.name, call.socket, call.first, call.last, call.outcome)


def compare(item: Call | None, author_call: Made) -> None:
    """Compares a call that nrdb found with the call that was made."""
    assert item is not None, author_call
    found = seen(item)
    if found.name == "Control" and (found.outcome is Outcome.CLOSED or not found.last):
        found = found._replace(
            name=author_call.name
        )  # (a call that sets a deadline can't be told from Control until it has done so)
    if not author_call.last:  # (it hasn't ended, or its last step was made but its goroutine has had no turn since)
        author_call = author_call._replace(last=found.last, outcome=found.outcome)
    assert found == author_call


def test_are_those_that_the_goroutines_made() -> None:
    ends: set[tuple[str, Outcome]] = set()
    for seed in SEEDS:
        traffic = Telling(seed)
        traffic.run()
        found = {call.first: call for call in run_of(Recording(traffic.text())).calls}
        for author_call in traffic.told:
            compare(found.get(author_call.first), author_call)
            ends.add((author_call.name, author_call.outcome))
        others = [found[first] for first in set(found) - {author_call.first for author_call in traffic.told}]
        assert {call.name for call in others} <= {"Open", "Control", "Read"}  # (`raw_read` and `controller`)
    assert len(ends) >= 8, ends


def test_steps_are_those_of_the_goroutine_the_socket_and_the_kind() -> None:
    traffic = Telling(SEEDS[0])
    traffic.run()
    recording = Recording(traffic.text())
    every = [recording.step(number) for number in range(1, recording.length + 1)]
    at = recording.length - 100
    for g in (5, 9, 20):
        rows = steps_table(recording, Subject("gor", g), at, None).rows
        assert [row.values["step"] for row in rows] == [s.number for s in every[:at] if s.argument("g") == g]
        assert rows
    for kind in ("rwlock", "fire"):
        rows = steps_table(recording, Subject(kind), at, None).rows
        assert [row.values["step"] for row in rows] == [s.number for s in every[:at] if s.kind == kind]
    named = [s.number for s in every[:at] if s.argument("s") == 3]
    rows = steps_table(recording, Subject("sock", 3), at, None).rows
    assert set(named) < {row.values["step"] for row in rows}
    assert "pollreset" in {recording.step(row.values["step"]).kind for row in rows}
    last = steps_table(recording, Subject("sock", 3), at, 5)
    assert [row.values["step"] for row in last.rows] == [row.values["step"] for row in rows][-5:]
    assert last.rest == f"{len(rows) - 5} earlier ones: steps sock 3 all"


def test_errors_are_the_calls_that_failed() -> None:
    for seed in SEEDS[:4]:
        traffic = Telling(seed)
        traffic.run()
        recording = Recording(traffic.text())
        at = recording.length // 2
        table = errors_table(recording, at, None)
        failed = {
            author_call.first
            for author_call in traffic.told
            if author_call.last and author_call.outcome in ENDS.values()
        }
        rows = [row for row in table.rows if row.values]  # (rows without values give reasons)
        result = {row.values["first"] for row in rows}
        assert failed <= result
        assert all(row.values["outcome"] for row in rows)
        assert [row.values["last"] > at for row in rows] == [row.values.get("later", False) for row in rows]
        assert [row.text.endswith("(later)") for row in rows] == [row.values["last"] > at for row in rows]


def test_of_many_errors_the_nearest_are_shown() -> None:
    recording = Recording(Traffic(3, None, 3000).run().text())
    every = [row.values for row in errors_table(recording, recording.length, None).rows if row.values]
    assert len(every) > 8
    at = sorted(row["last"] for row in every)[3]
    table = errors_table(recording, at, 6)
    assert [row.values.get("later", False) for row in table.rows if row.values] == [False] * 4 + [True] * 2
    assert f"{len(every) - 6} later ones: info errors all" in table.rest
    table = errors_table(recording, at, 2)
    assert [row.values.get("later", False) for row in table.rows if row.values] == [False] * 2
    assert "2 earlier ones: info errors all" in table.rest


def test_leads_to_the_ends_of_calls() -> None:
    dice, coverage = random.Random("going"), 0
    for seed in SEEDS[:6]:
        traffic = Telling(seed)
        traffic.run()
        recording = Recording(traffic.text())
        for _ in range(40):
            at = dice.randint(100, recording.length)
            g = goroutine_at(recording, at)
            inside = [
                author_call
                for author_call in traffic.told
                if author_call.goroutine == g and author_call.first <= at < author_call.last
            ]
            if inside:
                assert GOALS["finish"](recording, g, at).position == inside[-1].last
                assert GOALS["reverse-finish"](recording, g, at).position == inside[-1].first - 1
                coverage += 1
    assert coverage > 100


def test_next_and_its_reverse_pass_whole_calls() -> None:
    traffic = Telling(SEEDS[1])
    traffic.run()
    recording = Recording(traffic.text())
    own = [author_call for author_call in traffic.told if author_call.name == "Read" and author_call.last]
    assert len(own) > 20
    for author_call in own:
        assert GOALS["next"](recording, author_call.goroutine, author_call.first - 1).position == author_call.last
        assert (
            GOALS["reverse-next"](recording, author_call.goroutine, author_call.last).position == author_call.first - 1
        )
        if author_call.last > author_call.first:  # within the call, the goroutine's own steps count
            goal = GOALS["next"](recording, author_call.goroutine, author_call.first)
            assert goal.call is None
            own_steps = [
                n
                for n in range(author_call.first + 1, author_call.last + 1)
                if recording.step(n).argument("g") == author_call.goroutine
            ]
            assert goal.position == own_steps[0]


def test_says_where_there_is_nowhere_to_go() -> None:
    recording = Recording(b'{"netrev":1,"gor":2,"sock":1,"desc":1,"buf":1}\n["sockopen",1,1]\n["rwlock",0,0,"r"]\n')
    for name, at in (("next", 2), ("reverse-next", 1), ("finish", 1), ("finish", 2)):
        with pytest.raises(NoDestinationError):
            GOALS[name](recording, 0, at)
    assert [goroutine_at(recording, at) for at in (0, 1, 2)] == [0, 0, 0]
    with pytest.raises(NoDestinationError):
        goroutine_at(Recording(recording.before_line(3)), 1)
    assert (
        calls_table(recording, Subject(), 2, None).rows[0].text
        == "gor 0    Read on socket 0: since step 2, hasn't ended"
    )
