"""The fuzzer finds differences and reduces them, and finds nothing if there are none."""

import io
import signal
import tempfile
import threading
from collections.abc import Callable
from contextlib import ExitStack, contextmanager, redirect_stdout
from pathlib import Path
from typing import Any, cast

import pytest

from dev.fuzz.__main__ import main, play, seeds
from dev.fuzz.cases import make
from dev.fuzz.counts import Met
from dev.fuzz.kept_cases import kept
from dev.fuzz.nrdb_sessions import played, visit
from dev.fuzz.runs import difference
from dev.fuzz.sessions.interrupts import confined, heard, nothing, pressed
from dev.fuzz.sessions.slow import Slow
from netrev.machine import polling
from netrev.machine import replay as replaying
from netrev.machine import steps
from netrev.machine.machine import StepRefusedError
from netrev.recording.step_changes import RecordedChanges
from netrev.system.interrupts import Interrupts, SessionAbandonedError
from tests.program.support.sharing import NETREV
from tests.support.interrupted_sessions import EXAMPLE


def quietly(call, *arguments, **more):
    """Makes a call; returns its result and its output."""
    with redirect_stdout(io.StringIO()) as printed:
        return call(*arguments, **more), printed.getvalue()


def decref_with_another_reason(world, g, s):
    """A fault: `decref` without a reference is refused for another reason."""
    try:
        return steps.decref(world, g, s)
    except StepRefusedError as refused:
        raise StepRefusedError(6 if refused.reason == 7 else refused.reason) from refused


def error_stays(world, d, mode, error):
    """A fault: an event sets the event error and never clears it."""
    return EVENT(world, d, mode, error or world.descs[d].error)


def sorts_compared(recorded, answer):
    """A fault: only the sorts of recorded answers are compared, not their numbers."""
    return recorded[0] != answer[0]


def shut_for_nothing(world, g, s, data):
    """A fault: `syswrite` to a shut socket accepts bytes."""
    shut = s < len(world.sockets) and world.sockets[s].shut
    after, answer = WRITE(world.with_socket(s, shut=False) if shut else world, g, s, data)
    return (after.with_socket(s, shut=True) if shut else after), answer


EVENT, WRITE = polling.event, steps.syswrite
# the fault that is planted in the model, and a seed whose first cases show it (if cases are generated differently, find
# other seeds)
PLANTED: dict[str, tuple[str, Callable[[pytest.MonkeyPatch], None]]] = {
    "a decref with another reason": (
        "86",
        lambda patch: patch.setitem(cast(Any, steps.OF_KIND), "decref", decref_with_another_reason),
    ),
    "a mark that stays": ("17", lambda patch: patch.setattr(polling, "event", error_stays)),
    "a command line shorter by one": ("4", lambda patch: patch.setattr("netrev.machine.debugger_model.MOST_LINE", 255)),
    "a temporary break that stays": (
        "127",
        lambda patch: patch.setattr("netrev.machine.debugger_model.left_standing", lambda marks, hitting: marks),
    ),
    "answers compared by their sort": ("100", lambda patch: patch.setattr(replaying, "differs", sorts_compared)),
    "a shut socket that takes bytes": (
        "98",
        lambda patch: patch.setitem(cast(Any, steps.OF_KIND), "syswrite", shut_for_nothing),
    ),
}
WITHIN = 15
REFUSED = b"step 11: fault 109 answer\n"


@contextmanager
def planted(name, out):
    """Plants a fault in the model within this context, and yields the folder of the only case that differs, which is
    kept."""
    seed, plant = PLANTED[name]
    with pytest.MonkeyPatch.context() as patch:
        plant(patch)
        patch.setattr("dev.fuzz.__main__.MOST_DIFFERENCES", 1)
        found, printed = quietly(play, NETREV, seed, Met(), cases=WITHIN, out=out)
        assert found == 1 and "the model's" in printed, f"{name}: {found} found, {printed}"
        (folder,) = out.iterdir()
        yield folder


def test_twenty_seeds_show_no_difference(folder: Path) -> None:
    coverage = Met()
    found, printed = quietly(play, NETREV, "twenty", coverage, cases=20, out=folder)
    assert (found, printed, sum(coverage.cases.values())) == (0, "", 20)
    assert len(coverage.answers) > 10


@pytest.mark.parametrize("name", PLANTED)
def test_what_is_planted_is_found(folder: Path, name: str) -> None:
    with planted(name, folder / "out") as case:
        assert (case / "told").read_bytes() != (case / "wanted").read_bytes()


def test_what_is_kept_can_be_played_again(folder: Path) -> None:
    with planted("a decref with another reason", folder) as case:
        again, text = quietly(main, ["--again", str(case)])
    assert "reason 7', the model's" in text
    assert (again, quietly(main, ["--again", str(case)])[0]) == (1, 0)
    assert (case / "whole-recording.jsonl").read_bytes() == make(kept(case).seed).recording


def test_what_is_kept_has_no_line_too_many(folder: Path) -> None:
    with planted("a decref with another reason", folder) as case:
        small = kept(case)
        lines = small.recording.split(b"\n")
        for at in range(len(lines)):
            fewer = small._replace(recording=b"\n".join(lines[:at] + lines[at + 1 :]))
            assert difference(NETREV, fewer, folder, Met()) is None, lines[at]


def test_a_seed_makes_one_case():
    for seed in seeds("same", 30):
        assert make(seed) == make(seed)


def session_of_seed(count):
    """The faults of this many sessions, and the events in them."""
    coverage = Met()
    with tempfile.TemporaryDirectory() as folder:
        cases = map(visit, seeds("tested-nrdb", count))
        return [wrong for case in cases if (wrong := played(NETREV, case, Path(folder), coverage))], coverage.nrdb


def test_sessions_show_no_difference():
    wrong, coverage = session_of_seed(12)
    assert wrong == []
    assert coverage["events"] > 100
    assert coverage["ctrl-c"] + coverage["slow ctrl-c"] > 3


def test_a_value_of_the_position_before_is_found(monkeypatch):
    value = RecordedChanges.value
    monkeypatch.setattr(RecordedChanges, "value", lambda changes, cell, at: value(changes, cell, max(at - 1, 0)))
    assert session_of_seed(12)[0] != []


class Pressing:
    """The Ctrl-C that the fuzzer presses for a session reaches only that session."""

    def __init__(self, cleanups: ExitStack) -> None:
        self.came = 0
        cleanups.callback(signal.signal, signal.SIGINT, signal.signal(signal.SIGINT, self.comes))

    def comes(self, *_):
        """Records a Ctrl-C that no session and no case handled."""
        self.came += 1

    def give_up(self, happens):
        """Sends netrev a line, checks that this raises SessionAbandonedError, and ends netrev."""
        interrupts = Interrupts()
        with confined():
            netrev = Slow(NETREV, str(EXAMPLE), interrupts, happens)

            def ask():
                with interrupts.held():
                    netrev.ask("info position")

            with pytest.raises(SessionAbandonedError):
                heard(ask)
            netrev.drop()


@pytest.fixture
def presses(cleanups: ExitStack) -> Pressing:
    return Pressing(cleanups)


def test_a_session_that_is_given_up_while_it_closes_leaves_no_ctrl_c_behind(presses):
    is_over, is_pressed = threading.Event(), threading.Event()

    def late():
        is_over.wait(0.3)
        pressed()
        is_pressed.set()

    def closes(netrev):
        netrev.while_stopped(pressed, pressed, late)
        netrev.close()

    presses.give_up(closes)
    is_over.set()
    assert is_pressed.wait(10)
    assert presses.came == 0


def test_a_session_that_is_given_up_while_a_thread_begins_can_be_closed(presses):
    begin, begun = threading.Thread.start, []

    def begins(thread):
        pressed()
        begin(thread)
        begun.append(thread)

    def stops(netrev):
        pressed()
        with pytest.MonkeyPatch.context() as patch:
            patch.setattr(threading.Thread, "start", begins)
            netrev.while_stopped(nothing)

    presses.give_up(stops)
    assert [thread.is_alive() for thread in begun] == [False]


def test_what_is_pressed_within_a_case_is_gone_behind_it(presses):
    with confined():
        pressed()
    assert presses.came == 0
    pressed()
    assert presses.came == 1
