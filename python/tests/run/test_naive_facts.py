"""Tests nrdb's facts about random recordings. Its facts about references and timers must equal those computed, by the
definitions, from all states of the model. Its calls must be those that the random program made."""

import random
from collections.abc import Iterator
from typing import Any

import pytest

from dev.fuzz.generators.random_logs import log_of, program_of, text_of
from dev.fuzz.generators.random_steps import Author
from netrev.machine.in_place import Machine
from netrev.machine.machine import World
from netrev.machine.steps import apply
from netrev.recording.notes import Use
from netrev.recording.recording import Recording
from netrev.run.changes import changes_of
from netrev.run.index import run_of
from netrev.run.notes import Notes
from netrev.run.searches import holders_of
from netrev.run.timers import timers_of
from netrev.text.contents import Contents as Text
from netrev.text.contents import Limits
from netrev.text.parser import read_text
from netrev.text.vocabulary import KINDS, OF_A_GOROUTINE
from netrev.text.writer import write_plain
from netrev_go.steps.recording_builder import NewRecording as Made
from netrev_go.steps.recording_builder import NothingRecordedError, make
from tests.support.model_sessions import changes_in
from tests.suspects.test_suspects import OPEN, recording_of

LOCKING = {"incref": 6.0, "decref": 5.0, "rwlock": 3.0, "rwunlock": 3.0, "increfclose": 0.1, "exit": 0.1}
TIMING = {"setdeadline": 8.0, "pollopen": 2.0, "evict": 1.5, "pollclose": 4.0}
WAITING = {
    "waitbegin": 8.0, "pollreset": 5.0, "sysread": 5.0, "syswrite": 4.0, "setdeadline": 4.0, "evict": 0.3,
    "closewrite": 0.2,
}  # fmt: skip
ALONE = {"tick": 3.0, "pop": 4.0, "fire": 3.0, "pollevent": 4.0, "arrive": 2.0, "drain": 2.0, "peerclose": 0.1}
MAKING = {"spawn": 1.0, "sockopen": 0.5}

Steps = Iterator[tuple[int, Any, World, World]]


def random_text(seed: str, idle: dict[str, float], alone: dict[str, float] = MAKING) -> tuple[Text, list[World]]:
    """A recording whose goroutines make steps of these kinds when they are idle, and the states of its positions."""
    author = Author(random.Random(seed), wild=0, version=2)
    author.limits, author.of_goroutines = Limits(4, 3, 3, 16), 0.7
    author.of_idle, author.of_nobody = {"pollopen": 0.5, **idle}, {**MAKING, **alone}
    return author.recording(150)


def steps_of(text: Text, worlds: list[World]) -> Steps:
    """Each step with its number, and the states before and after it."""
    return zip(range(1, len(worlds)), text.steps, worlds, worlds[1:])


def holders(steps: Steps, s: int) -> list[tuple[int, int, str]]:
    """A step that raises the count of a lock word takes a reference. A step that lowers the count gives back
    the goroutine's newest reference of that side. If it has none, the step gives back any goroutine's newest reference
    of that side, and if none exists, the newest of all."""
    held: list[tuple[int, int, str]] = []
    for number, (kind, *arguments), before, after in steps:
        if s >= len(after.sockets):
            continue
        old = before.sockets[s].lock.references if s < len(before.sockets) else 0
        new, side = after.sockets[s].lock.references, arguments[2] if kind in ("rwlock", "rwunlock") else ""
        if new > old:
            held.append((number, arguments[0], side))
        elif new < old:
            fitting = [item for item in held if item[2] == side]
            own = [item for item in fitting if item[1] == arguments[0]]
            held.remove(max(own or fitting or held))
    return held


@pytest.mark.parametrize("seed", range(30))
def test_holders_are_those_whose_steps_changed_the_count(seed: int) -> None:
    text, worlds = random_text(f"holders {seed}", LOCKING)
    data, dice = write_plain(text), random.Random(seed)
    recording, changes = Recording(data), changes_in(data)
    for position in (len(text.steps), dice.randrange(len(text.steps))):
        for s in range(len(worlds[position].sockets)):
            naive = holders(steps_of(text, worlds[: position + 1]), s)
            found = holders_of(recording, changes, s, position)
            assert [(item.step.number, item.goroutine, "".join(item.side)) for item in found] == naive


def timers(steps: Steps) -> dict[int, tuple[object, ...]]:
    """For each `pop` and `fire`, the timer: its sides, descriptor and socket, when it was due, the step that set its
    side's deadline and thus armed it, that step's goroutine, and whether the timer is stale."""
    setters: dict[tuple[int, str], tuple[int, int]] = {}
    armed: dict[int, tuple[object, ...]] = {}
    found: dict[int, tuple[object, ...]] = {}
    for number, (kind, *arguments), before, after in steps:
        if kind == "setdeadline" and not before.descs[arguments[1]].closing:
            setters.update({(arguments[1], side): (number, arguments[0]) for side in arguments[2]})
        for timer in after.timers:
            if timer.number not in armed:
                socket = after.descs[timer.desc].socket
                armed[timer.number] = (timer.covers, timer.desc, socket, timer.when, *setters[timer.desc, timer.side])
        if kind == "pop":
            found[number] = (*armed[before.timers[0].number], False)
        elif kind == "fire":
            firing = before.firings[arguments[0]]
            is_stale = firing.sequence != before.descs[firing.desc].sequences["rw".index(firing.side)]
            found[number] = (*armed[firing.number], is_stale)
    return found


@pytest.mark.parametrize("seed", range(30))
def test_a_timer_is_of_the_step_that_set_its_deadline(seed: int) -> None:
    text, worlds = random_text(f"timers {seed}", TIMING, ALONE)
    assert {number: tuple(item) for number, item in timers_of(Recording(write_plain(text))).items()} == timers(
        steps_of(text, worlds)
    )


@pytest.mark.parametrize("seed", range(60))
def test_calls_are_those_that_goroutines_made(seed: int) -> None:
    """The random program that made the log knows its own calls."""
    program = program_of(f"calls {seed}")
    log = log_of(program)
    try:
        made = make(log)
    except NothingRecordedError:
        return
    if not log.from_the_start:
        return  # (calls that began before the log are known only in part)
    step_of = {point.number: step for (point, _), step in zip(made.points, made.ended)}
    socket_of = {point.number: socket.number for point, socket in made.points}
    known = [call for call in sorted(program.calls, key=lambda call: call.first) if call.first in step_of]
    found = [call for call in run_of(Recording(text_of(made))).calls if call.name != "Open"]
    assert len(found) == len(known)
    for call, one in zip(found, known):
        expected = made.numbers[one.goroutine], one.name, socket_of[one.fd.first], step_of[one.first], one.moved
        assert (call.goroutine, call.name, call.socket, call.first, call.moved or 0) == expected
        # (a call that hasn't returned may have passed its last point)
        newest = step_of.get(program.runtime.newest[one.goroutine], 0)
        assert call.last == step_of[one.last] if one.last >= 0 else call.last in (0, newest)
        assert one.is_in_doubt or one.last < 0 or call.outcome.value == one.outcome
    sleeps = sleeps_of(made)
    for call in run_of(Recording(text_of(made))).calls:
        own = [one for at, g, *one in sleeps if g == call.goroutine and call.first < at <= (call.last or at)]
        assert [call.waited, call.slept] == [sum(steps for steps, _ in own), sum(time for _, time in own)]


def sleeps_of(made: Made) -> list[tuple[int, int, int, int]]:
    """The steps with which sleeping goroutines continued, each with the goroutine and how long it slept, in steps and
    in time."""
    text = read_text(text_of(made))
    machine, asleep, found = Machine(Limits(*text.limits)), dict[int, tuple[int, int]](), []
    for number, (kind, *arguments) in enumerate(text.steps, 1):
        g = arguments[0] if kind in OF_A_GOROUTINE else -1
        if g in asleep:
            since, clock = asleep.pop(g)
            found.append((number, g, number - since - 1, machine.clock - clock))
        machine.step((kind, *arguments))
        if g >= 0 and machine.goroutines[g][0] in ("queued", "parked"):
            asleep[g] = number, machine.clock
    return found


CLOSE_BOTH: list[list[Any]] = [
    [kind, 0, at] for at in (0, 1) for kind in ("increfclose", "evict", "decref", "pollclose")
]  # fmt: skip


def test_the_descriptor_that_was_freed_last_is_used_first() -> None:
    opens: list[list[Any]] = [
        *OPEN, ["sockopen", 16, 16], ["pollopen", 0, 1], *CLOSE_BOTH, ["sockopen", 16, 16], ["pollopen", 0, 2],
    ]  # fmt: skip
    recording = recording_of([*opens, ["setdeadline", 0, 1, "r", 3], ["tick", 9], ["pop"]])
    (timer,) = timers_of(recording).values()
    assert (timer.descriptor, timer.socket, timer.set_at) == (1, 2, len(opens) + 1)


def test_the_newest_of_a_goroutine_s_references_is_given_back() -> None:
    recording = recording_of([*OPEN, ["incref", 1, 0], ["incref", 1, 0], ["incref", 0, 0], ["decref", 1, 0]])
    held = holders_of(recording, changes_of(recording), 0, recording.length)
    assert [(item.step.number, item.goroutine) for item in held] == [(4, 1), (6, 0)]


# ---- what rules examine


class UseOf:
    """The events in one use of a descriptor."""

    def __init__(self, d: int, s: int, opened: int, tag: int) -> None:
        self.place = d, s, opened, tag
        self.closed = 0
        self.settings: list[tuple[object, ...]] = []
        self.events = {"r": 0, "w": 0}
        self.errors: list[tuple[int, str]] = []
        self.waits: dict[str, list[tuple[int, int, int]]] = {"r": [], "w": []}
        self.passings: dict[str, list[tuple[int, str]]] = {"r": [], "w": []}
        self.taken: dict[str, object] = {"r": None, "w": None}
        self.thrown: list[tuple[int, int, int]] = []

    def all(self) -> list[object]:
        own = [self.place, self.closed, self.settings, self.errors, self.thrown]
        sides = [[*self.events.values()], [*self.waits.values()], [*self.passings.values()], [*self.taken.values()]]
        return [*own, *sides]


def all_of(use: Use) -> list[object]:
    """All facts about a use of a descriptor, in the form of `UseOf.all`."""
    passings = [[(item.step, item.kind) for item in side] for side in use.passings]
    place = use.descriptor, use.socket, use.opened, use.tag
    return [place, use.closed, use.settings, use.errors, use.thrown, use.last_events, [*use.waits], passings, use.taken]


def side_of(before: World, kind: str, g: int, arguments: list[Any]) -> tuple[int, str]:
    """The descriptor and the side to which a wait's step belongs."""
    if kind in ("pollreset", "waitbegin"):
        return arguments[1], arguments[2]
    _, d, side = before.goroutines[g]
    return d, side


class Naive:
    """The effects of a recording's steps, found from the states before and after each."""

    def __init__(self, steps: Steps) -> None:
        self.uses: list[UseOf] = []
        self.of: dict[int, UseOf] = {}
        self.tried: dict[int, int] = {}
        self.again: dict[str, dict[int, int]] = {"r": {}, "w": {}}
        self.when: dict[str, dict[int, Any]] = {
            name: {} for name in ("peer", "arrived", "evicted", "shut", "closer", "stale")
        }
        self.refused: list[tuple[int, int, int]] = []
        self.timeouts: list[tuple[int, int, int, str]] = []
        for number, (kind, *arguments), before, after in steps:
            self.step(number, kind, arguments, before, after)

    def step(self, number: int, kind: str, arguments: list[Any], before: World, after: World) -> None:
        when, (_, answer) = self.when, apply(before, (kind, *arguments))
        if kind in ("sysread", "syswrite"):
            g, s = arguments[:2]
            self.tried[g] = number
            if answer == ("again",):
                self.again["r" if kind == "sysread" else "w"][s] = number
            elif answer == ("pipe",):
                self.refused.append((number, g, s))
        elif kind == "peerclose":
            when["peer"][arguments[0]] = number
        elif kind == "arrive":
            when["arrived"][arguments[0]] = number
        elif kind == "closewrite":
            when["shut"].setdefault(arguments[1], (number, arguments[0]))
        elif kind == "increfclose" and answer == ("yes",):
            when["closer"][arguments[1]] = number, arguments[0]
        elif kind == "pollopen":
            d = answer[1]
            self.of[d] = UseOf(d, arguments[1], number, after.descs[d].fdseq)
            self.uses.append(self.of[d])
        elif kind == "pollclose":
            self.of[arguments[1]].closed = number
        elif kind == "evict":
            when["evicted"][before.descs[arguments[1]].socket] = number
        elif kind == "setdeadline" and not before.descs[arguments[1]].closing:
            g, d, mode, time = arguments
            self.of[d].settings.append((number, g, mode, time))
            for side in mode if time < 0 else "":
                self.of[d].passings[side].append((number, kind))
        elif kind == "fire":
            for d, (old, new) in enumerate(zip(before.descs, after.descs)):
                for side in (
                    side for side, deadline, other in zip("rw", old.deadlines, new.deadlines) if deadline > 0 > other
                ):
                    self.of[d].passings[side].append((number, kind))
        elif kind == "pollevent":
            self.event(number, arguments, answer)
        elif kind in ("pollreset", "waitbegin", "waitcheck", "blockarm", "blockswap"):
            self.wait(number, kind, arguments, answer, before)

    def event(self, number: int, arguments: list[Any], answer: Any) -> None:
        d, tag, mode, error = arguments
        if answer == ("stale",):
            self.when["stale"][d] = number, tag
            return
        self.of[d].events.update(dict.fromkeys(mode, number))
        if error:
            self.of[d].errors.append((number, mode))

    def wait(self, number: int, kind: str, arguments: list[Any], answer: Any, before: World) -> None:
        g = arguments[0]
        d, side = side_of(before, kind, g, arguments)
        use, was_ready = self.of[d], before.descs[d].words["rw".index(side)] == "ready"
        if answer == ("code", 2):
            self.timeouts.append((number, g, d, side))
        if kind == "waitbegin" and answer == ("code", 0):
            use.waits[side].append((number, g, self.tried.get(g, 0)))
        elif was_ready and (kind in ("blockarm", "blockswap") or kind == "pollreset" and answer == ("code", 0)):
            use.taken[side] = taking = number, g, use.events[side]
            if kind == "pollreset" and side == "r":
                use.thrown.append(taking)


@pytest.mark.parametrize("seed", range(60))
def test_notes_are_what_the_states_say(seed: int) -> None:
    text, worlds = random_text(f"notes {seed}", {**LOCKING, **TIMING, **WAITING}, ALONE)
    notes, naive = Notes(Recording(write_plain(text))), Naive(steps_of(text, worlds))
    assert [all_of(use) for use in notes.uses] == [use.all() for use in naive.uses]
    assert {name: getattr(notes, name) for name in naive.when} == naive.when
    assert notes.again == naive.again and notes.refused_writes == naive.refused
    assert [
        (timeout.step, timeout.goroutine, timeout.descriptor, timeout.side) for timeout in notes.timeouts
    ] == naive.timeouts
    for s, holds in notes.holds.items():
        held = [(timeout.step, timeout.goroutine, timeout.side) for timeout in holds]
        assert held == holders(steps_of(text, worlds), s)
        assert all(text.steps[timeout.step - 1][0] == timeout.kind for timeout in holds)


@pytest.mark.parametrize("seed", range(30))
def test_each_step_is_of_the_socket_that_it_names(seed: int) -> None:
    """A step belongs to the socket that it names, or to the socket of its descriptor, its timer or its event's tag, or
    to the socket that its goroutine named last."""
    text, worlds = random_text(f"whose {seed}", {**LOCKING, **TIMING, **WAITING}, ALONE)
    recording, named, tags = Recording(write_plain(text)), dict[int, tuple[int, int]](), dict[tuple[int, int], int]()
    of_timers, expected = timers(steps_of(text, worlds)), []
    for number, (kind, *arguments), before, after in steps_of(text, worlds):
        open_of = [desc.socket for at, desc in enumerate(after.descs) if after.is_open(at)]
        if len(open_of) > len(set(open_of)):
            break  # (no socket of Go's has two descriptors)
        names = dict(zip(KINDS[kind].arguments, arguments))
        g, s, d = names.get("g", -1), names.get("s", -1), names.get("d", -1)
        if kind == "sockopen":
            s = len(before.sockets)
        elif kind == "pollopen":
            d = next(at for at in range(len(after.descs)) if after.is_open(at) and not before.is_open(at))
            tags[d, after.descs[d].fdseq] = s
        elif kind == "pollevent":
            s = tags.get((d, names["tag"]), -1)
        elif kind in ("pop", "fire"):
            s, d = of_timers[number][2], of_timers[number][1]
        elif s >= 0:
            d = next((at for at, desc in enumerate(before.descs) if before.is_open(at) and desc.socket == s), -1)
        elif d >= 0:
            s = before.descs[d].socket
        elif g >= 0 and kind != "exit":
            s, d = named.get(g, (-1, -1))
        if g >= 0 and (s, d) != (-1, -1):
            named[g] = s, d
        expected.append((g, s, d))
    whose = run_of(recording).owners
    assert [*zip(whose.goroutines, whose.sockets, whose.descriptors)][: len(expected)] == expected
