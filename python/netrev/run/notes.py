"""Facts that no cell shows, gathered in one pass over a recording's steps and their changes. The notes say which
goroutine has held which reference since when, which goroutine set which deadline or took which event, and how long
goroutines paused. This is nrdb's own analysis. Two functions are prepared for each step: one notes the step, the other
inspects the state. A recording may have a million steps, so equal lines near each other share the two functions.

A function for each kind of step (`NOTES`) gets the notes and a step's arguments, and returns the function that is
called at each step with the same line; that one's arguments are the step's number as an integer and as text. Each
function looks up the cells that it needs by step and cell (`12 lock 0`). `changed_aspects` in
crates/nr_rev/specs/Aspect.antt says which cells a kind may change. `parkcommit`, a deadline and an evict neither make a
word ready nor consume its readiness."""

from __future__ import annotations

from collections import deque
from collections.abc import Callable, Mapping
from functools import lru_cache
from types import MappingProxyType
from typing import Any

from netrev.recording.notes import (
    AT,
    CLOSING,
    IDLE,
    MANY,
    PARKED,
    QUEUED,
    SIDES,
    TIMED_OUT,
    By,
    Due,
    ErrorEvent,
    Goroutine,
    GoroutineStatus,
    Hold,
    Passing,
    Setting,
    Statuses,
    Taking,
    Timeout,
    Use,
    Wait,
    code_of,
    new,
)
from netrev.recording.recording import Recording
from netrev.recording.step_changes import RecordedChanges, StepChanges
from netrev.system.garbage_collection import without_collections
from netrev.text.vocabulary import OF_A_GOROUTINE

from .changes import changes_of

Note = Callable[[int, str], None]  # called with the step's number as an integer and as text


def spawned(notes: Notes) -> Note:
    def note(step: int, number: str) -> None:
        notes.goroutine(notes.goroutine_count).is_made(step, notes.statuses[IDLE])
        notes.goroutine_count += 1

    return note


def ticked(notes: Notes, time: int) -> Note:
    def note(step: int, number: str) -> None:
        notes.clock = time

    return note


def stepped(notes: Notes, g: int, *_: object) -> Note:
    """Notes that the step may give a goroutine a new status."""
    goroutine, value_of, cell, moves = notes.goroutine(g), notes.values.get, f" gor {g}", notes.moves

    def note(step: int, number: str) -> None:
        if status := value_of(number + cell):
            moves(goroutine, step, status)

    return note


def released(notes: Notes, g: int) -> Note:
    """Notes that the step may wake the first goroutine in a queue of the socket."""
    goroutine, own = notes.goroutine(g), stepped(notes, g)

    def note(step: int, number: str) -> None:
        s = goroutine.status.number
        own(step, number)
        for side in "rw":
            wake(notes, notes.statuses[f"{QUEUED} {s} {side}"], step, number)

    return note


def wake(notes: Notes, status: GoroutineStatus, step: int, number: str) -> None:
    """Notes that the first of the goroutines that sleep in a status may have been woken."""
    for goroutine in status.sleepers:
        if shown := notes.values.get(number + goroutine.cell):
            notes.is_woken(goroutine, step, shown)
        break


def waking(notes: Notes, d: int) -> Note:
    """Notes that the step may wake a goroutine that is parked on a descriptor."""
    if d not in notes.wakers:
        notes.wakers[d] = _waking(notes, d)
    return notes.wakers[d]


def _waking(notes: Notes, d: int) -> Note:
    reading, writing = (notes.statuses[f"{PARKED} {d} {side}"] for side in "rw")
    value_of, cell, infos = notes.values.get, f" info {d}", notes.infos

    def note(step: int, number: str) -> None:
        if reading.sleepers:
            wake(notes, reading, step, number)
        if writing.sleepers:
            wake(notes, writing, step, number)
        if shown := value_of(number + cell):
            infos[d] = int(shown)

    return note


def opened(notes: Notes, g: int, s: int) -> Note:
    """Notes a new descriptor. The descriptor has the number of the descriptor freed last, or a new number."""
    value_of = notes.values.get

    def note(step: int, number: str) -> None:
        d = notes.free.pop() if notes.free else len(notes.use_of)
        if tag := value_of(f"{number} fdseq {d}"):
            notes.tags[d] = int(tag)
        if info := value_of(f"{number} info {d}"):
            notes.infos[d] = int(info)
        use = Use(d, s, step, notes.tags[d])
        if d in notes.use_of:
            notes.socket_before[use] = notes.use_of[d].socket
        notes.uses.append(use)
        notes.use_of[d] = use
        notes.open_tags[d] = use.tag
        for ready in notes.ready.values():
            ready.discard(d)

    return note


def closed(notes: Notes, g: int, d: int) -> Note:
    value_of, cell = notes.values.get, f" fdseq {d}"

    def note(step: int, number: str) -> None:
        notes.open_tags.pop(d, None)
        notes.free.append(d)
        notes.use_of[d].closed = step
        if shown := value_of(number + cell):
            notes.tags[d] = int(shown)

    return note


def reset(notes: Notes, g: int, d: int, side: str) -> Note:
    goroutine, infos, ready = notes.goroutine(g), notes.infos, notes.ready[side]

    def note(step: int, number: str) -> None:
        notes.code = 0
        if infos[d] and notes.ends(step, g, d, side):
            return
        goroutine.reset = step
        if d in ready:
            taking = taken(notes, step, number, g, d, side)
            if side == "r":
                notes.use_of[d].thrown.append(taking)

    return note


def began_to_wait(notes: Notes, g: int, d: int, side: str) -> Note:
    goroutine, value_of, own, moves = notes.goroutine(g), notes.values.get, f" gor {g}", notes.moves
    infos, use_of, at = notes.infos, notes.use_of, AT[side]

    def note(step: int, number: str) -> None:
        notes.code = 0
        if not (infos[d] and notes.ends(step, g, d, side)):
            use_of[d].waits[at].append(new(Wait, (step, g, goroutine.tried)))
        if status := value_of(number + own):
            moves(goroutine, step, status)

    return note


def took(notes: Notes, g: int) -> Note:
    """Notes that a goroutine arms its wait or wakes. If its wait word was ready, the goroutine consumes that."""
    goroutine, value_of, own, moves, ready = notes.goroutine(g), notes.values.get, f" gor {g}", notes.moves, notes.ready

    def note(step: int, number: str) -> None:
        before = goroutine.status
        if before.number in ready[before.side]:
            taken(notes, step, number, g, before.number, before.side)
        if status := value_of(number + own):
            moves(goroutine, step, status)

    return note


def taken(notes: Notes, step: int, number: str, g: int, d: int, side: str) -> Taking:
    """Notes that a goroutine consumes a descriptor's readiness."""
    if f"{number} {side}g {d}" in notes.values:
        notes.ready[side].discard(d)
    use, at = notes.use_of[d], AT[side]
    taking: Taking = new(Taking, (step, g, use.last_events[at]))
    use.taken[at] = taking
    return taking


def looked(notes: Notes, g: int) -> Note:
    """Notes that a goroutine checks why it was woken."""
    goroutine, own = notes.goroutine(g), stepped(notes, g)

    def note(step: int, number: str) -> None:
        notes.ends(step, g, goroutine.status.number, goroutine.status.side)
        own(step, number)

    return note


def set_deadline(notes: Notes, g: int, d: int, mode: str, time: int) -> Note:
    sides, wakes, infos, use_of = SIDES[mode], waking(notes, d), notes.infos, notes.use_of
    other = SIDES["w" if mode == "r" else "r"] if mode != "rw" else ()

    def note(step: int, number: str) -> None:
        if infos[d] & CLOSING:
            return
        use = use_of[d]
        setting = new(Setting, (step, g, mode, time))
        use.settings.append(setting)
        due = new(Due, (setting, None))
        for at in sides:
            use.dues[at] = due
            if time < 0:
                use.passings[at].append(Passing(step, "setdeadline", due))
        for at in other:
            before = use.dues[at]
            if before and before.moved is None:
                use.dues[at] = Due(before.setting, setting)
        if time < 0 or infos[d]:  # (or a deadline that has passed is moved)
            wakes(step, number)

    return note


def evicted(notes: Notes, g: int, d: int) -> Note:
    wakes = waking(notes, d)

    def note(step: int, number: str) -> None:
        notes.evicted[notes.use_of[d].socket] = step
        wakes(step, number)

    return note


def came(notes: Notes, d: int, tag: int, mode: str, error: int) -> Note:
    """Notes an event. (Little can be prepared for an event, because each use of a descriptor has its own tag.)"""
    comes, open_tags = coming(notes, d, mode, error), notes.open_tags

    def note(step: int, number: str) -> None:
        if open_tags.get(d) == tag:
            comes(step, number)
        else:
            notes.stale[d] = step, tag

    return note


def coming(notes: Notes, d: int, mode: str, error: int) -> Note:
    """The function that notes an event, unless the event is dropped."""
    note = notes.comings.get((d, mode, error))
    if note is None:
        note = notes.comings[d, mode, error] = _coming(notes, d, mode, error)
    return note


def _coming(notes: Notes, d: int, mode: str, error: int) -> Note:
    wakes, value_of, sides, use_of = waking(notes, d), notes.values.get, SIDES[mode], notes.use_of
    words = [(f" {side}g {d}", notes.ready[side]) for side in mode]

    def note(step: int, number: str) -> None:
        use = use_of[d]
        if error:
            use.errors.append(ErrorEvent(step, mode))
        for at in sides:
            use.last_events[at] = step
        for word, ready in words:
            if value_of(number + word) == "ready":
                ready.add(d)
        wakes(step, number)

    return note


@lru_cache(maxsize=1_024)
def cell_and_value(line: str) -> tuple[str, int, str]:
    """The name of a cell, its number, and its value: `info 0 = 8`. The results are cached, because many `fire` steps
    make the same changes."""
    cell, _, value = line.partition(" = ")
    name, _, which = cell.partition(" ")
    return name, int(which or -1), value


def fired(notes: Notes, i: int) -> Note:
    """Notes that a deadline passes. The changed cell shows which deadline it is."""

    def note(step: int, number: str) -> None:
        for line in notes.fired(number):
            name, which, value = cell_and_value(line)
            if name == "info":
                notes.infos[which] = int(value)
            elif name == "gor":
                notes.is_woken(notes.goroutines[which], step, value)
            elif name in ("rd", "wd"):
                use, at = notes.use_of[which], AT[name[0]]
                use.passings[at].append(new(Passing, (step, "fire", use.dues[at])))

    return note


# the fields of a lock word: low bits are the two locks, high bits count the waiting readers and writers
REFERENCES = (2**20 - 1) << 3
WAITING = 1 << 23


def arrived(notes: Notes, s: int, digits: str) -> Note:
    inputs, arrivals, value_of, cell = notes.inputs, notes.arrived, notes.values.get, f" in {s}"

    def note(step: int, number: str) -> None:
        arrivals[s] = step
        if shown := value_of(number + cell):
            inputs[s] = int(shown)

    return note


def drained(notes: Notes, s: int, count: int) -> Note:
    outputs, value_of, cell = notes.outputs, notes.values.get, f" out {s}"

    def note(step: int, number: str) -> None:
        if shown := value_of(number + cell):
            outputs[s] = int(shown)

    return note


def peer_closed(notes: Notes, s: int) -> Note:
    def note(step: int, number: str) -> None:
        notes.peer[s] = step

    return note


def read(notes: Notes, g: int, s: int, most: int) -> Note:
    goroutine, inputs, value_of, cell = notes.goroutine(g), notes.inputs, notes.values.get, f" in {s}"
    again, peer = notes.again["r"], notes.peer

    def note(step: int, number: str) -> None:
        goroutine.tried = step
        notes.moved = 0
        if shown := value_of(number + cell):
            notes.moved = inputs[s] - int(shown)
            inputs[s] = int(shown)
        elif s not in peer:
            again[s] = step

    return note


def written(notes: Notes, g: int, s: int, digits: str) -> Note:
    goroutine, outputs, value_of, cell = notes.goroutine(g), notes.outputs, notes.values.get, f" out {s}"
    again = notes.again["w"]

    def note(step: int, number: str) -> None:
        goroutine.tried = step
        notes.moved = 0
        if shown := value_of(number + cell):
            notes.moved = int(shown) - outputs.get(s, 0)
            outputs[s] = int(shown)
        if s in notes.shut:
            notes.refused_writes.append((step, g, s))
        elif not notes.moved:
            again[s] = step

    return note


def shut(notes: Notes, g: int, s: int) -> Note:
    def note(step: int, number: str) -> None:
        notes.shut.setdefault(s, By(step, g))

    return note


def referred(kind: str) -> Callable[..., Note]:
    """Makes the function for steps that may take a reference. The function notes whether the lock word counts one more
    reference, and, for a side, whether the step also took the lock."""

    def of(notes: Notes, g: int, s: int, side: str = "") -> Note:
        goroutine, locks, value_of, cell = notes.goroutine(g), notes.locks, notes.values.get, f" lock {s}"
        holds, own, may_move = notes.holds.setdefault(s, []), f" gor {g}", kind != "incref"

        def note(step: int, number: str) -> None:
            if shown := value_of(number + cell):
                before = locks.get(s, 0)
                word = locks[s] = int(shown)
                if word & REFERENCES > before & REFERENCES:
                    holds.append(new(Hold, (g, step, kind, side)))
                    goroutine.held += 1
                    if kind == "increfclose":
                        notes.closer[s] = By(step, g)
            if may_move and (status := value_of(number + own)):
                notes.moves(goroutine, step, status)

        return note

    return of


def given(notes: Notes, g: int, s: int, side: str = "") -> Note:
    """Notes that a goroutine gives up a reference."""
    locks, value_of, cell, holds = notes.locks, notes.values.get, f" lock {s}", notes.holds.setdefault(s, [])
    goroutine, own, longest = notes.goroutine(g), f" gor {g}", notes.longest_holds

    def note(step: int, number: str) -> None:
        before = locks[s]
        if shown := value_of(number + cell):
            locks[s] = int(shown)
        hold = holds[-1]
        if hold.goroutine == g and hold.side == side:
            holds.pop()
            goroutine.held -= 1
        else:
            hold = fitting(holds, g, side)
            holds.remove(hold)
            notes.goroutines[hold.goroutine].held -= 1
        _, since, kind, _ = hold
        if step - since > longest.get(kind, -1):
            longest[kind] = step - since
        if side and before >= WAITING and (status := value_of(number + own)):
            notes.moves(goroutine, step, status)

    return note


def fitting(holds: list[Hold], g: int, side: str) -> Hold:
    """The reference that a goroutine gives up: its own last reference of this kind. If it has none, the reference is
    another goroutine's, because Go only counts references."""
    of_the_sort = [hold for hold in holds if hold.side == side]
    mine = [hold for hold in of_the_sort if hold.goroutine == g]
    return (mine or of_the_sort or holds)[-1]


NOTES: dict[str, Callable[..., Note]] = {
    "spawn": spawned,
    "exit": stepped,
    "arrive": arrived,
    "peerclose": peer_closed,
    "sysread": read,
    "syswrite": written,
    "drain": drained,
    "closewrite": shut,
    **{kind: referred(kind) for kind in ("incref", "increfclose", "rwlock")},
    "decref": given,
    "rwunlock": given,
    "acquire": stepped,
    "release": released,
    "pollopen": opened,
    "pollclose": closed,
    "pollreset": reset,
    "waitbegin": began_to_wait,
    "blockarm": took,
    "blockcheck": stepped,
    "parkcommit": stepped,
    "blockswap": took,
    "waitcheck": looked,
    "setdeadline": set_deadline,
    "evict": evicted,
    "pollevent": came,
    "fire": fired,
    "tick": ticked,
}


Look = Callable[[int], None]  # called with the step's number
Looks = Mapping[str, Callable[..., Look]]  # makes such a function for each kind, from the notes and a step's arguments
Row = tuple[Goroutine, Note | None, Look | None]
CLOSED = 1  # the bit of a lock word for a closed socket
MOST_CHANGED = 1_024  # the maximum number of bytes in a firing's changes, which are a dozen lines at most


class Now(dict[str, str]):
    """The cells after the last step, each read once."""

    def __init__(self, changes: RecordedChanges, position: int) -> None:
        super().__init__()
        self._changes, self._position = changes, position

    def __missing__(self, cell: str) -> str:
        value = self[cell] = self._changes.value(cell, self._position)
        return value


class Notes:
    """The notes of the steps so far; at the end, of all steps."""

    def __init__(self, recording: Recording, looks: Looks = MappingProxyType({})) -> None:
        self.recording, self.changes, self._looks = recording, changes_of(recording), looks
        # the step, the number of bytes that the step moved, and the code that it found
        self.step = self.moved = self.code = 0
        self.values: dict[str, str] = {}  # the changes made by the steps nearby: `12 lock 0`, with the value
        self._lines, self._fired_at = "", 0  # the lines of those changes, and the place of the last firing in them
        self.clock = 0
        self.statuses = Statuses()
        self.pauses = self.statuses.pauses
        self.goroutines: dict[int, Goroutine] = {}
        self.goroutine(0).is_made(0, self.statuses[IDLE])
        self.goroutine_count = 1  # the number of goroutines
        self._turn = NOBODY  # the goroutine that made the last step
        self.wakers: dict[int, Note] = {}  # for descriptors, the functions that note that a goroutine is woken there
        # the functions that note events, keyed by the event's descriptor, mode and error
        self.comings: dict[tuple[int, str, int], Note] = {}
        # for sockets: the lock words, the bytes in the buffers, the holders, the steps that closed the socket or its
        # write side, and the steps at which bytes came, the peer closed, and an evict happened
        self.locks: dict[int, int] = {}
        self.inputs: dict[int, int] = {}
        self.outputs: dict[int, int] = {}
        self.holds: dict[int, list[Hold]] = {}
        self.closer: dict[int, By] = {}
        self.shut: dict[int, By] = {}
        self.arrived: dict[int, int] = {}
        # for each side, the last try whose answer was EAGAIN
        self.again: dict[str, dict[int, int]] = {"r": {}, "w": {}}
        self.peer: dict[int, int] = {}
        self.evicted: dict[int, int] = {}
        # for descriptors: their tags and notes, all uses, the tags of open descriptors, the descriptors that are ready
        # for reading, and the last event that was dropped, with its tag
        self.tags: dict[int, int] = {}
        self.infos: dict[int, int] = {}
        self.uses: list[Use] = []
        self.use_of: dict[int, Use] = {}  # the last use of each descriptor
        self.socket_before: dict[Use, int] = {}  # the socket of the previous use
        self.open_tags: dict[int, int] = {}
        self.free: list[int] = []  # the free descriptors, with the one freed last at the end
        self.ready: dict[str, set[int]] = {"r": set(), "w": set()}  # the descriptors that are ready, for each side
        self.stale: dict[int, tuple[int, int]] = {}
        self.timeouts: list[Timeout] = []
        # the writes after a CloseWrite: the step, the goroutine, and the socket
        self.refused_writes: list[tuple[int, int, int]] = []
        self.longest_holds: dict[str, int] = {}  # the longest finished hold of each kind
        self._has_answers, self._rows = recording.has_answers, recording.rows(self._row)
        self._go_through()
        self.goroutines = dict(sorted(self.goroutines.items()))
        self.now = Now(self.changes, self.step)

    def _go_through(self) -> None:
        try:
            with without_collections():
                for changes in self.changes.by_steps():
                    self._holds(changes)
                    self._note_steps(range(changes.first, changes.end))
            self._turn.last = self.step
        except (KeyError, IndexError, ValueError):
            deque(self.changes.texts(), maxlen=0)  # (raises IncompleteChangesError if a line is malformed)
            raise
        self.values.clear()
        self._lines = ""

    def _note_steps(self, steps: range) -> None:
        """Notes these steps. Once enough pauses have been reported, consecutive steps of a goroutine report none."""
        turn, is_enough = self._turn, self.pauses[IDLE].count >= MANY
        for step, number, (goroutine, note, look) in zip(steps, map(str, steps), self._rows):
            if goroutine is not turn:
                turn.last = step - 1
                if goroutine.held and goroutine.status.is_idle:
                    self._pauses(goroutine, step)
                goroutine.last = step
                turn = goroutine if is_enough else NOBODY
            if note is not None:
                note(step, number)
            if look is not None:
                look(step)
        self.step, self._turn = steps.stop - 1, turn

    def _pauses(self, goroutine: Goroutine, step: int) -> None:
        """Records the pause before a step of an idle goroutine that holds a reference, if the pause is long enough to
        count."""
        idle, pause = self.pauses[IDLE], step - max(goroutine.last, goroutine.since)
        if pause > idle.enough:
            idle.ends(pause)

    def _holds(self, changes: StepChanges) -> None:
        """Stores the changes made by the next steps in the same dictionary as before, because callers keep a reference
        to it."""
        self.values.clear()
        self.values.update(changes.cells())
        self._lines, self._fired_at = changes.text, 0

    def _row(self, values: list[Any]) -> Row:
        """A row for a step's array: the step's goroutine, if any, the function that notes the step, and the function
        that inspects the state."""
        kind, *arguments = values[:-1] if self._has_answers else values
        goroutine = self.goroutine(arguments[0]) if kind in OF_A_GOROUTINE else NOBODY
        note, look = NOTES.get(kind), self._looks.get(kind)
        return goroutine, note and note(self, *arguments), look and look(self, *arguments)

    def goroutine(self, g: int) -> Goroutine:
        """A goroutine, created if it isn't known."""
        found = self.goroutines.get(g)
        if found is None:
            found = self.goroutines[g] = Goroutine(g)
        return found

    def fired(self, number: str) -> list[str]:
        """The lines of a firing's changes, each without the step's number. The first line, in which the number of
        firings falls by one, is left out."""
        before = f"\n{number} "
        at = self._fired_at = self._lines.index(f"{before}firings", self._fired_at)
        _, _, *lines = self._lines[at : at + MOST_CHANGED].split(before)
        if lines:
            lines[-1] = lines[-1].partition("\n")[0]
        return lines

    # the effects of a step on goroutines

    def moves(self, goroutine: Goroutine, step: int, shown: str) -> None:
        """Gives a goroutine a new status after a step of its own, which ends the goroutine's pause. A goroutine that
        isn't idle can't make any other step."""
        before = goroutine.status
        status = goroutine.status = self.statuses[shown]
        if step - goroutine.since > before.pauses.enough:
            before.pauses.ends(step - goroutine.since)
        goroutine.since = step
        if status.is_asleep:
            status.sleepers[goroutine] = None

    def is_woken(self, goroutine: Goroutine, step: int, shown: str) -> None:
        """Gives a sleeping goroutine a new status after another goroutine's step."""
        del goroutine.status.sleepers[goroutine]
        goroutine.status, goroutine.since = self.statuses[shown], step

    def ends(self, step: int, g: int, d: int, side: str) -> bool:
        """Whether a call ends with the code of its side."""
        info = self.infos[d]
        self.code = code_of(info, side) if info else 0
        if self.code == TIMED_OUT:
            use, at = self.use_of[d], AT[side]
            due = use.dues[at]
            assert due  # (the deadline has passed)
            self.timeouts.append(Timeout(step, g, d, side, use.passings[at][-1], due))
        return self.code > 0

    # the objects after the last step

    def status(self, g: int) -> str:
        """The status of a goroutine."""
        return self.goroutines[g].status.partition(" ")[0]

    def is_closed(self, s: int) -> bool:
        """Whether a socket is closed."""
        return bool(self.locks.get(s, 0) & CLOSED)


NOBODY = Goroutine(-1)  # the actors of the network's and the clock's steps
