"""Steps that bring an empty machine to the noted state of a socket, so that a recording can begin in the middle of a
run.

These states can be reached:

- Any lock word whose holders are known: a goroutine that has a lock or a reference releases it later in the log, or is
  inside the wait of that side. Goroutines that wait for a lock are queued in the order in which they came.
- Each stage of a wait, and each value of the wait word: nil, ready, wait or the goroutine. A woken goroutine first
  parks, and then an event, a past deadline or the close wakes it.
- Future deadlines, deadlines that passed while their timers run, and deadlines set in the past; also one timer for both
  sides.
- Go's sequences and tags may be in the millions, but the machine counts its own from the beginning. So an event names
  the use of its descriptor, and a firing names its timer, and neither has Go's number.
- Bytes aren't known. The input is empty, because bytes arrive just before the read that gets them; the output is full
  if a goroutine waits to write there, or if a write finds it full later.

A socket is left out, with the reason, if one of these holds:

- A goroutine is about to pass one of the socket's locks to another goroutine.
- A goroutine has one of the socket's locks or references, and the log doesn't show the release.
- One of the socket's timers is due and hasn't run.
- The steps don't lead to the noted state. The model in Python runs each socket's steps, and the resulting state is
  compared with the whole note.
"""

from __future__ import annotations

from collections.abc import Iterator
from typing import Any, NamedTuple

from netrev.errors import NetrevError
from netrev.machine.in_place import Machine
from netrev.machine.lockword import FULL
from netrev.machine.machine import SIDES, StepRefusedError
from netrev.text.contents import GREATEST_TIME, Limits
from netrev.text.vocabulary import KINDS

from .notes import (  # fmt: skip
    ARMED,
    CHECKING,
    CLOSING,
    ENTERING,
    EVENT_ERROR,
    GOROUTINE,
    NIL,
    PARKED,
    PARKING,
    READING,
    READY,
    REFERENCES,
    SHUT,
    SWAPPING,
    UNQUEUED,
    WAIT,
    WAITING,
    WRITING,
    Note,
)

NOBODY = 0  # the goroutine for steps that no known goroutine made
BOTH = (READING, WRITING)
SOON = (1, 2)  # nanoseconds
PLACES = {
    ENTERING: "entering",
    ARMED: "armed",
    PARKING: "parking",
    PARKED: "parked",
    SWAPPING: "swapping",
    CHECKING: "checking",
}


class UnreachableStateError(NetrevError):
    """The steps can't lead there; the message is the reason."""


class Lead(NamedTuple):
    """A step that leads to the state: its kind, the goroutine by Go's number, the other arguments, the answer, and the
    stack. A deadline is a time on Go's clock."""

    kind: str
    goroutine: int
    arguments: tuple[Any, ...]
    answer: tuple[Any, ...]
    stack: int


DONE, YES, WAITS, NO = ("done",), ("yes",), ("wait",), ("no",)
NOTHING_FOUND = ("code", 0)


class Leading:
    """Builds the steps that lead to a note."""

    def __init__(self, note: Note, capacities: tuple[int, int], is_full: bool) -> None:
        self.note = note
        self.capacities = capacities
        self.is_full = is_full
        self.leads: list[Lead] = []
        self.deadlines = [0, 0]  # as the steps so far set them

    def add(self, kind: str, goroutine: int, *arguments: Any, answer: tuple[Any, ...] = DONE, stack: int = 0) -> None:
        self.leads.append(Lead(kind, goroutine, arguments, answer, stack))

    def all(self) -> list[Lead]:
        """The steps; raises UnreachableStateError if none lead to the note."""
        note = self.note
        flags = note.flags
        if flags is None or any(holder.place not in PLACES for holder in note.inside.values()):
            raise UnreachableStateError("its note is cut short or damaged")
        if note.is_in_motion or flags & UNQUEUED and any(note.field(waiting) for waiting in WAITING):
            raise UnreachableStateError("a goroutine passed its lock on to another")
        if note.word & 1 and not note.field(REFERENCES):
            raise UnreachableStateError("it was being closed")
        self.add("sockopen", NOBODY, *self.capacities, answer=("number", 0))
        self.add("pollopen", NOBODY, answer=("number", 0))
        closer = self.locks()
        self.queue()
        for side in BOTH:
            self.enter(side)
        for side in BOTH:
            self.wake(side)
        self.passed()
        self.set()
        self.events(bool(flags & EVENT_ERROR))
        if flags & SHUT:
            self.add("closewrite", NOBODY)
        if note.word & 1:
            self.add("increfclose", closer, answer=YES)
            if closer == NOBODY:
                self.add("decref", NOBODY, answer=("notlast",))
        if flags & CLOSING:
            self.add("evict", closer)
        for side in BOTH:
            self.check(side)
        return self.leads

    def locks(self) -> int:
        """Gives goroutines their references and locks; returns the goroutine that will close the socket."""
        note = self.note
        references = note.references.copy()
        own = note.field(REFERENCES) - sum(note.is_taken(side) for side in BOTH)
        if own != references.total():
            raise UnreachableStateError("a goroutine has a reference to it that it doesn't give up in the log")
        closer = NOBODY
        if note.word & 1 and references[note.evicter]:
            closer = note.evicter
            references[closer] -= 1
        for goroutine in references.elements():
            self.add("incref", goroutine, answer=YES)
        if self.is_full and not note.waits_to_write():
            self.fill(NOBODY)
        for side in BOTH:
            if note.is_taken(side):
                self.lock(side)
        return closer

    def lock(self, side: int) -> None:
        note, mode = self.note, SIDES[side]
        inside = note.inside.get(side)
        holder = note.holders.get(side) or (inside.goroutine if inside else NOBODY)
        if holder == NOBODY or inside and inside.goroutine != holder:
            raise UnreachableStateError("a goroutine has a lock of it that it doesn't give up in the log")
        stack = inside.stack if inside else 0
        self.add("rwlock", holder, mode, answer=YES, stack=stack)
        if inside:
            self.add("pollreset", holder, mode, answer=NOTHING_FOUND, stack=stack)
            if side == READING:
                self.add("sysread", holder, 1, answer=("again",), stack=stack)
            else:
                self.fill(holder, stack)

    def fill(self, goroutine: int, stack: int = 0) -> None:
        """Fills the output. It must be full: a goroutine waits to write, or a later write finds no room."""
        self.add("syswrite", goroutine, self.capacities[1], answer=("put", self.capacities[1]), stack=stack)
        if goroutine != NOBODY:
            self.add("syswrite", goroutine, 1, answer=("again",), stack=stack)

    def queue(self) -> None:
        """Puts goroutines into the queue for a lock."""
        for goroutine, side, stack in self.note.queued:
            self.add("rwlock", goroutine, SIDES[side], answer=WAITS, stack=stack)
            self.add("acquire", goroutine, answer=WAITS, stack=stack)

    def enter(self, side: int) -> None:
        """Puts a goroutine inside the wait of a side; a woken goroutine has to park first."""
        if side not in self.note.inside:
            return
        goroutine, place, stack = self.note.inside[side]
        self.add("waitbegin", goroutine, SIDES[side], answer=NOTHING_FOUND, stack=stack)
        for kind, answer, behind in (
            ("blockarm", WAITS, ARMED), ("blockcheck", NOTHING_FOUND, PARKING), ("parkcommit", YES, PARKED)
        ):  # fmt: skip
            if place >= behind:
                self.add(kind, goroutine, answer=answer, stack=stack)

    def wake(self, side: int) -> None:
        """Wakes a goroutine that isn't ready: sets a deadline in the past, unless the close wakes the goroutine."""
        inside, word = self.note.inside.get(side), self.note.word_of(side)
        is_woken = inside and (inside.place == CHECKING or inside.place != ENTERING and word == NIL)
        if is_woken and not (self.note.flags or 0) & CLOSING:
            self.add("setdeadline", NOBODY, SIDES[side], -1)
            self.deadlines[side] = -1

    def check(self, side: int) -> None:
        """If a woken goroutine is checking why it was woken, makes the `blockswap` before that check."""
        inside = self.note.inside.get(side)
        if inside and inside.place == CHECKING:
            self.add("blockswap", inside.goroutine, answer=NO, stack=inside.stack)

    def passed(self) -> None:
        """Sets deadlines that have passed and whose timers are still running."""
        sides = [side for side in BOTH if self.note.deadlines[side] < 0 and self.note.runs(side)]
        for side, soon in zip(sides, SOON):
            self.add("soon", NOBODY, SIDES[side], soon)
        for side in sides:
            self.add("passes", NOBODY, side)
            self.deadlines[side] = -1

    def set(self) -> None:
        """Sets all other deadlines."""
        read, write = wanted = self.note.deadlines
        if read == write > 0 and not self.note.runs(WRITING):
            self.add("setdeadline", NOBODY, "rw", read)
            return
        for side in BOTH:
            if self.deadlines[side] != wanted[side]:
                self.add("setdeadline", NOBODY, SIDES[side], wanted[side])

    def events(self, is_error: bool) -> None:
        """Adds the events that came; the last one was an error if `is_error` is true."""
        sides = "".join(SIDES[side] for side in BOTH if self.note.word_of(side) == READY)
        if sides:
            self.add("pollevent", NOBODY, sides, int(is_error))
        elif is_error:
            if WRITING in self.note.inside:
                raise UnreachableStateError("a goroutine waits to write there after an error")
            self.add("pollevent", NOBODY, SIDES[WRITING], 1)
            self.add("pollreset", NOBODY, SIDES[WRITING], answer=NOTHING_FOUND)


def spelled(lead: Lead, g: int, s: int, d: int, tag: int) -> tuple[Any, ...]:
    """A step in the machine's form, with the recording's numbers."""
    known = {"g": g, "s": s, "d": d, "tag": tag}
    others = iter(lead.arguments)
    return (lead.kind, *(known[name] if name in known else next(others) for name in KINDS[lead.kind].arguments))


def passing(leads: list[Lead]) -> int:
    """The nanoseconds by which these steps advance the clock to make deadlines pass."""
    return max((lead.arguments[1] for lead in leads if lead.kind == "soon"), default=0)


def by_the_model(note: Note, leads: list[Lead], begin: int, buffer: int) -> None:
    """Runs the steps, and compares the resulting state with the note; raises UnreachableStateError if they differ."""
    numbers = {NOBODY: 0}
    machine = Machine(Limits(FULL, 1, 1, buffer))
    try:
        for step, answer in _steps(leads, numbers, begin):
            while step[0] != "spawn" and len(machine.goroutines) < len(numbers):
                machine.step(("spawn",))
            if machine.step(step) != answer:
                raise UnreachableStateError(f"the model answers a {step[0]} otherwise")
    except StepRefusedError as refused:
        raise UnreachableStateError(f"the model refuses a step for reason {refused.reason}") from None
    if (difference := _difference(note, machine, numbers, begin)) is not None:
        raise UnreachableStateError(f"the model comes to another {difference}")


def _steps(leads: list[Lead], numbers: dict[int, int], begin: int) -> Iterator[tuple[tuple[Any, ...], tuple[Any, ...]]]:
    """The steps for the model, for a single socket."""
    clock = 0
    for lead in leads:
        g = numbers.setdefault(lead.goroutine, len(numbers))
        if lead.kind == "soon":
            clock = max(clock, lead.arguments[1])
            yield ("setdeadline", g, 0, *lead.arguments), DONE
        elif lead.kind == "passes":
            yield ("tick", clock), DONE
            yield ("pop",), DONE
            yield ("fire", 0), DONE
        elif lead.kind == "setdeadline":
            mode, deadline = lead.arguments
            yield ("setdeadline", g, 0, mode, relative(deadline, begin, clock)), DONE
        elif lead.kind == "syswrite":
            yield ("syswrite", g, 0, bytes(lead.arguments[0])), lead.answer
        else:
            yield spelled(lead, g, 0, 0, 1), lead.answer


def relative(deadline: int, begin: int, clock: int) -> int:
    """The argument of a step for a deadline in Go's time. Raises UnreachableStateError if the deadline is no longer in
    the future."""
    if deadline <= 0 or deadline == GREATEST_TIME:
        return deadline
    time = deadline - begin - clock
    if time <= 0:
        raise UnreachableStateError("its timer was due")
    return time


def _difference(note: Note, machine: Machine, numbers: dict[int, int], begin: int) -> str | None:
    """The differences between the model's state and the note, as cells; None if they are equal."""
    socket, descriptor, flags = machine.sockets[0], machine.descs[0], note.flags or 0
    words: dict[int, Any] = {NIL: "nil", READY: "ready", WAIT: "wait"}
    inside = {side: holder._replace(goroutine=numbers[holder.goroutine]) for side, holder in note.inside.items()}
    parked = {side: holder.goroutine for side, holder in inside.items()}
    expected: dict[str, tuple[object, object]] = {
        "lock": (socket.lock.number, note.word),
        "semaphore": (socket.counts, note.counts),
        "queue": (socket.queues, tuple(tuple(numbers[holder.goroutine] for holder in note.queued if holder.side == side) for side in BOTH)),
        "word": (descriptor.words, tuple(words.get(note.word_of(side), parked.get(side)) for side in BOTH)),
        "mark of closing": (descriptor.closing, bool(flags & CLOSING)),
        "event error": (descriptor.error, bool(flags & EVENT_ERROR)),
        "deadline": (descriptor.deadlines, tuple(max(1, holder - begin) if 0 < holder < GREATEST_TIME else holder for holder in note.deadlines)),
        "timer": (descriptor.running, tuple(note.runs(side) for side in BOTH)),
        "shut side": (socket.shut, bool(flags & SHUT)),
    }  # fmt: skip
    for name, (found, wanted) in expected.items():
        if found != wanted:
            return name
    for side, holder in inside.items():
        place = SWAPPING if holder.place == PARKED and note.word_of(side) != GOROUTINE else holder.place
        if machine.goroutines[holder.goroutine] != (PLACES[place], 0, SIDES[side]):
            return "place of a goroutine"
    return None


def led(note: Note, capacities: tuple[int, int], is_full: bool, begin: int) -> list[Lead]:
    """The steps that lead to a note, run by the model; raises UnreachableStateError if none do."""
    leads = Leading(note, capacities, is_full).all()
    by_the_model(note, leads, begin, max(capacities))
    return leads
