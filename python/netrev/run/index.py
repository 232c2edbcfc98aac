"""One index of a recorded run: who made a step, on which socket and in which call, and who holds what. Each part is
read once, when it is first needed, because a recording may have a million steps."""

import sys
from bisect import bisect_right
from collections import Counter, defaultdict
from collections.abc import Collection, Iterable, Iterator, Sequence
from contextlib import suppress
from functools import cached_property, lru_cache
from itertools import chain
from operator import attrgetter

from netrev.recording.call import CLOSE, CLOSE_WRITE, OPEN, Call, Outcome
from netrev.recording.recording import Recording, Step
from netrev.recording.waits import Name
from netrev.recording.where import SourceCall, Stack
from netrev.text.vocabulary import ObjectKind

from .calls import Book
from .changes import changes_of
from .notes import Notes
from .searches import Lock, Reference, holders_of, last_steps, takings
from .step_owners import Place, StepOwners

READING, WRITING = ("Read", "WaitRead"), ("Write", "WaitWrite")
MOVING = ("Read", "Write")
FIRST, END = attrgetter("first"), attrgetter("last")
ACCEPTS = ("internal/poll.(*FD).Accept",)
COLUMNS = {ObjectKind.GOROUTINE: "goroutines", ObjectKind.SOCKET: "sockets", ObjectKind.DESCRIPTOR: "descriptors"}


class RunIndex:
    """The index of a recording. Lists of calls are in the order of first steps."""

    def __init__(self, recording: Recording) -> None:
        self.recording = recording
        self._ended: dict[tuple[int, str], list[Call]] = {}  # by side, in the order of their ends
        self._closing: dict[tuple[int, bool], Call | None] = {}
        self._under_way: dict[tuple[int, int], list[Call]] = {}

    # ---- steps

    @cached_property
    def owners(self) -> StepOwners:
        """The goroutine, the socket and the descriptor of each step."""
        return StepOwners(self.notes)

    def goroutine_of(self, step: int) -> int:
        """The goroutine that made a step; -1 for the network and the clock."""
        return self.owners.goroutines[step - 1]

    def socket_of(self, step: int) -> int:
        """The socket of a step; -1 if the step has none."""
        return self.owners.sockets[step - 1]

    def sockets_used(self, first: int, last: int) -> Counter[Place]:
        """For each goroutine and socket, the number of these steps that the goroutine made on the socket. Only these
        steps are read."""
        return StepOwners(self.notes, first, last).used()

    def steps_of(self, of: ObjectKind, number: int, after: int = 0, until: int | None = None) -> Iterator[int]:
        """The steps of a goroutine, a socket or a descriptor that lead from one position to another."""
        column = getattr(self.owners, COLUMNS[of])
        with suppress(ValueError):
            while True:
                after = column.index(number, after, len(column) if until is None else until) + 1
                yield after

    def next_step(self, goroutine: int, position: int) -> int | None:
        """A goroutine's first step after a position."""
        return next(self.steps_of(ObjectKind.GOROUTINE, goroutine, position), None)

    def last_step(self, goroutine: int, position: int) -> int:
        """A goroutine's last step up to a position; 0 if it has made none."""
        return self.last_steps([goroutine], position)[goroutine]

    def last_steps(self, goroutines: Collection[int], position: int) -> dict[int, int]:
        """The last step of each of these goroutines up to a position; 0 for a goroutine that has made none."""
        return last_steps(self.recording, position, goroutines)

    def goroutine_at(self, position: int) -> int:
        """The goroutine that made the last step up to a position. If no goroutine has made one, the goroutine that
        makes the next step; -1 if no goroutine makes one."""
        goroutines = self.owners.goroutines
        steps = chain(range(position - 1, -1, -1), range(position, len(goroutines)))
        return next((goroutines[at] for at in steps if goroutines[at] >= 0), -1)

    # ---- places in the program

    def stack_at(self, goroutine: int, position: int) -> Stack:
        """The stack of a goroutine's last step up to a position; a stack without calls if the goroutine has made no
        step."""
        return self.recording.lines.of(self.last_step(goroutine, position))

    def function_at(self, goroutine: int, position: int) -> str:
        """The function of the program in which a goroutine made its last step up to a position; empty if unknown."""
        frames = frames_from_own(self.stack_at(goroutine, position))
        return frames[0].function if frames else ""

    def position_of_return(self, goroutine: int, position: int) -> int | None:
        """The position before the goroutine's first step outside the function that it is in; None if no such step
        exists, or if the function isn't known. A call of the function from another line or from another function counts
        as outside."""
        frames, lines = frames_from_own(self.stack_at(goroutine, position)), self.recording.lines
        later = self.steps_of(ObjectKind.GOROUTINE, goroutine, position) if frames else ()
        return next((step - 1 for step in later if not is_within(lines.of(step), frames)), None)

    # ---- calls

    @cached_property
    def _book(self) -> Book:
        return Book(self.recording)

    @property
    def calls(self) -> list[Call]:
        """All calls."""
        return self._book.calls

    @property
    def notes(self) -> Notes:
        """The notes of all steps."""
        return self._book.notes

    @cached_property
    def by_socket(self) -> dict[int, list[Call]]:
        """The calls on each socket."""
        return grouped(self.calls, attrgetter("socket"))

    @cached_property
    def by_goroutine(self) -> dict[int, list[Call]]:
        """The calls of each goroutine."""
        return grouped(self.calls, attrgetter("goroutine"))

    def by_goid(self, goid: int) -> list[Call]:
        """The calls of the goroutine with this goid; none if another goroutine has its number at the end of the
        recording."""
        lines = self.recording.lines
        number = lines.number_of(goid)
        calls = self.by_goroutine.get(number, []) if number >= 0 else []
        return [call for call in calls if lines.has_step(goid, number, call.first)]

    def calls_of(self, name: Name) -> list[Call]:
        """The calls of a goroutine; none if it made no step."""
        return [] if name.is_goid else self.by_goroutine.get(name.number, [])

    def call_of(self, step: int, goroutine: int | None = None) -> Call | None:
        """The innermost call that a step belongs to. If a goroutine is given, that goroutine's innermost call around
        the step."""
        g = self.recording.step(step).argument("g") if goroutine is None else goroutine
        begun = back(self.by_goroutine.get(g, ()), step)
        return next((call for call in begun if not call.last or call.last >= step), None)

    def call_at(self, goroutine: int, position: int) -> Call | None:
        """The innermost call that a goroutine is in at a position."""
        begun = back(self.by_goroutine.get(goroutine, ()), position)
        return next((call for call in begun if not call.last or call.last > position), None)

    def calls_at(self, goroutine: int, position: int) -> list[Call]:
        """The calls that a goroutine is in at a position, innermost last."""
        begun = back(self.by_goroutine.get(goroutine, ()), position)
        return [call for call in begun if not call.last or call.last > position][::-1]

    def other_end(self, socket: int) -> int | None:
        """The socket at the other end of a connection, if known."""
        return self.recording.lines.peers.get(socket)

    def opening(self, socket: int) -> Call | None:
        """The call that opened a socket, if the recording has it."""
        return next((call for call in self.by_socket.get(socket, ()) if call.name == OPEN), None)

    def closing(self, socket: int, until: int, whole: bool = False) -> Call | None:
        """The first call, up to a step, that closed a socket; if not `whole`, a call that closed only the write side
        counts too."""
        if (socket, whole) not in self._closing:
            names = (CLOSE,) if whole else (CLOSE, CLOSE_WRITE)
            closing = (
                call for call in self.by_socket.get(socket, ()) if call.name in names and not call.outcome.is_error
            )
            self._closing[socket, whole] = next(closing, None)
        found = self._closing[socket, whole]
        return found if found and found.first <= until else None

    def under_way(self, socket: int, step: int) -> list[Call]:
        """The calls on a socket that began before a step and ended after it."""
        if (socket, step) not in self._under_way:
            begun = (call for call in self.by_socket.get(socket, ()) if call.first < step < call.last)
            self._under_way[socket, step] = list(begun)
        return self._under_way[socket, step]

    def last_use(self, socket: int, until: int, names: Iterable[str] = MOVING) -> Call | None:
        """The last call on a socket that has one of these names and began no later than a step."""
        return next((call for call in back(self.by_socket.get(socket, ()), until) if call.name in names), None)

    def before(self, call: Call) -> Call | None:
        """The goroutine's last call before this one that read, wrote or waited."""
        begun = back(self.by_goroutine[call.goroutine], call.first - 1)
        return next((earlier for earlier in begun if earlier.name in READING + WRITING), None)

    def next_of(self, call: Call) -> Call | None:
        """The next call of the same name by the same goroutine."""
        calls = self.by_goroutine[call.goroutine]
        begin = bisect_right(calls, call.first, key=FIRST)
        return next((calls[at] for at in range(begin, len(calls)) if calls[at].name == call.name), None)

    def is_listening(self, call: Call) -> bool:
        """Whether a call accepts connections. Such a call may wait for a connection that never comes."""
        return any(frame.function in ACCEPTS for frame in self.recording.lines.of(call.first).calls)

    def sleeps_at_the_end(self, call: Call) -> bool:
        """Whether the recording ends while a call's goroutine sleeps in it."""
        return self._book.sleeps_at_the_end(call)

    def moved(self, socket: int, name: str, until: int) -> int:
        """The number of bytes that calls with a name moved on a socket. Only calls that ended by step `until` count."""
        calls = self.by_socket.get(socket, ())
        return sum(call.moved or 0 for call in calls if call.name == name and 0 < call.last <= until)

    def under_its_deadline(self, call: Call) -> list[Call]:
        """The calls on the same side of the socket that ended after this call's deadline was set and before this call
        began, in the order of their first steps. The function doesn't scan all calls, because a side may have as many
        timeouts as calls."""
        side = call.socket, call.name
        if side not in self._ended:
            calls = (other for other in self.by_socket[call.socket] if other.name == call.name and other.last)
            self._ended[side] = sorted(calls, key=END)
        ended = self._ended[side]
        begin, end = (bisect_right(ended, step, key=END) for step in (call.cause, call.first))
        return sorted(ended[begin:end], key=FIRST)

    def failed(self, position: int | None = None) -> list[Call]:
        """The calls that had failed at a position, by default at the end."""
        until = sys.maxsize if position is None else position
        return [call for call in self.calls if 0 < call.last <= until and call.outcome.is_error]

    # ---- locks and references

    def takings(self, locks: Collection[Lock], position: int) -> dict[Lock, Step]:
        """For each of these locks, which are held at a position, the step that took it."""
        return takings(self.recording, position, locks)

    def holders(self, socket: int, position: int) -> list[Reference]:
        """The references to a socket that are held at a position, oldest first."""
        return holders_of(self.recording, changes_of(self.recording), socket, position)


def grouped(calls: Iterable[Call], key: "attrgetter[int]") -> dict[int, list[Call]]:
    """Calls by a number; an empty list for a number without calls."""
    groups = defaultdict[int, list[Call]](list)
    for call in calls:
        groups[key(call)].append(call)
    return groups


def back(calls: Sequence[Call], step: int) -> Iterator[Call]:
    """The calls that began up to a step, latest first."""
    return (calls[at] for at in range(bisect_right(calls, step, key=FIRST) - 1, -1, -1))


def went_well(call: Call) -> bool:
    """Whether a call has ended without an error and has moved at least one byte."""
    return call.last > 0 and call.outcome is Outcome.DONE and bool(call.moved)


def frames_from_own(stack: Stack) -> tuple[SourceCall, ...]:
    """The calls of a stack, beginning with the program's innermost call."""
    found = stack.own()
    return stack.calls[stack.calls.index(found[0]) :] if found else ()


def is_within(stack: Stack, frames: tuple[SourceCall, ...]) -> bool:
    """Whether a goroutine with this stack is still in the function of `frames[0]`, called by the same callers. It may
    be in a call that this function made."""
    outer = stack.calls[len(stack.calls) - len(frames) :] if len(stack.calls) >= len(frames) else ()
    return bool(outer) and outer[0].function == frames[0].function and outer[1:] == frames[1:]


@lru_cache(maxsize=2)
def run_of(recording: Recording) -> RunIndex:
    """The index of a recording."""
    return RunIndex(recording)
