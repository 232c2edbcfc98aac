"""The goroutine, the socket and the descriptor of each step in a part of a recording."""

from array import array
from bisect import bisect_right
from collections import Counter
from collections.abc import Callable
from typing import Any, NamedTuple

from netrev.machine.machine import INSIDE
from netrev.text.vocabulary import KINDS

from .notes import Notes
from .timers import timers_of

NONE = -1
Place = tuple[int, int]  # a socket and a descriptor
NOWHERE = NONE, NONE
# the ways in which the socket and the descriptor of a step are found
OF_A_SOCKET, OF_A_DESCRIPTOR, AS_BEFORE, OF_NONE, OTHER = range(5)
OTHERS = ("sockopen", "pollopen", "pollclose", "pollevent", "pop", "fire")


class StepRow(NamedTuple):
    """What a step's line says: how to find the step's socket and descriptor, its goroutine, the socket or descriptor
    that it names, and its kind and arguments."""

    how: int
    goroutine: int
    which: int
    kind: str
    arguments: list[Any]


def row_of(values: list[Any]) -> StepRow:
    """What a step's array says about the step."""
    kind, *arguments = values
    named = dict(zip(KINDS[kind].arguments, arguments))
    how = AS_BEFORE
    if kind in OTHERS:
        how = OTHER
    elif "s" in named:
        how = OF_A_SOCKET
    elif "d" in named:
        how = OF_A_DESCRIPTOR
    elif kind in ("exit", "spawn", "tick"):
        how = OF_NONE
    return StepRow(how, named.get("g", NONE), named.get("s", named.get("d", NONE)), kind, arguments)


class NamedPlaces(dict[int, Place]):
    """The object that each goroutine last named. For a goroutine that has named none, `before` finds it."""

    def __init__(self, before: Callable[[int], Place]) -> None:
        super().__init__()
        self._before = before

    def __missing__(self, g: int) -> Place:
        place = self[g] = self._before(g)
        return place


class StepOwners:
    """The goroutine, the socket and the descriptor of each step from `first` to `last`; -1 if the step has none. The
    earlier steps aren't read."""

    def __init__(self, notes: Notes, first: int = 1, last: int | None = None) -> None:
        self._notes, self._begin = notes, max(first, 1) - 1
        self.goroutines, self._sockets, self._descriptors = array("i"), array("i"), array("i")
        self._of_timers: list[int] = []  # the steps of timers whose owners no caller has needed yet
        opened = bisect_right(notes.uses, self._begin, key=lambda use: use.opened)
        before, self._opened = notes.uses[:opened], iter(notes.uses[opened:])
        self._made = sum(1 for _ in notes.recording.steps_of(("sockopen",), self._begin))  # the number of sockets
        self._named = NamedPlaces(self._named_before)
        still_open = (use for use in before if not 0 < use.closed <= self._begin)
        self._descriptor_of = {use.socket: use.descriptor for use in still_open}
        self._socket_of = {use.descriptor: use.socket for use in before}
        # for a descriptor and the tag of a use, the socket of that use
        self._tagged = {(use.descriptor, use.tag): use.socket for use in before}
        self._go_through(last)

    @property
    def sockets(self) -> "array[int]":
        self._look_at_timers()
        return self._sockets

    @property
    def descriptors(self) -> "array[int]":
        self._look_at_timers()
        return self._descriptors

    def used(self) -> Counter[Place]:
        """For each goroutine and socket, the number of steps that the goroutine made on the socket."""
        pairs = Counter(zip(self.goroutines, self._sockets))
        return Counter({pair: many for pair, many in pairs.items() if pair[0] != NONE})

    def _go_through(self, last: int | None) -> None:
        named, descriptor_of, socket_of = self._named, self._descriptor_of, self._socket_of
        is_of, socket_is, descriptor_is = (
            column.append for column in (self.goroutines, self._sockets, self._descriptors)
        )
        rows = self._notes.recording.rows(row_of, self._begin + 1, last)
        for number, (how, g, which, kind, arguments) in enumerate(rows, self._begin + 1):
            if how == AS_BEFORE:
                s, d = named[g]
            elif how == OF_A_SOCKET:
                s, d = named[g] = which, descriptor_of.get(which, NONE)
            elif how == OF_A_DESCRIPTOR:
                s, d = named[g] = socket_of.get(which, NONE), which
            else:
                s, d = NOWHERE if how == OF_NONE else self._other(number, kind, g, arguments)
            is_of(g)
            socket_is(s)
            descriptor_is(d)

    def _other(self, number: int, kind: str, g: int, arguments: list[Any]) -> Place:
        """The socket and the descriptor of a step that makes or frees a descriptor, or that belongs to a timer or an
        event."""
        if kind == "sockopen":
            self._made += 1
            return self._made - 1, NONE
        if kind in ("pop", "fire"):
            self._of_timers.append(number)
            return NOWHERE
        if kind == "pollevent":
            d, tag, *_ = arguments
            return self._tagged.get((d, tag), NONE), d
        if kind == "pollopen":
            use = next(self._opened)
            self._descriptor_of[use.socket], self._socket_of[use.descriptor] = use.descriptor, use.socket
            self._tagged[use.descriptor, use.tag] = use.socket
            place = use.socket, use.descriptor
        else:
            d = arguments[1]
            place = self._socket_of.get(d, NONE), d
            self._descriptor_of.pop(place[0], None)
        self._named[g] = place
        return place

    def _named_before(self, g: int) -> Place:
        """The object that a goroutine named last before these steps. The goroutine is still in a call on that object,
        so its status shows the object."""
        begun, words = 0, ["idle"]
        for step, status in self._notes.changes.back(f"gor {g}", self._begin):
            if status == "idle":
                break
            begun, words = step, status.split()
        if words[0] not in INSIDE:
            return (int(words[1]), self._descriptor_of.get(int(words[1]), NONE)) if words[1:] else NOWHERE
        d = int(words[1])
        return next(use.socket for use in reversed(self._notes.uses) if use.descriptor == d and use.opened <= begun), d

    def _look_at_timers(self) -> None:
        """Finds the timers' owners, for callers that need the sockets and descriptors of all steps."""
        timers = timers_of(self._notes.recording) if self._of_timers else {}
        for number in self._of_timers:
            timer, at = timers[number], number - self._begin - 1
            self._sockets[at], self._descriptors[at] = timer.socket, timer.descriptor
        self._of_timers = []
