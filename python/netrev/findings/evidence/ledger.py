"""What goroutines did on the channels and mutexes on which other goroutines wait, from the objects of NAME.where."""

from collections import defaultdict
from collections.abc import Iterator
from operator import attrgetter
from typing import NamedTuple

from netrev.recording.goroutines import FOR_ROOM, FOR_VALUE, PUT, TOOK, At, ObjectUse
from netrev.recording.recording import Recording
from netrev.recording.waits import Name, ObjectWait, Waits, name_of_goid
from netrev.recording.where import SourceCall, Stack

GIVES = {FOR_VALUE: PUT, FOR_ROOM: TOOK}  # uses that end a wait on a channel
GIVES_WORDS = {PUT: "put the last value there", TOOK: "took the last value there"}
GAVE_BEFORE = {PUT: "put a value there before", TOOK: "took one there before"}
END = attrgetter("end")


class Operation(NamedTuple):
    """An operation of a goroutine on a channel, and its stack."""

    name: Name
    what: str
    stack: Stack
    last: int  # the step after which the goroutine last did this operation


class Ledger:
    """The ledger of a recording's objects."""

    def __init__(self, recording: Recording, waits: Waits) -> None:
        self._lines = recording.lines
        self._locked: dict[int, list[ObjectWait]] = defaultdict(
            list
        )  # the waits at each object that isn't a channel, ordered by their ends
        for some in waits.of.values():
            for wait in some:
                for at in wait.objects:
                    if not at.use:
                        self._locked[at.object].append(wait)

    def operations(self, at: At) -> Iterator[Operation]:
        """The goroutines' operations on a channel that end a wait there, latest first."""
        what = GIVES.get(at.use, "")
        uses = (use for use in self._lines.uses.get(at.object, ()) if use.what == what)
        for use in sorted(uses, key=END, reverse=True):
            yield self._operation(use)

    def _operation(self, use: ObjectUse) -> Operation:
        return Operation(name_of_goid(self._lines, use.goid), use.what, self._lines.stacks[use.stack], use.last)

    def lines_of(self, number: int) -> set[SourceCall]:
        """The calls of the program in which goroutines have waited for a mutex. Each of these calls locks the mutex."""
        return {found[0] for wait in self._locked[number] if (found := wait.stack.own())}

    def last_holder(self, number: int) -> ObjectWait | None:
        """Of a mutex's waits, the one that ended last; its goroutine then got the mutex. None if no wait has ended."""
        ended = [wait for wait in self._locked[number] if wait.last is not None]
        last = max(ended, key=attrgetter("last", "begin"), default=None)
        return last

    def had(self, number: int) -> set[Name]:
        """The goroutines that have held a mutex: some waited for the mutex and got it, others unlocked it for a waiting
        goroutine."""
        ended = [wait for wait in self._locked[number] if wait.last is not None]
        return {wait.name for wait in ended} | {wait.by for wait in ended if wait.by}
