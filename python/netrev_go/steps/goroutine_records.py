"""Makes the lines of NAME.where about all goroutines (docs/reference/RECORDING.md has the format). If not all waits,
uses of channels and goroutines fit, it chooses which to keep."""

from __future__ import annotations

import errno
from collections import Counter
from collections.abc import Callable, Iterable, Iterator
from dataclasses import dataclass, field
from itertools import compress

from netrev_go.log.goroutines import (  # fmt: skip
    ADDED,
    CONDITION,
    DONE,
    MUTEX,
    OF_A_WAIT_GROUP,
    OTHER,
    READ_LOCK,
    ROOM,
    SEMAPHORE,
    UNENDED,
    VALUE,
    WAIT_GROUP,
    WRITE_LOCK,
    Goroutines,
    LoggedDial,
    LoggedMutex,
    LoggedPark,
    LoggedTimer,
    Used,
    UseSpan,
)
from netrev_go.log.socket_facts import address_words
from netrev_go.log.source_lines import OF_GO, OF_THE_PROGRAM, Calls

MOST = 2**16  # the greatest number of entries kept in each list: waits, uses of channels, timers, goroutines
OTHERS = 4  # at most a quarter of them have ended when the log ends
REASONS = (
    "", "a value from a channel", "room in a channel", "a select", "a condition", "time.Sleep", "a mutex", "a read lock", "a write lock",
    "a WaitGroup", "a semaphore", "a nil channel", "a select without cases",
)  # fmt: skip
FOR = {VALUE: "value", ROOM: "room"}
CHANNEL = "channel"
HELD = "held"  # the line of locked mutexes; a line without rows means that none is locked
TIMED_OUT, CANCELLED = -1, -2  # why a connect failed, if not because of a system error
SORTS = {
    MUTEX: "mutex", READ_LOCK: "RWMutex", WRITE_LOCK: "RWMutex", WAIT_GROUP: "WaitGroup", CONDITION: "condition",
    SEMAPHORE: "semaphore",
}  # fmt: skip
# The offset of a semaphore from its object's address, in all recordable releases of Go.
OF_A_MUTEX, OF_WRITERS, OF_READERS = 4, 8, 12
OFFSETS = {MUTEX: OF_A_MUTEX, READ_LOCK: OF_READERS, WRITE_LOCK: OF_WRITERS, WAIT_GROUP: OF_A_WAIT_GROUP}
# The functions of package sync that identify a wait: the first one in the stack decides, because an RWMutex contains a
# mutex.
FUNCTIONS = (
    ("sync.(*RWMutex).RLock", READ_LOCK), ("sync.(*RWMutex).Lock", WRITE_LOCK), ("sync.(*WaitGroup).Wait", WAIT_GROUP),
    ("sync.(*Mutex)", MUTEX),
)  # fmt: skip


def names_of_go(calls: Calls | None) -> list[str]:
    """Go's own functions that the program or a library called, innermost first."""
    names = []
    for call in calls.calls if calls else ():
        if call.of != OF_GO:
            break
        names.append(call.function)
    return names


def waited_for(what: int, calls: Calls | None) -> int:
    """What a goroutine waits for. If the runtime names only a semaphore, its stack decides."""
    names = names_of_go(calls)
    if what == MUTEX and any(name.startswith("sync.(*RWMutex).Lock") for name in names):
        return WRITE_LOCK
    if what not in (OTHER, SEMAPHORE):
        return what if what < len(REASONS) else OTHER
    plain = [name.removeprefix("internal/") for name in names]
    return next((found for name, found in FUNCTIONS if any(function.startswith(name) for function in plain)), what)


def semaphore_at(what: int, found: int, calls: Calls | None) -> int:
    """The offset of a semaphore in its object, for a wait that the runtime calls `what` and whose stack shows `found`."""
    if what == SEMAPHORE and any("sync.(*Mutex)." in name for name in names_of_go(calls)):
        return OF_A_MUTEX
    return OFFSETS.get(found if what == SEMAPHORE else what, 0)


@dataclass
class KeptData:
    """The data to keep: waits, uses, timers, failed connects, the locked mutexes (None if unknown), and how many waits
    were left out, by reason, stack, and whether they have ended."""

    parks: list[LoggedPark] = field(default_factory=list)
    uses: list[tuple[Used, UseSpan]] = field(default_factory=list)
    timers: list[LoggedTimer] = field(default_factory=list)
    dials: list[LoggedDial] = field(default_factory=list)
    held: list[LoggedMutex] | None = None
    left: Counter[tuple[int, int, bool]] = field(default_factory=Counter)


def newest(waits: list[bool], most: int) -> Iterator[bool]:
    """Whether to keep each entry of a list: first the entries that still wait, the newest `most` of them; then the
    newest of the rest, at most a quarter of `most`."""
    waiting = sum(waits)
    too_many, others = max(waiting - most, 0), len(waits) - waiting
    too_old = others - max(min(most - waiting, most // OTHERS, others), 0)
    for is_waiting in waits:
        if is_waiting:
            too_many -= 1
            yield too_many < 0
        else:
            too_old -= 1
            yield too_old < 0


def kept(found: Goroutines, numbers: dict[int, int], calls: dict[int, Calls], most: int = MOST) -> KeptData:
    """The data to keep about all goroutines: actions of recorded goroutines, and actions with a line of the program on
    their stack, or in a goroutine that the program started. If no lines are known, everything is kept."""
    of_program = {
        key
        for key, known in calls.items()
        if any(call.of == OF_THE_PROGRAM for call in known.calls) or known.made and known.made.of == OF_THE_PROGRAM
    }
    knows = any(known.calls for known in calls.values())

    def is_concerned(goroutine: int, stack: int) -> bool:
        return not knows or goroutine in numbers or stack in of_program

    data = KeptData()
    parks = [park for park in found.parks if is_concerned(park.goroutine, park.stack)]
    choice = list(newest([park.last == UNENDED for park in parks], most))
    data.parks = list(compress(parks, choice))
    data.left.update(
        (park.what, park.stack, park.last != UNENDED) for park, is_kept in zip(parks, choice) if not is_kept
    )
    waited = {at.address for park in data.parks for at in park.objects}
    at_end = {at.address for park in data.parks if park.last == UNENDED for at in park.objects}
    uses = [
        (use, span)
        for use, span in sorted(found.uses.items(), key=lambda item: (item[1].last, item[1].end))
        if use.address in waited or is_concerned(use.goroutine, use.stack)
    ]
    data.uses = list(compress(uses, newest([use.address in at_end for use, _ in uses], most)))
    timers = [timer for timer in found.timers if is_concerned(timer.goroutine, timer.stack)]
    data.timers = list(compress(timers, newest([timer.address in at_end for timer in timers], most)))
    data.dials = [dial for dial in found.dials if is_concerned(dial.goroutine, dial.stack)][-most:]
    if found.held is not None:
        mutexes = {park.stack: calls.get(park.stack) for park in data.parks if park.last == UNENDED}
        waited_at = {
            mutex_at(at.address, park.what, mutexes[park.stack]) for park in data.parks if park.last == UNENDED for at in park.objects
        }  # fmt: skip
        data.held = [
            held for held in found.held if held.address in waited_at or is_concerned(held.goroutine, held.stack)
        ][-most:]
    return data


def why_words(number: int) -> str:
    """Why a connect failed; empty if unknown."""
    return errno.errorcode.get(number, "") or {TIMED_OUT: "timeout", CANCELLED: "cancelled"}.get(number, "")


def mutex_at(address: int, what: int, calls: Calls | None) -> int:
    """The address of the object on which a goroutine waits, from the address of the object's semaphore."""
    return address - semaphore_at(what, waited_for(what, calls), calls)


class Objects:
    """The objects that goroutines use or wait on, numbered from 1, with the known facts about each."""

    def __init__(self, rooms: dict[int, int]) -> None:
        self._rooms = rooms
        self.numbers: dict[int, int] = {}
        self._sorts: dict[int, str] = {}

    def number(self, address: int, sort: str) -> int:
        known = self._sorts.setdefault(address, sort)
        if known != sort and sort == "RWMutex":  # its inner mutex was found first
            self._sorts[address] = sort
        return self.numbers.setdefault(address, len(self.numbers) + 1)

    def lines(self) -> list[tuple[int, str, int]]:
        return [
            (number, sort := self._sorts[address], self._rooms.get(address, -1) if sort == CHANNEL else -1)
            for address, number in self.numbers.items()
        ]


@dataclass
class Everybody:
    """All goroutines, as the file has them."""

    found: Goroutines
    kept: KeptData
    numbers: dict[int, int]  # the recording's number for each goroutine, by Go's number
    last_stacks: dict[int, int]  # the last stack of each goroutine in the recording, by Go's number

    def lines(
        self, calls: dict[int, Calls], stack: Callable[[int], int], call: Callable[[int], int], most: int = MOST
    ) -> Iterable[tuple[str, list[tuple[object, ...]]]]:
        """The lines by name. `stack` gives the number of a stack. `call` gives the number of the `go` statement that
        started a stack's goroutine."""
        objects = Objects(self.found.rooms)
        parks = [self.park(park, calls.get(park.stack), objects, stack(park.stack)) for park in self.kept.parks]
        uses: list[tuple[object, ...]] = [
            (self.number_of(use, objects), use.goroutine, use.what, stack(use.stack), *span)
            for use, span in self.kept.uses
        ]
        timers: list[tuple[object, ...]] = [
            (objects.number(item.address, CHANNEL) if item.address else 0, item.goroutine, stack(item.stack), *item[3:])
            for item in self.kept.timers
        ]
        makers: list[tuple[object, ...]] = [
            (objects.numbers[address], item.goroutine, stack(item.stack), item.step, item.time)
            for address, item in self.found.made.items() if address in objects.numbers
        ]  # fmt: skip
        dials: list[tuple[object, ...]] = [
            (
                item.goroutine, stack(item.stack), item.step, item.time, why_words(item.why), address_words(item.address),
                objects.number(item.context, CHANNEL) if item.context else 0,
            )
            for item in self.kept.dials
        ]  # fmt: skip
        held: list[tuple[object, ...]] = [
            (objects.number(item.address, SORTS[MUTEX]), item.goroutine, "read" if item.is_reader else "", stack(item.stack), item.step)
            for item in self.kept.held or ()
        ]  # fmt: skip
        yield "goroutines", [self.goroutine(goid, call(key)) for goid, key in self.goroutines(most).items()]
        yield "objects", list(objects.lines())
        yield "parks", parks
        yield "uses", uses
        yield "timers", timers
        yield "channels", makers
        yield "failed_dials", dials
        if self.kept.held is not None:
            yield HELD, held
        yield "left_out", [
            (REASONS[waited_for(what, calls.get(key))], stack(key), *self.left(what, key))
            for what, key in dict.fromkeys((what, key) for what, key, _ in self.kept.left)
        ]

    def left(self, what: int, stack: int) -> tuple[int, int]:
        return self.kept.left[what, stack, False], self.kept.left[what, stack, True]

    @staticmethod
    def number_of(use: Used, objects: Objects) -> int:
        """The number of the object that a goroutine used: a channel, or a WaitGroup, which its semaphore identifies."""
        if use.what in (ADDED, DONE):
            return objects.number(use.address - OF_A_WAIT_GROUP, SORTS[WAIT_GROUP])
        return objects.number(use.address, CHANNEL)

    @staticmethod
    def park(park: LoggedPark, calls: Calls | None, objects: Objects, stack: int) -> tuple[object, ...]:
        """A wait in the file's form."""
        found = waited_for(park.what, calls)
        back = semaphore_at(park.what, found, calls)
        sort = SORTS.get(found, CHANNEL)
        at = [(objects.number(thing.address - back, sort), FOR.get(thing.use, "")) for thing in park.objects]
        return (*park[:5], REASONS[found], stack, park.by, at, *([park.due] if park.due else []))

    def goroutines(self, most: int) -> dict[int, int]:
        """Go's numbers of the goroutines in the file, each with a stack (0 if unknown). These are the recording's
        goroutines, and those that wait, wake others, use channels, make timers, dial or hold locks. If not all fit, the
        recording's goroutines and those that still wait come first, and newer goroutines come before older ones."""
        stacks: dict[int, int] = dict(self.last_stacks)
        for park in self.kept.parks:
            if not stacks.get(park.goroutine):
                stacks[park.goroutine] = park.stack
            if park.by:
                stacks.setdefault(park.by, 0)
        others = [(use.goroutine, use.stack) for use, _ in self.kept.uses]
        others += [(timer.goroutine, timer.stack) for timer in self.kept.timers]
        for goid, stack in others + [(dial.goroutine, dial.stack) for dial in self.kept.dials]:
            if not stacks.get(goid):
                stacks[goid] = stack
        for held in self.kept.held or ():
            stacks.setdefault(held.goroutine, 0)
        waiting = {park.goroutine for park in self.kept.parks if park.last == UNENDED}
        in_order = sorted(stacks)
        choice = newest([goid in self.numbers or goid in waiting for goid in in_order], most)
        return {goid: stacks[goid] for goid in compress(in_order, choice)}

    def goroutine(self, goid: int, starter: int) -> tuple[object, ...]:
        """A goroutine in the file's form."""
        maker, first, begin = self.found.born.get(goid, (0, UNENDED, UNENDED))
        last, end = self.found.ended.get(goid, (UNENDED, UNENDED))
        return goid, self.numbers.get(goid, -1), starter, maker, first, last, begin, end
