"""Facts about the steps before a position, for callers that can't wait until a million steps are read. The facts about
all requested objects come from one search of the recording's text."""

import re
from collections.abc import Collection, Iterator
from dataclasses import dataclass
from itertools import islice
from typing import NamedTuple

from netrev.recording.cell_meanings import LockWord
from netrev.recording.recording import Recording, Step
from netrev.recording.step_changes import RecordedChanges
from netrev.text.vocabulary import OF_A_GOROUTINE

Lock = tuple[int, str]  # a socket and a side
FEW = 8
LOCKS = rb'\[\s*"rw(un)?lock"\s*,\s*\d+\s*,\s*(%s)\s*,\s*"([rw])"'
GOROUTINES = rb'\[\s*"(?:%s)"\s*,\s*(\d+)\b' % "|".join(OF_A_GOROUTINE).encode()
LOCKING = ("incref", "increfclose", "decref", "rwlock", "rwunlock")


def takings(recording: Recording, until: int, locks: Collection[Lock]) -> dict[Lock, Step]:
    """For each of these locks, which are held at a position, the step that took it: the first `rwlock` after the last
    `rwunlock`."""
    sought, taking = set(locks), dict[Lock, int]()
    if sought:
        for number, is_taken, lock in locks_back(recording, until, {socket for socket, _ in locks}):
            if lock in sought and is_taken:
                taking[lock] = number
            elif lock in sought:
                sought.remove(lock)
                if not sought:
                    break
    return {lock: recording.step(number) for lock, number in taking.items()}


def locks_back(recording: Recording, until: int, sockets: set[int]) -> Iterator[tuple[int, bool, Lock]]:
    """Each `rwlock` and `rwunlock` of these sockets, latest first: the step's number, whether it is a `rwlock`, and the
    lock. Steps of other sockets may be among them."""
    if recording.has_escapes:
        for step in reversed(list(recording.steps_of(("rwlock", "rwunlock"), until))):
            yield step.number, step.kind == "rwlock", (step.argument("s"), step.argument("side"))
        return
    named = b"|".join(b"%d" % socket for socket in sockets) if len(sockets) <= FEW else rb"\d+"
    for found in recording.found_back(re.compile(LOCKS % named), until):
        unlocked, socket, side = found.groups()
        yield recording.number_at(found.start()), not unlocked, (int(socket), side.decode())


def last_steps(recording: Recording, until: int, goroutines: Collection[int]) -> dict[int, int]:
    """The last step of each of these goroutines up to a position; 0 for a goroutine that has made no step."""
    last = dict.fromkeys(goroutines, 0)
    if recording.has_escapes:
        for number, (kind, *arguments) in enumerate(islice(recording.arrays(), until), 1):
            if kind in OF_A_GOROUTINE and arguments[0] in last:
                last[arguments[0]] = number
        return last
    missing = len(last)
    for found in recording.found_back(re.compile(GOROUTINES), until) if missing else ():
        goroutine = int(found[1])
        if last.get(goroutine) == 0:
            last[goroutine] = recording.number_at(found.start())
            missing -= 1
            if not missing:
                break
    return last


@dataclass(frozen=True)
class Reference:
    """A reference that is held: the goroutine, the step at which the goroutine took it, and, for a lock, its side in a
    list of one element."""

    step: Step
    goroutine: int
    side: list[str]


class Holding(NamedTuple):
    """A reference that is held at the step that `holders_of` has reached. `number` is the number of the step that took
    the reference."""

    number: int
    goroutine: int
    side: list[str]


def holders_of(recording: Recording, changes: RecordedChanges, socket: int, position: int) -> list[Reference]:
    """The references to the socket at the position, oldest first. A step that raised the count of references added a
    reference, and a step that lowered the count removed a reference."""
    counts = {step: LockWord.of(int(word)).references for step, word in changes.changes_of(f"lock {socket}", position)}
    held: list[Holding] = []
    end = -1 if recording.has_answers else None
    for number, (kind, *arguments) in recording.arrays_like(LOCKING, position, socket):
        count = counts.get(number, len(held))
        if count == len(held) or kind not in LOCKING:
            continue
        goroutine, _, *side = arguments[:end]
        if count > len(held):
            held.append(Holding(number, goroutine, side))
        else:
            held.remove(_given(held, goroutine, side))
    return [Reference(recording.step(number), goroutine, side) for number, goroutine, side in held]


def _given(held: list[Holding], goroutine: int, side: list[str]) -> Holding:
    """The reference that a step gives back: the newest reference of the same goroutine, if the goroutine has any."""
    fits = [holding for holding in held if holding.side == side]
    own = [holding for holding in fits if holding.goroutine == goroutine]
    return (own or fits or held)[-1]
