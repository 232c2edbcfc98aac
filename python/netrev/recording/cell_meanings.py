"""The meanings of cells' values as text: lock words, summaries, statuses, wait words and deadlines."""

import json
from collections.abc import Mapping
from dataclasses import dataclass
from typing import Any

from netrev.text.plurals import counted
from netrev.text.vocabulary import CELLS, ObjectKind

DUMPED = 80  # the maximum number of digits of a dump that are shown as text
FIELD = 0xFFFFF  # the fields for references and waiters have 20 bits each
UNITS = ((1_000_000_000, "s"), (1_000_000, "ms"), (1_000, "µs"), (1, "ns"))
SIDES = {"r": "read", "w": "write"}
DOING = {"r": "reading", "w": "writing"}


@dataclass(frozen=True)
class LockWord:
    """A socket's lock word, which is the fdMutex of Go's internal/poll, split into its fields."""

    closed: bool
    read_locked: bool
    write_locked: bool
    references: int
    readers: int
    writers: int

    @classmethod
    def of(cls, word: int) -> "LockWord":
        """The fields of the word."""
        counts = (word >> shift & FIELD for shift in (3, 23, 43))
        return cls(bool(word & 1), bool(word & 2), bool(word & 4), *counts)

    def __str__(self) -> str:
        parts = [
            "closed" if self.closed else "",
            "read lock" if self.read_locked else "",
            "write lock" if self.write_locked else "",
            counted(self.references, "reference"),
            f"{self.readers} waiting to read" if self.readers else "",
            f"{self.writers} waiting to write" if self.writers else "",
        ]
        return ", ".join(filter(None, parts))


def lock_words(value: str) -> str:
    """The meaning of a lock word."""
    return str(LockWord.of(int(value)))


def info_words(value: str) -> str:
    """The meaning of a descriptor's summary."""
    bits = {1: "closing", 2: "event error", 4: "read deadline passed", 8: "write deadline passed"}
    meanings = [words for bit, words in bits.items() if int(value) & bit]
    return ", ".join(meanings) or "nothing is set"


def _owing(socket: str, reads: str, writes: str) -> str:
    owed = ((reads, "readers"), (writes, "writers"))
    releases = [f"{counted(int(number), 'release')} to {waiter}" for number, waiter in owed if number != "0"]
    return f"owes {' and '.join(releases)} of socket {socket}"


STATUSES = {
    "acquiring": "waits for socket {0}'s {lock} lock: about to acquire the semaphore",
    "queued": "waits for socket {0}'s {lock} lock: sleeps in the semaphore's queue",
    "relock": "has the semaphore: about to try socket {0}'s {lock} lock again",
    "entering": "waits for {doing} on descriptor {0}: about to arm the word",
    "armed": "waits for {doing} on descriptor {0}: about to check once more",
    "parking": "waits for {doing} on descriptor {0}: about to park",
    "parked": "waits for {doing} on descriptor {0}: parked",
    "swapping": "goes on from its wait for {doing} on descriptor {0}: about to take the word",
    "checking": "goes on from its wait for {doing} on descriptor {0}: about to check why",
}


def status_words(value: str) -> str:
    """A goroutine's status as text; empty for `idle` and `gone`."""
    name, *rest = value.split()
    if name == "owing":
        return _owing(*rest)
    side = rest[1] if len(rest) == 2 else "r"
    return STATUSES.get(name, "").format(*rest, lock=SIDES[side], doing=DOING[side])


def poll_words(value: str) -> str:
    """A descriptor's wait word as text; empty for `nil`."""
    meanings = {
        "nil": "",
        "ready": "an event came that nobody has taken",
        "wait": "a goroutine is about to park",
    }
    return meanings.get(value, f"goroutine {value[1:]} is parked")


def deadline_words(value: str) -> str:
    """The meaning of a deadline."""
    return "no deadline" if value == "0" else "has passed" if value.startswith("-") else ""


WORDS = {
    "gor": status_words,
    "lock": lock_words,
    "info": info_words,
    "rg": poll_words,
    "wg": poll_words,
    "rd": deadline_words,
    "wd": deadline_words,
}


def in_words(cell: str, value: str) -> str:
    """The meaning of a cell's value; empty if the value says everything, and for `absent`, which the caller
    explains."""
    words = WORDS.get(cell.split()[0])
    return words(value) if words and value != "absent" else ""


def dump_words(what: str, value: str) -> str:
    """The bytes of a dump as text."""
    if not what.startswith(("in", "out")) or value == "-":
        return ""
    return json.dumps(bytes.fromhex(value[:DUMPED]).decode("latin-1")) + (" .." if len(value) > DUMPED else "")


def absent_words(cell: str, limits: Mapping[str, Any]) -> str:
    """The reason why a cell is absent: no object with that number exists yet, or, by the limits in the recording's
    header, none can ever exist."""
    name, *number = cell.split()
    of = CELLS[name].of if name in CELLS else ObjectKind.SOCKET
    if of is ObjectKind.ALL:
        return "no timer is armed"
    room = limits.get({ObjectKind.GOROUTINE: "gor", ObjectKind.SOCKET: "sock", ObjectKind.DESCRIPTOR: "desc"}[of])
    if isinstance(room, int) and int(number[0]) >= room:
        return f"the recording has room for {counted(room, of.value)}, from 0 to {room - 1}"
    return f"{of.value} {number[0]} doesn't exist yet"


def duration(nanoseconds: int) -> str:
    """A time in the largest unit that fits, rounded to three digits: `200 ms`, and `1 s` for 999.9 ms."""
    size, unit = next((each for each in UNITS if nanoseconds >= 0.9995 * each[0]), UNITS[-1])
    count = nanoseconds / size
    return f"{count:.3g} {unit}" if count < 100 else f"{count:.0f} {unit}"
