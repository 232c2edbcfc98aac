"""Go's control flow for a socket (internal/poll, runtime/netpoll): the next step of a goroutine, given its status and
its operation, and what follows each answer. A call is a list of operations; `Read` locks, resets, reads and unlocks."""

from enum import Enum, auto
from typing import Any, NamedTuple

from netrev.machine.machine import Status
from netrev.text.contents import Answer, Step
from netrev.text.vocabulary import KINDS


class OperationType(Enum):
    """The type of an operation, named by the kind of its first step. A read, a write and a wait repeat until they are
    done."""

    MAKE = "sockopen"
    OPEN = "pollopen"
    LOCK = "rwlock"
    UNLOCK = "rwunlock"
    RESET = "pollreset"
    WAIT = "waitbegin"
    READ = "sysread"
    WRITE = "syswrite"
    REFER = "incref"
    GIVE_UP = "decref"
    CLOSE = "increfclose"
    EVICT = "evict"
    DESTROY = "pollclose"
    SET = "setdeadline"
    SHUT = "closewrite"
    EXIT = "exit"


SORTS = {sort.value: sort for sort in OperationType}  # by the kind of the first step
ENDS = {
    OperationType.UNLOCK: (OperationType.LOCK,),
    OperationType.GIVE_UP: (OperationType.REFER, OperationType.CLOSE),
}  # for each key, the operations that it ends
# the operations between the first and the last of a call; they are skipped if an earlier operation failed
TRIES = (OperationType.RESET, OperationType.WAIT, OperationType.READ, OperationType.WRITE)

# the step that a goroutine with this status makes, whatever its operation; a sleeping goroutine makes no step
BY_STATUS = {
    "acquiring": "acquire",
    "relock": "rwlock",
    "owing": "release",
    "entering": "blockarm",
    "armed": "blockcheck",
    "parking": "parkcommit",
    "swapping": "blockswap",
    "checking": "waitcheck",
}
ASLEEP = ("parked", "queued")


class Names(NamedTuple):
    """The objects that the first step of an operation names: a goroutine, a socket or a descriptor, and a side or a
    mode."""

    goroutine: bool
    of: str
    side: bool


def _names(sort: OperationType) -> Names:
    forms = KINDS[sort.value].arguments
    return Names("g" in forms, next((form for form in forms if form in "sd"), ""), "side" in forms or "mode" in forms)


NAMES = {sort: _names(sort) for sort in OperationType}


def step_by_status(g: int, status: Status) -> Step | None:
    """The next step of a goroutine by its status; None if it is idle, has ended or sleeps."""
    if status[0] not in BY_STATUS:
        return None
    kind = BY_STATUS[status[0]]
    return (kind, g, *status[1:]) if kind in SORTS else (kind, g)


def first_step(sort: OperationType, g: int, which: int, side: str, values: tuple[Any, ...]) -> Step:
    """The step with which an operation begins or tries again; if the operation names a socket or a descriptor, the step
    is at that object."""
    names = NAMES[sort]
    named = (*((g,) if names.goroutine else ()), *((which,) if names.of else ()), *((side,) if names.side else ()))
    return sort.value, *named, *values


class Consequence(Enum):
    """The consequence of an answer."""

    # the operation, or a part of it, is over; it continues if something is left to read, write or release
    OVER = auto()
    STAYS = auto()  # the status determines the next step
    WAITS = auto()  # it waits first
    READY = auto()  # the wait is over
    FAILS = auto()


LAST = ("last",)  # the goroutine gave up the last reference to the closed descriptor and must destroy it
CODES = {"code 0": Consequence.OVER, "code": Consequence.FAILS}
STAYS = {"yes": Consequence.STAYS, "no": Consequence.STAYS, "wait": Consequence.STAYS}
# the consequence, by the kind of a step and its answer (`code` is any code but 0), if the operation isn't over
ANSWERS = {
    "incref": {"no": Consequence.FAILS},
    "increfclose": {"no": Consequence.FAILS},
    "rwlock": {"no": Consequence.FAILS, "wait": Consequence.STAYS},
    "acquire": STAYS,
    "pollreset": CODES,
    "waitbegin": CODES | {"code 0": Consequence.WAITS},
    "blockarm": STAYS | {"code 0": Consequence.READY},
    "blockcheck": {"code 0": Consequence.STAYS, "code": Consequence.STAYS},
    "parkcommit": STAYS,
    "blockswap": STAYS | {"yes": Consequence.READY},
    "waitcheck": CODES | {"code 0": Consequence.STAYS},
    "sysread": {"again": Consequence.WAITS, "eof": Consequence.FAILS},
    "syswrite": {"again": Consequence.WAITS, "pipe": Consequence.FAILS},
}


def came(kind: str, answer: Answer) -> Consequence:
    """The consequence of an answer to a step of this kind."""
    row = ANSWERS.get(kind)
    if row is None:
        return Consequence.OVER
    return row.get("code 0" if answer == ("code", 0) else answer[0], Consequence.OVER)
