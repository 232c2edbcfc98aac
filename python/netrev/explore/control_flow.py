"""The control flow of a goroutine's calls. A goroutine's script is a list of operations, which are the parts of its
calls. The operation and the goroutine's status determine the next step. The machine's answer to the step determines
where the goroutine continues."""

from bisect import bisect_right
from dataclasses import dataclass, field
from functools import cached_property
from typing import Any, NamedTuple

from netrev.errors import NetrevError
from netrev.run.flow import NAMES, Consequence, OperationType, came, first_step, step_by_status
from netrev.text.contents import Answer, Step

from .numbered_state import NumberedState

NEVER = float("inf")


class WrittenStream:
    """The bytes of a write, and for each offset, the data of the tries that began there."""

    def __init__(self, values: tuple[bytes, ...], moved: list[int]) -> None:
        self.tries: dict[int, list[bytes]] = {}
        self.bytes = b""
        for data, count in zip(values, moved):
            self.tries.setdefault(len(self.bytes), []).append(data)
            self.bytes += data[:count]
        if not moved[-1]:
            self.bytes += values[-1]
        self._starts = sorted(self.tries)

    def at(self, offset: int, turn: int) -> bytes:
        """The data of the next try at an offset. `turn` counts the waits since the first try there."""
        if tries := self.tries.get(offset):
            return tries[min(turn, len(tries) - 1)]
        following = bisect_right(self._starts, offset)
        return self.bytes[offset : self._starts[following] if following < len(self._starts) else len(self.bytes)]


@dataclass
class Operation:
    """A part of a call: its object, its recorded steps, and the operation with which its goroutine continues if this
    one fails."""

    sort: OperationType
    socket: int
    use: int = -1  # the use of a descriptor
    side: str = ""
    values: tuple[Any, ...] = ()  # the step's arguments other than the object and the side
    steps: list[int] = field(default_factory=list)
    kinds: list[str] = field(default_factory=list)
    moved: list[int] = field(default_factory=list)  # for each attempt to write, the number of bytes that it moved
    on_failure: int = 0
    cause: int | None = None  # for a wait without a read or write after it, the step of the event that ended it
    is_brief: bool = False  # whether the readiness for such a wait was already set
    is_raw: bool = False  # whether a function of the program, passed to RawConn, decides if the operation waits
    ends_unread: bool = False  # whether no step shows a try after its last wait

    @cached_property
    def stream(self) -> WrittenStream:
        """The bytes of a write."""
        return WrittenStream(self.values, self.moved or [0])


class ScriptPlace(NamedTuple):
    """The place of a goroutine in its script. `operation` is its current operation, and `step_index` the number of that
    operation's recorded steps that it has made."""

    operation: int = 0
    step_index: int = 0
    tries: int = 0  # for a read, the number of tries that got everything; for a write, the number of bytes written
    waits: int = 0  # the number of times that the goroutine has begun to wait
    is_waiting: bool = False
    destroys: int = -1  # the use whose descriptor the goroutine has to free


class MissingObjectError(NetrevError):
    """Raised if the object of a step doesn't exist yet. Another goroutine must first make the object."""


def number_of(operation: Operation, place: ScriptPlace, kind: str) -> int:
    """The number that a goroutine's next step, of this kind, has in the recording; 0 if the recording doesn't have that
    step."""
    index = place.step_index
    return operation.steps[index] if index < len(operation.kinds) and operation.kinds[index] == kind else 0


def next_number(operations: list[Operation], place: ScriptPlace) -> float:
    """The number of the next recorded step that a goroutine must still make."""
    index = place.step_index
    for at in range(place.operation, len(operations)):
        if index < len(operations[at].steps):
            return operations[at].steps[index]
        index = 0
    return NEVER


def next_step(state: NumberedState, g: int, place: ScriptPlace, operation: Operation) -> Step:
    """The next step of a goroutine; raises MissingObjectError if another goroutine must first make the step's object."""
    if step := step_by_status(g, state.machine.goroutines[g]):
        return step
    if place.destroys >= 0:
        return first_step(OperationType.DESTROY, g, state.descriptors[place.destroys], "", ())
    sort, values = OperationType.WAIT if place.is_waiting else operation.sort, operation.values
    if sort is OperationType.READ:
        values = (operation.values[place.tries],)
    elif sort is OperationType.WRITE:
        values = (operation.stream.at(place.tries, place.waits),)
    elif sort is OperationType.WAIT:
        values = ()
    return first_step(sort, g, _object_of(state, sort, operation), operation.side, values)


def _object_of(state: NumberedState, sort: OperationType, operation: Operation) -> int:
    """The number of the socket or descriptor that the first step of this kind of operation names; -1 if it names none."""
    of = NAMES[sort].of
    if not of:
        return -1
    numbers, which = (state.sockets, operation.socket) if of == "s" else (state.descriptors, operation.use)
    if which not in numbers:
        raise MissingObjectError
    return numbers[which]


def place_after(place: ScriptPlace, operation: Operation, kind: str, answer: Answer, status: str) -> ScriptPlace:
    """The goroutine's place after a step of this kind, which left it with this status."""
    match came(kind, answer):
        case Consequence.STAYS:
            return place
        case Consequence.FAILS:
            return ScriptPlace(operation.on_failure)
        case Consequence.WAITS:
            return place._replace(is_waiting=True, waits=place.waits + (kind == "waitbegin"))
        case Consequence.READY:
            return _place_after_wait(place, operation)
    following = ScriptPlace(place.operation + 1)
    if kind == "sysread":
        is_more = answer[1] == operation.values[place.tries] and place.tries + 1 < len(operation.values)
        return place._replace(tries=place.tries + 1) if is_more else following
    if kind == "syswrite":
        written = place.tries + answer[1]
        return place._replace(tries=written, waits=0) if written < len(operation.stream.bytes) else following
    owes = kind != "pollclose" and (status == "owing" or place.destroys >= 0)  # (a release, or a descriptor to free)
    return place if owes else following


def _place_after_wait(place: ScriptPlace, operation: Operation) -> ScriptPlace:
    """The place after a wait that ended because the descriptor was ready."""
    if operation.sort is OperationType.WAIT:
        return ScriptPlace(place.operation + 1)
    if operation.ends_unread and place.waits >= operation.kinds.count("waitbegin"):
        return ScriptPlace(operation.on_failure)
    return place._replace(is_waiting=False)
