"""The machine's state in a schedule, and the numbers that the recording's objects have there. Two schedules may create
their sockets and descriptors in different orders, so states are compared by the recording's objects."""

from typing import NamedTuple

from netrev.errors import NetrevError
from netrev.machine.in_place import STATE, Machine
from netrev.machine.machine import INSIDE, SIDES, Desc, Socket, Status, StepRefusedError, Timer
from netrev.text.contents import Answer, Limits, Step


class AnsweredStep(NamedTuple):
    """A step that was made, its answer, and its number in the recording (0: the recording doesn't have the step)."""

    step: Step
    answer: Answer
    number: int


class ImpossibleScheduleError(NetrevError):
    """Raised if a step of a call doesn't apply: the schedule isn't possible for these calls."""


class NumberedState:
    """The machine's state, and the numbers of sockets and of the uses of descriptors, with the `fdseq` of each use."""

    def __init__(self, limits: Limits) -> None:
        self.machine = Machine(limits, None)
        self.sockets: dict[int, int] = {}
        self.descriptors: dict[int, int] = {}
        self.fdseqs: dict[int, int] = {}
        self.open_uses: dict[int, int] = {}  # for each open socket, the use of its descriptor
        self._objects: tuple[dict[int, int], dict[int, int]] | None = None

    def copy(self) -> "NumberedState":
        copy = object.__new__(NumberedState)
        copy.machine = self.machine.copy()
        copy.sockets, copy.descriptors = dict(self.sockets), dict(self.descriptors)
        copy.fdseqs, copy.open_uses, copy._objects = dict(self.fdseqs), dict(self.open_uses), self._objects
        return copy

    def make(self, step: Step, number: int) -> AnsweredStep:
        """Makes a step. `number` is the step's number in the recording, or 0."""
        try:
            return AnsweredStep(step, self.machine.step(step), number)
        except StepRefusedError as refused:
            raise ImpossibleScheduleError(f"{step}: reason {refused.reason}") from None

    # ---- the objects of the recording

    def add_socket(self, socket: int, number: int) -> None:
        self.sockets[socket] = number
        self._objects = None

    def add_use(self, use: int, socket: int, number: int) -> None:
        """Records the number of the descriptor that was opened for a socket."""
        self.descriptors[use], self.fdseqs[use] = number, self.machine.descs[number].fdseq
        self.open_uses[socket] = use
        self._objects = None

    def remove_use(self, socket: int) -> None:
        """Records that a socket's descriptor was freed."""
        self.open_uses.pop(socket, None)
        self._objects = None

    def _of_numbers(self) -> tuple[dict[int, int], dict[int, int]]:
        """The sockets of the recording, keyed by their numbers in this state, and the uses, keyed by their descriptors'
        numbers."""
        if self._objects is None:
            of_socket = {number: socket for socket, number in self.sockets.items()}
            self._objects = of_socket, {self.descriptors[use]: use for use in self.open_uses.values()}
        return self._objects

    # ---- comparisons

    def is_identical_to(self, other: "NumberedState") -> bool:
        """Whether both states are the same, with the same numbers."""
        return (
            all(getattr(self.machine, name) == getattr(other.machine, name) for name in STATE)
            and self._has_the_numbers_of(other)
            and (self.fdseqs, self.open_uses) == (other.fdseqs, other.open_uses)
        )

    def is_equivalent_to(self, other: "NumberedState") -> bool:
        """Whether runs continue from both states in the same way. The numbers of sockets and descriptors may differ,
        and so may values that nothing can read any more."""
        machine, its = self.machine, other.machine
        if machine.clock != its.clock or len(machine.goroutines) != len(its.goroutines):
            return False
        if self.open_uses != other.open_uses or self.sockets.keys() != other.sockets.keys():
            return False
        has_its_numbers = self._has_the_numbers_of(other)
        return (
            ((has_its_numbers and machine.goroutines == its.goroutines) or self._statuses() == other._statuses())
            and ((has_its_numbers and machine.sockets == its.sockets) or self._has_the_sockets_of(other))
            and ((has_its_numbers and machine.descs == its.descs) or self._descriptors() == other._descriptors())
            and self._timers(machine.timers) == other._timers(its.timers)
            and self._timers(machine.firings) == other._timers(its.firings)
        )

    def _has_the_numbers_of(self, other: "NumberedState") -> bool:
        return self.sockets == other.sockets and self.descriptors == other.descriptors

    def _statuses(self) -> list[Status]:
        """The goroutines' statuses, with objects of the recording instead of numbers."""
        of_socket, of_descriptor = self._of_numbers()
        return [
            (status[0], (of_descriptor if status[0] in INSIDE else of_socket).get(status[1], -1), *status[2:])
            if len(status) > 1
            else status
            for status in self.machine.goroutines
        ]

    def _has_the_sockets_of(self, other: "NumberedState") -> bool:
        """Whether all sockets are the same, except sockets that are dead in both states."""
        pairs = (
            (self.machine.sockets[number], other.machine.sockets[other.sockets[socket]])
            for socket, number in self.sockets.items()
        )
        return all(socket == its or (_is_dead(socket) and _is_dead(its)) for socket, its in pairs)

    def _descriptors(self) -> list[Desc]:
        """The descriptors in use, without the values that remain from their earlier uses."""
        descs = (self.machine.descs[self.descriptors[use]] for use in sorted(self.open_uses.values()))
        return [desc._replace(sequences=(), fdseq=0, socket=0) for desc in descs]

    def _timers(self, timers: tuple[Timer, ...]) -> list[tuple[int, int, str, str, bool]]:
        """Timers with objects of the recording, and whether each belongs to its descriptor's last setting."""
        of_descriptor, descs = self._of_numbers()[1], self.machine.descs
        return [
            (when, of_descriptor.get(d, -1), side, function, sequence == descs[d].sequences[SIDES.index(side)])
            for when, _, d, side, function, sequence in timers
        ]


def _is_dead(socket: Socket) -> bool:
    """Whether no goroutine can do anything with a socket any more."""
    return socket.lock.closed and not socket.lock.references and not any(socket.queues)
