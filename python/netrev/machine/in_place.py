"""The machine, changed in place: the 31 functions of steps.py work on it as on a World. It stores the changes of each
step, so that a refused step changes nothing, the last steps can be undone, and callers can ask what a step changed."""

from __future__ import annotations

from collections import deque
from typing import Any, NamedTuple, TypeVar

from netrev.text.contents import Answer, Limits, Step

from .machine import IDLE, INSIDE, Desc, Socket, Status, StepRefusedError, Timer, World
from .steps import OF_KIND

ONE_OF_MANY = ("goroutines", "sockets", "descs")
STATE = World._fields
Itself = TypeVar("Itself", bound="Machine")
WHOLE = -1  # the place for all other parts, each of which is replaced as a whole


class MachineChange(NamedTuple):
    """A change with the old value. If a goroutine, socket or descriptor changed, the old value is the old object at
    that place, or None if the object is new. If any other part changed, the old value is the whole part."""

    of: str
    place: int
    old: Any


Changes = list[MachineChange]  # the changes of one step, in order


class Machine:
    """The state, and the changes of the last `remembers` steps (None: of all steps)."""

    __slots__ = (*STATE, "steps", "_changes", "_seats")

    def __init__(self, limits: Limits, remembers: int | None = 1) -> None:
        self.limits = limits
        self.clock, self.waiters, self.next_number = 0, 0, 1
        self.goroutines: list[Status] = [IDLE]
        self.sockets: list[Socket] = []
        self.descs: list[Desc] = []
        self.free: tuple[int, ...] = ()
        self.timers: tuple[Timer, ...] = ()
        self.firings: tuple[Timer, ...] = ()
        self.steps: deque[Changes] = deque(maxlen=remembers)  # the changes of the last `remembers` steps
        self._changes: Changes = []
        self._seats: dict[tuple[Any, ...], int] = {}  # the goroutine inside the wait of a descriptor and side

    @property
    def changes(self) -> Changes:
        """The changes of the last step."""
        return self.steps[-1] if self.steps else []

    def step(self, step: Step) -> Answer:
        """Makes a step and returns its answer. If it raises StepRefusedError, nothing has changed."""
        changes: Changes = []
        self._changes = changes
        try:
            _, answer = OF_KIND[step[0]](self, *step[1:])
        except StepRefusedError:
            self._lead_back(changes)
            raise
        self.steps.append(changes)
        return answer

    def undo(self) -> bool:
        """Undoes the last step; returns whether a step was stored."""
        if not self.steps:
            return False
        self._lead_back(self.steps.pop())
        return True

    def copy(self: Itself) -> Itself:
        """A copy of the machine, without any step to undo."""
        copy = object.__new__(type(self))
        for name in STATE:
            value = getattr(self, name)
            setattr(copy, name, list(value) if name in ONE_OF_MANY else value)
        copy.steps, copy._changes, copy._seats = deque(maxlen=self.steps.maxlen), [], dict(self._seats)
        return copy

    def world(self) -> World:
        """A snapshot of the machine."""
        return World(
            self.limits, self.clock, self.waiters, self.next_number, tuple(self.goroutines), tuple(self.sockets),
            tuple(self.descs), self.free, self.timers, self.firings,
        )  # fmt: skip

    # the attributes of a World that the functions of steps.py need

    def is_open(self, d: int) -> bool:
        return d < len(self.descs) and d not in self.free

    def inside(self, d: int, side: str) -> list[int]:
        """The goroutines (at most one) that are inside a wait on this side of the descriptor."""
        g = self._seats.get((d, side))
        return [] if g is None else [g]

    def with_status(self, g: int, status: Status) -> Machine:
        self._changes.append(MachineChange("goroutines", g, self.goroutines[g]))
        self._sits(g, status)
        return self

    def with_socket(self, s: int, **changes: Any) -> Machine:
        old = self.sockets[s]
        self._changes.append(MachineChange("sockets", s, old))
        self.sockets[s] = old._replace(**changes)
        return self

    def with_desc(self, d: int, **changes: Any) -> Machine:
        old = self.descs[d]
        self._changes.append(MachineChange("descs", d, old))
        self.descs[d] = old._replace(**changes)
        return self

    def _replace(self, **changes: Any) -> Machine:
        for name, value in changes.items():
            old = getattr(self, name)
            if name in ONE_OF_MANY:
                self._put_all(name, old, value)
            else:
                self._changes.append(MachineChange(name, WHOLE, old))
                setattr(self, name, value)
        return self

    def _put_all(self, name: str, old: list[Any], items: tuple[Any, ...]) -> None:
        """Replaces the goroutines, sockets or descriptors; one of them may be new."""
        if len(items) != len(old):
            self._changes.append(MachineChange(name, len(old), None))
            old.extend(items[len(old) :])
            return
        for place, item in enumerate(items):
            if item is not old[place]:
                self._changes.append(MachineChange(name, place, old[place]))
                old[place] = item

    def _sits(self, g: int, status: Status) -> None:
        """Sets a goroutine's status, and updates which goroutines are inside a wait."""
        old = self.goroutines[g]
        if old[0] in INSIDE:
            del self._seats[old[1:]]
        if status[0] in INSIDE:
            self._seats[status[1:]] = g
        self.goroutines[g] = status

    def _lead_back(self, changes: Changes) -> None:
        """Undoes these changes, from the last to the first."""
        for of, place, old in reversed(changes):
            if place == WHOLE:
                setattr(self, of, old)
            elif old is None:
                getattr(self, of).pop()
            else:
                self.put(of, place, old)
        changes.clear()

    def put(self, of: str, place: int, item: Any) -> None:
        """Replaces a goroutine's status, a socket or a descriptor at a place."""
        if of == "goroutines":
            self._sits(place, item)
        else:
            getattr(self, of)[place] = item
