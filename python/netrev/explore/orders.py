"""The orders that every schedule keeps. Some steps must precede steps of another goroutine, because the recorder saw
that the program orders them. The network's reaction to a step must follow the step. The orders are kept between
operations: one operation begins after another operation has ended."""

from collections.abc import Sequence
from typing import NamedTuple

from .control_flow import Operation, ScriptPlace

Pairs = Sequence[tuple[int, int]]


class Order(NamedTuple):
    """An order between operations of two goroutines: one goroutine's operation begins after the other goroutine's
    operation has ended."""

    operation: int
    other: int
    until: int


class Trigger(NamedTuple):
    """A recorded step to which another actor may react: its number, its goroutine, its operation, and its index in the
    operation."""

    number: int
    goroutine: int
    operation: int
    at: int


def orders_of(goroutines: list[list[Operation]], pairs: Pairs | None) -> list[list[Order]] | None:
    """For each goroutine, the operations of other goroutines that must precede its own operations, in order; None if
    the recording doesn't have the program's order."""
    if pairs is None:
        return None
    places = {
        number: (g, at)
        for g, operations in enumerate(goroutines)
        for at, operation in enumerate(operations)
        for number in operation.steps
    }
    orders: list[list[Order]] = [[] for _ in goroutines]
    for first, second in pairs:
        if first in places and second in places and places[first][0] != places[second][0]:
            (other, until), (g, operation) = places[first], places[second]
            orders[g].append(Order(operation, other, until))
    return [sorted(row) for row in orders]


def triggers_of(goroutines: list[list[Operation]], kinds: Sequence[str]) -> list[Trigger]:
    """The steps to which another actor may react, in order."""
    return sorted(
        Trigger(number, g, at, place)
        for g, operations in enumerate(goroutines)
        for at, operation in enumerate(operations)
        for place, (number, kind) in enumerate(zip(operation.steps, operation.kinds))
        if kind in kinds
    )


class OrderProgress:
    """How many orders of each goroutine, and how many triggers, a run has satisfied. `places` is the run's own list."""

    def __init__(self, orders: list[list[Order]] | None, triggers: list[Trigger], places: list[ScriptPlace]) -> None:
        self.orders, self.triggers, self.places = orders, triggers, places
        self._satisfied = [0] * len(places)
        self._triggered = 0

    def copy(self, places: list[ScriptPlace]) -> "OrderProgress":
        copy = OrderProgress(self.orders, self.triggers, places)
        copy._satisfied, copy._triggered = list(self._satisfied), self._triggered
        return copy

    def predecessor(self, g: int) -> int | None:
        """The goroutine that must continue, by the program's order, before goroutine `g` makes its next step; None if
        no goroutine must."""
        if self.orders is None:
            return None
        row, operation = self.orders[g], self.places[g].operation
        for at in range(self._satisfied[g], len(row)):
            order = row[at]
            if order.operation > operation:
                return None
            if self.places[order.other].operation <= order.until:
                return order.other
            self._satisfied[g] = at + 1
        return None

    def trigger_goroutine(self, number: int) -> int | None:
        """The goroutine that must make a step before the network's action with this number, because the action may be a
        reaction to that step. None if the action needn't wait for a goroutine."""
        while self._triggered < len(self.triggers):
            trigger = self.triggers[self._triggered]
            place = self.places[trigger.goroutine]
            if (place.operation, place.step_index) <= (trigger.operation, trigger.at):
                return trigger.goroutine if trigger.number < number else None
            self._triggered += 1
        return None
