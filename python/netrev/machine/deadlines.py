"""The machine's timers alone, for callers that don't need its other parts: a heap of armed timers, and the timers that
went off but haven't run."""

from __future__ import annotations

import heapq
from collections import defaultdict
from dataclasses import dataclass, field
from typing import Any

from .machine import SIDES
from .polling import are_both, followed

READING, WRITING = 0, 1
FEWEST = 64  # the number of timers above which the heap is swept


@dataclass(eq=False, slots=True)
class DeadlineTimer:
    """A timer that is armed or has gone off: its descriptor, the sides that it covers, and the step that set the
    deadline."""

    due: int
    descriptor: int
    side: int
    sequence: int
    covers: str
    setter: Any
    armed: bool = True


@dataclass(slots=True)
class DescriptorDeadlines:
    """The deadlines of a descriptor and their timers; each pair has an element for reading and one for writing."""

    closing: bool = False
    deadlines: list[int] = field(default_factory=lambda: [0, 0])
    sequences: list[int] = field(default_factory=lambda: [0, 0])
    running: list[bool] = field(default_factory=lambda: [False, False])
    timers: list[DeadlineTimer | None] = field(default_factory=lambda: [None, None])
    setters: list[Any] = field(default_factory=lambda: [None, None])


class Deadlines:
    """All descriptors' deadlines, the armed timers, and the timers that went off."""

    def __init__(self) -> None:
        self.descriptors: dict[int, DescriptorDeadlines] = {}
        self.heap: list[tuple[int, int, DeadlineTimer]] = []  # including stopped timers
        self._room = FEWEST  # the heap is swept above this number
        self.firings: list[DeadlineTimer] = []
        self._keys: list[tuple[int, int, int]] = []  # the descriptor, side and sequence of each firing
        self._counts: dict[tuple[int, int, int], int] = defaultdict(int)  # how often each of these is in the list
        self.armings = 0
        self.most_firings = 0

    def open(self, number: int) -> tuple[int, int]:
        """Opens a descriptor, and returns its sequences at that time."""
        descriptor = self.descriptors.setdefault(number, DescriptorDeadlines())
        descriptor.closing = False
        descriptor.deadlines = [0, 0]
        for side in (READING, WRITING):
            descriptor.sequences[side] += 1
        return descriptor.sequences[READING], descriptor.sequences[WRITING]

    def armed(self, number: int, side: int) -> DeadlineTimer | None:
        timer = self.descriptors[number].timers[side]
        return timer if timer and timer.armed else None

    @staticmethod
    def disarm(descriptor: DescriptorDeadlines, side: int) -> None:
        timer = descriptor.timers[side]
        if timer:
            timer.armed = False
            descriptor.timers[side] = None

    def evict(self, number: int) -> None:
        descriptor = self.descriptors[number]
        descriptor.closing = True
        for side in (READING, WRITING):
            descriptor.sequences[side] += 1
            descriptor.running[side] = False
            self.disarm(descriptor, side)

    def changing(self, number: int, mode: str, deadline: int) -> list[tuple[int, bool]]:
        """The sides whose timers a new deadline changes, and whether each side has a timer afterwards."""
        descriptor = self.descriptors[number]
        if descriptor.closing:
            return []
        read, write = old = descriptor.deadlines
        new = (deadline if "r" in mode else read, deadline if "w" in mode else write)
        changes = []
        for side, is_running in enumerate(descriptor.running):
            # (most descriptors neither have nor get a timer for writing)
            if (is_running or new[side] > 0) and (wants := followed(is_running, side, old, new)) is not None:
                changes.append((side, wants))
        return changes

    def set(
        self, number: int, mode: str, deadline: int, setter: Any = None, changes: list[tuple[int, bool]] | None = None
    ) -> None:
        """Sets the deadline. `changes` is the result of `changing`, if that was computed already."""
        descriptor = self.descriptors[number]
        if descriptor.closing:
            return
        if changes is None:
            changes = self.changing(number, mode, deadline)
        if "r" in mode:
            descriptor.deadlines[READING], descriptor.setters[READING] = deadline, setter
        if "w" in mode:
            descriptor.deadlines[WRITING], descriptor.setters[WRITING] = deadline, setter
        for side, wants in changes:
            descriptor.sequences[side] += descriptor.running[side]
            descriptor.running[side] = wants
            self.disarm(descriptor, side)
            if wants:
                self.arm(number, descriptor, side)

    def arm(self, number: int, descriptor: DescriptorDeadlines, side: int) -> None:
        covers = SIDES if are_both(descriptor.deadlines) else SIDES[side]
        due = descriptor.deadlines[side]
        timer = DeadlineTimer(due, number, side, descriptor.sequences[side], covers, descriptor.setters[side])
        descriptor.timers[side] = timer
        self.armings += 1
        if len(self.heap) >= self._room:
            self._sweep()
        heapq.heappush(self.heap, (due, self.armings, timer))

    def _sweep(self) -> None:
        """Removes stopped timers from the heap, because most timers are stopped long before they are due."""
        self.heap = [entry for entry in self.heap if entry[2].armed]
        heapq.heapify(self.heap)
        self._room = max(FEWEST, 2 * len(self.heap))

    def least(self) -> DeadlineTimer | None:
        while self.heap and not self.heap[0][2].armed:
            heapq.heappop(self.heap)
        return self.heap[0][2] if self.heap else None

    def pop(self) -> DeadlineTimer | None:
        """Lets the first timer go off, if a timer is armed."""
        timer = self.least()
        if timer:
            timer.armed = False
            self.firings.append(timer)
            key = timer.descriptor, timer.side, timer.sequence
            self._keys.append(key)
            self._counts[key] += 1
            self.most_firings = max(self.most_firings, len(self.firings))
        return timer

    def place(self, number: int, side: int, sequence: int) -> int | None:
        """The index of a firing in the list, or None."""
        key = number, side, sequence
        return self._keys.index(key) if self._counts.get(key) else None  # (this usually saves a scan of hundreds)

    def fire(self, place: int, sides: str = "") -> tuple[DeadlineTimer, bool]:
        """Runs the function of a timer for these sides; by default, for the sides that the timer covers. Returns the
        timer, and whether it is stale."""
        firing = self.firings.pop(place)
        self._counts[self._keys.pop(place)] -= 1
        descriptor = self.descriptors[firing.descriptor]
        is_stale = descriptor.sequences[firing.side] != firing.sequence
        for side in (READING, WRITING):
            if not is_stale and SIDES[side] in (sides or firing.covers):
                descriptor.deadlines[side] = -1
        return firing, is_stale
