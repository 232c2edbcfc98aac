"""Finds a history for the replies of all fronts of a session, or reports that none exists.

A history is an order of all lines that keeps each front's own order. If a line's reply was read before another line was
sent, the line comes before the other line. Each reply is what netrev.machine's debugger replies after the earlier
commands. So a query shows a state that the session had after the query was sent and before its reply was read. This
state is no older than the last state that the query's front has seen. Once the journal is full, each further command
gets the reply that says so.

The search goes from the beginning, and decides at each point which front's line comes next. If a line is a query or got
a fault, and its reply fits here, the search takes the line at once. This loses no history, because the line changes
nothing and could come this early in any history. If several commands fit, the search first tries the commands whose
replies show where they began (such as the reply to `stepi`). The search doesn't leave a position if remaining lines
need the position and can't reach it again. It doesn't delete a mark that another line still shows. It doesn't enter the
same state with the same remaining lines twice.
"""

from __future__ import annotations

import re
from collections import Counter
from collections.abc import Sequence
from dataclasses import dataclass
from itertools import accumulate
from typing import Any, NamedTuple

from netrev.errors import NetrevError
from netrev.machine.debugger_model import (
    CHECKPOINTS_FULL,
    FULL,
    MARKS_FULL,
    DebuggedRecording,
    Reply,
    Request,
    SharedState,
    is_command,
)

from .sharing import Exchange

AT = re.compile(r"at (\d+)( end| start)?( by [\d ]+)?$")
CHECKPOINT = re.compile(r"checkpoint (\d+) at (\d+)$")
POSITION = re.compile(r"at (\d+) of \d+ (forward|reverse)$")
DELETED = re.compile(r"deleted (mark|checkpoint) (\d+)$")

Name = tuple[str, int]  # a mark or a checkpoint: its sort and number
Choice = tuple[int, SharedState]  # a front, and the state after its next line


class Clue(NamedTuple):
    """The constraints that a reply puts on its place in a history, whatever the earlier lines are."""

    leads_to: int | None = None  # the position after it
    stands_at: frozenset[int] = frozenset()  # the positions at which it may have been answered, if there are few
    moves: bool = False  # whether it moves from there to another position
    shows: frozenset[Name] = frozenset()  # the marks and checkpoints that it shows to exist
    takes_away: Name | None = None  # the mark or checkpoint that it deletes

    @staticmethod
    def of(exchange: Exchange) -> Clue:
        sort, what, first = exchange.asked.sort, exchange.asked.what, exchange.reply[0]
        if moved := AT.match(first):
            return Clue.of_move(sort, what, *moved.groups())
        if made := CHECKPOINT.match(first):
            return Clue(stands_at=frozenset([int(made[2])]))
        if position := POSITION.match(first):
            return Clue(stands_at=frozenset([int(position[1])]))
        if deleted := DELETED.match(first):
            return Clue(takes_away=(deleted[1], int(deleted[2])))
        if sort == "info":
            kind = "mark" if what == "breakpoints" else "checkpoint"
            return Clue(shows=frozenset((kind, int(line.split(" ")[0])) for line in exchange.reply[1:]))
        return Clue()

    @staticmethod
    def of_move(sort: str, what: Any, position: str, edge: str | None, numbers: str | None) -> Clue:
        there = int(position)
        if sort == "step" and not edge:
            count, backwards = what
            begins = [there + count] if backwards else [there - count, there + count]
            return Clue(there, frozenset(begins), moves=True)
        if sort == "restart":
            return Clue(there, shows=frozenset([("checkpoint", what)]))
        if numbers:
            return Clue(there, shows=frozenset(("mark", int(number)) for number in numbers.split()[1:]))
        return Clue(there)


def earliest(numbers: list[int]) -> list[int]:
    """For each index, the smallest of the numbers from that index to the end."""
    least: list[int] = list(accumulate(reversed(numbers), lambda item, other: min(item, other)))
    return least[::-1]


class SearchLimitError(NetrevError):
    """Raised if the search has tried too many orders."""


class Search:
    """A search for a history that explains all replies. `fronts` has a list for each front: its lines, in order, with
    their replies."""

    def __init__(
        self, recording: DebuggedRecording, fronts: Sequence[Sequence[Exchange]], room: int, most: int = 1_000_000
    ) -> None:
        self.recording = recording
        self.fronts = [list(front) for front in fronts]
        self.left = most
        # for each line, the time at which a reply to it or to a later line of its front was first read
        self.known = [earliest([item.read for item in front]) for front in self.fronts]
        self.state = SharedState()
        self.order: list[int] = []
        self.taken = [0] * len(fronts)
        self.clues = self.read_clues()
        # counts of the remaining lines: those that must be placed; those that lead to a position, leave it, or are
        # answered there; and those that show a mark or checkpoint
        self.unplaced = 0
        self.entries: Counter[int | None] = Counter()
        self.leaves: Counter[int] = Counter()
        self.stays: Counter[int] = Counter()
        self.shown: Counter[Name] = Counter()
        for front, exchanges in enumerate(self.fronts):
            for at in range(len(exchanges)):
                self.count(front, at, 1)
        self.is_full = self.unplaced == room
        self.fits_in = self.unplaced <= room
        replies = {item.reply for front in self.fronts for item in front}
        self.are_full = not replies.isdisjoint({(MARKS_FULL,), (CHECKPOINTS_FULL,)})

    def read_clues(self) -> list[list[Clue]]:
        """The clues of all lines, restricted to positions that some line leads to."""
        clues = [[Clue.of(item) for item in front] for front in self.fronts]
        reached = {0, *(clue.leads_to for front in clues for clue in front if clue.leads_to is not None)}
        return [[clue._replace(stands_at=clue.stands_at & reached) for clue in front] for front in clues]

    def count(self, front: int, at: int, more: int) -> None:
        """Adds a line to the remaining lines, or removes it from them."""
        clue = self.clues[front][at]
        self.unplaced += more * self.fronts[front][at].is_placed()
        if clue.leads_to is not None:
            self.entries[clue.leads_to] += more
        if len(clue.stands_at) == 1:
            (place,) = clue.stands_at
            (self.leaves if clue.moves else self.stays)[place] += more
        for name in clue.shows:
            self.shown[name] += more

    def next_of(self, front: int) -> Exchange:
        return self.fronts[front][self.taken[front]]

    def clue_of(self, front: int) -> Clue:
        return self.clues[front][self.taken[front]]

    def open_fronts(self) -> list[int]:
        """The fronts whose next line can come next in the history: it was sent before the first reply to any remaining
        line was read."""
        left = [front for front, at in enumerate(self.taken) if at < len(self.fronts[front])]
        first: int = min((self.known[front][self.taken[front]] for front in left), default=0)
        return [front for front in left if self.next_of(front).sent < first]

    def behind(self, front: int) -> SharedState | None:
        """The state after the front's next line if the line fits now, else None."""
        self.left -= 1
        if self.left < 0:
            raise SearchLimitError
        exchange = self.next_of(front)
        if exchange.reply == (FULL,):
            return self.state if is_command(exchange.asked) and self.is_full and not self.unplaced else None
        state, reply = self.recording.answer(self.state, exchange.asked)
        return state if reply == exchange.reply and self.may_leave(front, state) else None

    def may_leave(self, front: int, state: SharedState) -> bool:
        """Whether the replies to the other remaining lines are still possible if the front's next line comes now."""
        clue = self.clue_of(front)
        if clue.takes_away and self.shown[clue.takes_away]:
            return False
        if len(state.marks) < len(self.state.marks) and not clue.takes_away:
            stopped = {("mark", number) for number, _ in set(self.state.marks) - set(state.marks)}
            if any(self.shown[name] > (name in clue.shows) for name in stopped):
                return False
        here = self.state.position
        if state.position == here:
            return True
        leaves = self.leaves[here] - (clue.moves and clue.stands_at == {here})
        return leaves <= self.entries[here] and (self.entries[here] > 0 or not self.stays[here])

    def take(self, front: int, state: SharedState) -> None:
        """Adds a front's next line to the history."""
        self.count(front, self.taken[front], -1)
        self.taken[front] += 1
        self.order.append(front)
        self.state = state

    def back_to(self, length: int, state: SharedState) -> None:
        """Returns to the state after this many lines."""
        while len(self.order) > length:
            front = self.order.pop()
            self.taken[front] -= 1
            self.count(front, self.taken[front], 1)
        self.state = state

    def choices(self) -> list[Choice]:
        """Takes all lines that fit now and don't change the state. Returns the lines that fit after these, best last."""
        while True:
            fitting = [(front, state) for front in self.open_fronts() if (state := self.behind(front)) is not None]
            calm = [choice for choice in fitting if self.next_of(choice[0]).is_calm()]
            free = [choice for choice in fitting if self.may_go_now(choice[0])]
            if not calm and not free:
                return sorted(fitting, key=self.worth)
            for choice in calm or free[:1]:
                self.take(*choice)

    def may_go_now(self, front: int) -> bool:
        """Whether the front's next line may come as soon as it fits. This holds if the line deletes a mark or
        checkpoint, and no reply of the session says that there is no room for more of them."""
        return bool(self.clue_of(front).takes_away) and not self.are_full

    def worth(self, choice: Choice) -> tuple[bool, int]:
        """The priority of a line: lines that show where they began come first, ordered by the time at which they were
        read."""
        front, _ = choice
        return bool(self.clue_of(front).stands_at), -self.next_of(front).read

    def find(self) -> list[int] | None:
        """The fronts in the order of a history; None if there is none."""
        if not self.fits_in:
            return None
        seen = set()
        # the points at which the search may continue: the count of lines taken, the state, and the choices left to try,
        # if they are known yet
        forks: list[tuple[int, SharedState, list[Choice] | None]] = [(0, self.state, None)]
        while forks:
            length, state, choices = forks.pop()
            self.back_to(length, state)
            if choices is None:
                choices = self.choices()
                if len(self.order) == sum(map(len, self.fronts)):
                    return self.order
                here = (tuple(self.taken), self.state)
                if here in seen:
                    continue
                seen.add(here)
                length, state = len(self.order), self.state
            if not choices:
                continue
            front, behind = choices.pop()
            if choices:
                forks.append((length, state, choices))
            self.take(front, behind)
            forks.append((len(self.order), self.state, None))
        return None
