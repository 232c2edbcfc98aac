"""The values of each cell over the positions, from netrev's changes at each step. Queues aren't cells; they are derived
from the statuses of the goroutines in them."""

from collections.abc import Iterable, Iterator
from dataclasses import dataclass
from functools import partial

from netrev.connection.netrev import Netrev
from netrev.connection.scout import Scout
from netrev.connection.world import COUNTED_BY, count_at, room_for
from netrev.messages import searches as messages
from netrev.recording.recording import Recording
from netrev.recording.step_changes import RecordedChanges
from netrev.session.session import UsageError
from netrev.text.vocabulary import CELLS, ObjectKind

Runs = dict[str, list[tuple[int, str]]]  # for each cell, the positions at which its value changes, with the new value
COMPARED = 16  # the number of positions at which all cells are compared
QUEUES = ("rq", "wq")
NAMES = {of: [cell.name for cell in CELLS.values() if cell.of is of] for of in ObjectKind}
NAMES[ObjectKind.SOCKET] += QUEUES


@dataclass(frozen=True)
class Window:
    """The first and the last position that are shown."""

    first: int
    last: int

    def compared(self) -> list[int]:
        """The positions at which all cells are compared: the last position, and further positions at regular
        intervals."""
        every = max((self.last - self.first) // COMPARED, 1)
        return [*range(self.first, self.last, every), self.last]


def runs_of(recording: Recording, scout: Scout, changes: RecordedChanges, window: Window) -> tuple[Runs, int]:
    """The runs of all cells and queues, and the number of positions at which the runs were compared with netrev's
    answers."""
    cells = scout.look(window.last, partial(existing_cells, recording))
    start = dict(zip(cells, shown_of(scout, cells, window.first)))
    queues = Queues(start)
    runs: Runs = {cell: [(window.first, value)] for cell, value in start.items()}
    for step, changed in changes.between(window.first, window.last):
        for cell, value in (*changed, *queues.follow(changed)):
            runs[cell].append((step, value))
    first, *compared = window.compared()
    for position in compared:
        _compare(scout, runs, position)
    return runs, len((first, *compared))


def existing_cells(recording: Recording, netrev: Netrev) -> list[str]:
    """All cells of the objects that exist at netrev's position, and the queues."""
    counts = {of: count_at(netrev, of, room_for(recording, of)) for of in COUNTED_BY}
    numbered = (f"{name} {number}" for of, count in counts.items() for number in range(count) for name in NAMES[of])
    return [*NAMES[ObjectKind.ALL], *numbered]


def shown_of(scout: Scout, cells: Iterable[str], position: int) -> list[str]:
    """netrev's values of these cells and queues at a position."""
    looks = [f"dump {cell}" if cell.startswith(QUEUES) else f"print {cell}" for cell in cells]
    return scout.look(position, lambda netrev: netrev.looks(looks))


class Queues:
    """The queues, which begin with netrev's values and are updated by the statuses of the goroutines in them. A new
    goroutine goes to the end of its queue."""

    def __init__(self, start: dict[str, str]) -> None:
        self._statuses = {cell: value for cell, value in start.items() if cell.startswith("gor ")}
        queues = {cell: value for cell, value in start.items() if cell.startswith(QUEUES) and value != "absent"}
        self._standing = {queue: value.split() if value != "-" else [] for queue, value in queues.items()}

    def shown(self, queue: str) -> str:
        """A queue in netrev's form."""
        standing = self._standing.get(queue)
        return "absent" if standing is None else " ".join(standing) or "-"

    def follow(self, changed: list[tuple[str, str]]) -> Iterator[tuple[str, str]]:
        """Updates the queues for a step that changes these cells. Yields the queues that change, with their new
        values."""
        touched: dict[str, None] = {}
        for cell, value in changed:
            if cell.startswith("lock ") and f"rq {cell[5:]}" not in self._standing:
                new_queues = [f"{queue} {cell[5:]}" for queue in QUEUES]
                self._standing |= {queue: [] for queue in new_queues}
                touched |= dict.fromkeys(new_queues)
            if cell.startswith("gor "):
                touched |= dict.fromkeys(self._moved(cell, value))
        return ((queue, self.shown(queue)) for queue in touched)

    def _moved(self, cell: str, status: str) -> Iterator[str]:
        """Moves a goroutine between queues as its new status says. Yields each queue that the goroutine leaves or
        joins."""
        before, self._statuses[cell] = self._statuses.get(cell, ""), status
        if before.startswith("queued "):
            self._standing[_queue(before)].remove(cell[4:])
            yield _queue(before)
        if status.startswith("queued "):
            self._standing[_queue(status)].append(cell[4:])
            yield _queue(status)


def _queue(status: str) -> str:
    """The queue in which a goroutine with this status waits."""
    _, socket, side = status.split()
    return f"{side}q {socket}"


def _compare(scout: Scout, runs: Runs, position: int) -> None:
    """Compares all cells and queues with netrev's values at a position; raises UsageError if any value differs."""
    for (cell, run), shown in zip(runs.items(), shown_of(scout, runs, position)):
        if shown != (expected := value_at(run, position)):
            words = {"cell": cell, "answer": shown, "position": position, "value": expected}
            raise UsageError(messages.VALUE_DIFFERS.format(**words))


def value_at(run: list[tuple[int, str]], position: int) -> str:
    """The value that a run has at a position."""
    low, high = 0, len(run)
    while high - low > 1:
        middle = (low + high) // 2
        low, high = (middle, high) if run[middle][0] <= position else (low, middle)
    return run[low][1]
