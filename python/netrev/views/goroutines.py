"""`info goroutines`: for each goroutine that is neither idle nor gone, what it does, and what it waits for in the
poller or elsewhere. This is usually the first query when a program hangs, so a lock is read only once even if a
thousand goroutines wait for it."""

from collections.abc import Callable, Hashable, Iterable, Mapping
from functools import cached_property
from typing import Any, NamedTuple

from netrev.connection.output import Row, Table
from netrev.connection.world import PositionValues
from netrev.recording.cell_meanings import DOING, SIDES, LockWord, status_words
from netrev.recording.recording import Step
from netrev.recording.waits import Name, ObjectWait, of_names, waits_of
from netrev.recording.where import Stack
from netrev.run.index import run_of
from netrev.run.searches import Lock
from netrev.text.plurals import counted
from netrev.text.vocabulary import ObjectKind

QUIET = ("idle", "gone")
QUEUES = {"r": "rq", "w": "wq"}
MANY = 4  # at least this many goroutines that wait for the same lock or event share a row
RUNS = 8  # the maximum number of ranges of numbers in a row


class LockQueue:
    """The goroutines that wait for one side of a socket's lock, cached for one table."""

    def __init__(self, world: PositionValues, socket: int, side: str):
        self._world, self._socket, self._side = world, socket, side

    @cached_property
    def places(self) -> dict[int, int]:
        """The goroutines' places in the semaphore's queue, from 1."""
        queue = self._world.queue(QUEUES[self._side], self._socket)
        return {goroutine: place for place, goroutine in enumerate(queue, 1)}

    @cached_property
    def word(self) -> LockWord:
        """The socket's lock word."""
        return LockWord.of(self._world.number(f"lock {self._socket}"))

    @cached_property
    def taking(self) -> Step | None:
        """The step that took the lock."""
        lock = self._socket, self._side
        return run_of(self._world.recording).takings([lock], self._world.position).get(lock)

    @property
    def is_taken(self) -> bool:
        """Whether a goroutine holds the lock."""
        return self.word.read_locked if self._side == "r" else self.word.write_locked


def lock_of(status: str) -> Lock | None:
    """The lock that a goroutine with this status waits for; None if it doesn't wait for a lock."""
    name, *rest = status.split()
    return (int(rest[0]), rest[1]) if name in ("acquiring", "queued", "relock") else None


def queues_of(world: PositionValues, statuses: Iterable[str]) -> dict[Lock, LockQueue]:
    """The queues in which goroutines with these statuses wait, keyed by lock. Each queue has the step that took the
    lock."""
    queues = {lock: LockQueue(world, *lock) for lock in map(lock_of, statuses) if lock}
    taken = [lock for lock, queue in queues.items() if queue.is_taken]
    found = run_of(world.recording).takings(taken, world.position)
    for lock in taken:
        queues[lock].taking = found.get(lock)
    return queues


class TableRow(NamedTuple):
    """The row of a goroutine, and what the row has in common with the rows of goroutines in the same wait: the lock for
    which they are queued, or words. A goroutine that doesn't sleep has neither."""

    name: Name
    row: Row
    lock: Lock | None = None
    common: tuple[str, ...] = ()


class WaitFact(NamedTuple):
    """A fact about a wait, and the words for the same fact about a group of waits; empty if a group doesn't share it."""

    text: str
    common: str


class TableWaits:
    """What the goroutines of one table wait for; `statuses` has the status of each of these goroutines."""

    def __init__(self, world: PositionValues, statuses: Mapping[int, str]):
        self._world, self._statuses = world, statuses
        self._queues = queues_of(world, statuses.values())
        self._sockets = world.sockets_of_open()

    @cached_property
    def _owing(self) -> dict[int, list[int]]:
        """The goroutines that owe a release, keyed by socket."""
        found: dict[int, list[int]] = {}
        for number, status in self._statuses.items():
            if status.startswith("owing "):
                found.setdefault(int(status.split()[1]), []).append(number)
        return found

    def row(self, goroutine: int, goid: int) -> TableRow:
        """The row of a goroutine. `goid` is Go's own number for it if several goroutines had its number in the
        recording, else 0."""
        status = self._statuses[goroutine]
        name, *rest = status.split()
        lock, facts = lock_of(status), list[WaitFact]()
        if name == "absent":
            why = "doesn't exist yet"
        elif lock:
            why = f"{status_words(status)}; {self._queue_words(goroutine, *lock)}"
        else:
            facts = self._wait_facts(int(rest[0]), rest[1]) if len(rest) == 2 else []
            why = "; ".join([status_words(status), *(fact.text for fact in facts)])
        values = {"goroutine": goroutine, **({"goid": goid} if goid else {}), "status": status, "waits_for": why}
        text = f"gor {goroutine:<4} {f'(goid {goid}) ' if goid else ''}{status:<16} {why}".rstrip()
        common = (f"parked for {DOING[rest[1]]}", *(fact.common for fact in facts)) if name == "parked" else ()
        return TableRow(Name(goroutine), Row(values, text), lock if name == "queued" else None, common)

    def _queue_words(self, goroutine: int, socket: int, side: str) -> str:
        """The goroutine's place in the queue of a lock, and the lock's holder."""
        queue = self._queues[socket, side]
        place = queue.places.get(goroutine)
        place_words = f"place {place} of {len(queue.places)}, " if place else ""
        taking = queue.taking if queue.is_taken else None
        if taking:
            return f"{place_words}goroutine {taking.argument('g')} has the lock since step {taking.number}"
        return (
            f"{place_words}the lock is taken"
            if queue.is_taken
            else f"{place_words}nobody has that lock{self._owed(socket, queue)}"
        )

    def _owed(self, socket: int, queue: LockQueue) -> str:
        """Words that name the goroutines that owe releases on a socket, and say whether the socket is closed."""
        owed = "".join(f"; goroutine {number} owes a release there" for number in self._owing.get(socket, ()))
        return owed + ("; the socket is closed" if queue.word.closed else "")

    def of_queue(self, socket: int, side: str) -> str:
        """The holder of a lock for which goroutines are queued."""
        queue = self._queues.setdefault((socket, side), LockQueue(self._world, socket, side))
        taking = queue.taking if queue.is_taken else None
        if taking:
            return f"which goroutine {taking.argument('g')} has since step {taking.number}"
        return "which is taken" if queue.is_taken else f"which nobody has{self._owed(socket, queue)}"

    def _wait_facts(self, descriptor: int, side: str) -> list[WaitFact]:
        """Describes a wait: the socket and its unread bytes, an event that the goroutine hasn't taken, and the
        deadline."""
        world, facts = self._world, []
        if descriptor in self._sockets:
            socket = self._sockets[descriptor]
            unread = world.number(f"in {socket}") if side == "r" else 0
            held = f", whose input holds {counted(unread, 'byte')} unread" if unread else ""
            facts.append(WaitFact(f"socket {socket}{held}", "bytes are unread" if unread else ""))
        word, deadline = world.values([f"{side}g {descriptor}", f"{side}d {descriptor}"])
        if word == "ready":
            facts.append(WaitFact(*["an event has come that it hasn't taken"] * 2))
        if deadline == "0":
            return [*facts, WaitFact(*["no deadline"] * 2)]
        if deadline.startswith("-"):
            return [*facts, WaitFact(*[f"the {SIDES[side]} deadline has passed"] * 2)]
        return [*facts, WaitFact(f"deadline at {deadline}, now it is {world.value('clock')}", "deadlines to come")]


def goroutines_table(world: PositionValues, numbers: Iterable[int] | None = None, is_all: bool = False) -> Table:
    """The table of the goroutines that do something or wait, of all goroutines, or of the goroutines with these
    numbers. Waiting goroutines without a step in the recording come last."""
    every = list(range(world.count(ObjectKind.GOROUTINE)) if numbers is None else numbers)
    statuses = {number: status for number, (status,) in world.of_each(every, "gor").items()}
    elsewhere = {wait.name: wait for wait in waits_of(world.recording).all_at(world.position)}
    shown = [
        number for number in every
        if is_all or numbers is not None or statuses[number] not in QUIET or Name(number) in elsewhere
    ]  # fmt: skip
    waits = TableWaits(world, statuses)
    goid = world.recording.lines.reused_goid
    rows = [waits.row(number, goid(number, world.position)) for number in shown]
    if world.recording.lines:
        busy = [number for number in shown if statuses[number] not in QUIET]
        steps = run_of(world.recording).last_steps(busy, world.position)
        rows = [
            _with_wait(row, elsewhere[row.name])
            if statuses[row.name.number] == QUIET[0] and row.name in elsewhere
            else _with_line(row, world.recording.lines.of(step := steps.get(row.name.number, 0)), step)
            for row in rows
        ]
    if numbers is None:
        rows += [row_of_wait(wait) for name, wait in sorted(elsewhere.items()) if name.is_goid]
    is_grouped = not is_all and numbers is None
    table_rows = grouped(rows, waits.of_queue) if is_grouped else [row.row for row in rows]
    left = len(statuses) - len(shown)
    return Table("goroutines", table_rows, f"{left} idle or gone: info goroutines all" if left else "")


def _with_wait(row: TableRow, wait: ObjectWait) -> TableRow:
    """The row of a goroutine that waits outside the poller, and is idle by its status."""
    values = row.row.values | {"waits_for": wait.does, "elsewhere": True}
    shown = Row(values, f"{row.row.text:<25} {wait.does}")
    return _with_line(TableRow(row.name, shown, None, (wait.does,)), wait.stack, wait.first)


def row_of_wait(wait: ObjectWait) -> TableRow:
    """The row of a goroutine that waits and has no step in the recording."""
    values = {**wait.name.values, "status": QUIET[0], "waits_for": wait.does, "elsewhere": True}
    shown = Row(values, f"{str(wait.name):<25} {wait.does}")
    return _with_line(TableRow(wait.name, shown, None, (wait.does,)), wait.stack, wait.first)


def _with_line(row: TableRow, stack: Stack, step: int) -> TableRow:
    """The row with the program's line, the step at which the goroutine got there, and the line that started it."""
    if not stack.calls:
        return row
    started = [f"started at {stack.made.place()}"] if stack.made else []
    at = "; ".join([f"{stack.words()} since step {step}", *started])
    common = (*row.common, stack.words(), *started) if row.common else ()
    return row._replace(row=Row(row.row.values | {"step": step, "at": at}, f"{row.row.text}; {at}"), common=common)


def grouped(rows: list[TableRow], holder_words: Callable[[int, str], str]) -> list[Row]:
    """The rows, with one row for many similar goroutines. `holder_words` describes the holder of a socket's lock for a
    side."""
    alike: dict[Hashable, list[TableRow]] = {}
    for at, row in enumerate(rows):
        alike.setdefault(row.lock or row.common or at, []).append(row)
    result: list[Row] = []
    for some in alike.values():
        result += [_group(some, holder_words)] if len(some) >= MANY else [row.row for row in some]
    return result


def _group(rows: list[TableRow], holder_words: Callable[[int, str], str]) -> Row:
    """One row in place of all these rows."""
    first, why = rows[0], "; ".join(filter(None, rows[0].common))
    if first.row.values.get("elsewhere"):
        each = [row.name.values | _goid(row.row) for row in rows]
        values = {"goroutines": each, "status": first.row.values["status"], "waits_for": why}
        return Row(values, f"{len(rows)} {why}: {of_names(row.name for row in rows)}")
    if first.lock:
        socket, side = first.lock
        why = f"queued for socket {socket}'s {SIDES[side]} lock, {holder_words(socket, side)}"
    numbers = [row.name.number for row in rows]
    goids = {str(row.name.number): row.row.values["goid"] for row in rows if "goid" in row.row.values}
    status = "queued" if first.lock else "parked"
    values = {"goroutines": numbers, **({"goids": goids} if goids else {}), "status": status, "waits_for": why}
    return Row(values, f"{len(rows)} {why}: goroutines {_runs(numbers)}")


def _goid(row: Row) -> dict[str, Any]:
    """The key and value for Go's own number, if the row has one."""
    return {"goid": row.values["goid"]} if "goid" in row.values else {}


def _runs(numbers: list[int]) -> str:
    """Numbers as text, with consecutive numbers as a range."""
    runs: list[list[int]] = []
    for number in sorted(numbers):
        if runs and runs[-1][1] == number - 1:
            runs[-1][1] = number
        else:
            runs.append([number, number])
    ranges = [str(first) if first == last else f"{first} to {last}" for first, last in runs[:RUNS]]
    return ", ".join(ranges) + (" .." if len(runs) > RUNS else "")
