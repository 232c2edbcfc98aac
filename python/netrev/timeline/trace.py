"""The run as Chrome's trace events in JSON, for Perfetto. Each goroutine is a thread, with slices for its calls,
statuses and steps, and flows from the step that woke a goroutine to that goroutine's next status. The trace also has
deadlines, the clock, and what went wrong. Each step takes a microsecond. If a recording begins in the middle of a run,
so does the trace.

The statuses, the deadlines and the clock come from netrev's list of changes. At some positions, the statuses of all
goroutines are compared with netrev's answers. Calls and suspects are nrdb's own."""

import gzip
import io
from collections import Counter
from collections.abc import Callable, Iterator
from contextlib import contextmanager
from itertools import chain, islice, repeat
from pathlib import Path
from typing import IO, Any, cast

from netrev.connection.beginnings import begin_words, begins_at
from netrev.connection.scout import Scout
from netrev.messages import searches as messages
from netrev.recording.recording import SHOWN, Recording, shortened
from netrev.recording.step_changes import RecordedChanges, value_at_start
from netrev.recording.where import SourceLines
from netrev.session.files import writing
from netrev.session.session import Session, UsageError
from netrev.text.plain import plain
from netrev.text.vocabulary import OF_A_GOROUTINE

from .calls import names_data
from .cell_runs import Window
from .other_trace_events import beside
from .searched_cells import STATUSES, STATUSES_AND_CLOCK, searched
from .trace_events import GOROUTINES, NETWORK, Event, of_json

COMPARED = 64  # the number of positions at which statuses are compared
POLLER, TIMERS, CLOCK = range(3)  # threads of the second process, before the sockets
SOCKETS = 10  # the number of the first socket's thread
BY_A_GOROUTINE = frozenset(OF_A_GOROUTINE)
QUIET = frozenset(("idle", "gone"))
AT_ONCE = 1_024  # the number of events that are written together
END = (str(2**64), "", "")  # an entry after the last change

Statuses = dict[int, str]  # the statuses of goroutines


def write_trace(session: Session, path: str) -> str:
    """Writes the trace, and returns the line that reports it."""
    recording, scout = session.text(), session.looks()
    tracing = Tracing(recording, session.changes())
    compared = _compared(scout, recording, session.changes())
    with packed(path, session.path) as file:
        events = tracing.events_together(Path(session.path).name, session.interrupts.check)
        write_events(file, chain(events, together(beside(recording, session.changes(), scout))))
    steps = recording.length - tracing.begins
    words = f"; {words}" if (words := begin_words(recording)) else ""
    return f"{path}: {steps} steps, {tracing.slices} slices, {tracing.flows} wake-ups; statuses as netrev has them at {compared} positions{words}"


@contextmanager
def packed(path: str, recording: str) -> Iterator[IO[str]]:
    """A file to write, compressed with gzip if its name ends in .gz."""
    if not path.endswith(".gz"):
        with writing(path, recording) as file:
            yield file
        return
    with writing(path, recording, "wb") as file, gzip.GzipFile("", "wb", 6, file, 0) as inner:
        with io.TextIOWrapper(cast(IO[bytes], inner), encoding="utf-8", write_through=True) as text:
            yield text


def together(events: Iterator[str]) -> Iterator[list[str]]:
    """The events in large groups."""
    return iter(lambda: list(islice(events, AT_ONCE)), [])


def write_events(file: IO[str], events: Iterator[list[str]]) -> None:
    """Writes the events in large groups."""
    file.write('{"displayTimeUnit":"ns","traceEvents":[')
    before = "\n"
    for some in events:
        file.write(before + ",\n".join(some))
        before = ",\n"
    file.write("\n]}\n")


def _compared(scout: Scout, recording: Recording, changes: RecordedChanges) -> int:
    """The number of positions at which netrev shows the same statuses as its changes; raises UsageError if any status
    differs."""
    every = max(changes.length // COMPARED, 1)
    compared = sorted({*range(every, changes.length + 1, every), changes.length} - {0})
    spawned = sum(1 for _ in recording.steps_of(("spawn",), changes.length))
    goroutines = [f"gor {g}" for g in range(spawned + 1)]
    statuses = {cell: value_at_start(cell) for cell in goroutines}
    changed = searched(changes, STATUSES)
    step, cell, value = next(changed, END)
    for position in compared:
        while int(step) <= position:
            statuses[cell] = value
            step, cell, value = next(changed, END)
        for status_cell, shown in zip(goroutines, scout.values(position, goroutines)):
            if shown != (expected := statuses[status_cell]):
                words = {"cell": status_cell, "answer": shown, "position": position, "value": expected}
                raise UsageError(messages.STATUS_DIFFERS.format(**words))
    return len(compared)


class Tracing:
    """Follows the recording, and yields the events of the trace, each as JSON."""

    def __init__(self, recording: Recording, changes: RecordedChanges) -> None:
        self.recording, self.changes = recording, changes
        self.begins = begins_at(recording)
        self.slices = self.flows = 0
        self._has_answers = recording.has_answers
        self._statuses: Statuses = {}
        # for each goroutine whose status is traced, the step at which the goroutine got this status
        self._since: dict[int, int] = {}

    def events(self, name: str, check: Callable[[], None]) -> Iterator[str]:
        """All events, one after the other."""
        return chain.from_iterable(self.events_together(name, check))

    def events_together(self, name: str, check: Callable[[], None]) -> Iterator[list[str]]:
        """All events in groups: names first, then slices and flows, step by step. Calls `check` for each group."""
        yield list(map(of_json, self._names(name)))
        rows = zip(self.recording.rows(self._step_parts), slice_ends(self.recording.lines, self.recording.length))
        steps = islice(rows, self.begins, None)
        changed = self._changed()
        upcoming, statuses, ticked = next(changed)
        clock = ',"clock":0'
        while 0 < upcoming <= self.begins:
            self._is_led_to(statuses)
            clock = f',"clock":{ticked}' if ticked else clock
            upcoming, statuses, ticked = next(changed)
        before = str(self.begins)
        for first in range(self.begins + 1, self.recording.length + 1, AT_ONCE):
            check()
            events: list[str] = []
            for number, ((mine, where, begin, what), line) in enumerate(islice(steps, AT_ONCE), first):
                # (there are up to a million steps, so the text is concatenated from parts that are made once for
                # similar lines)
                step = str(number)
                events.append(f"{begin}{before}{what}{step}{clock}{line}")
                if number == upcoming:
                    if statuses:
                        self._statuses_change(number, mine, where, statuses, events)
                    if ticked:
                        clock = f',"clock":{ticked}'
                    upcoming, statuses, ticked = next(changed)
                before = step
            yield events
        self.slices += self.recording.length - self.begins
        if self._since:
            yield [self._status(g, self._statuses[g], self.recording.length + 1) for g in sorted(self._since)]

    def _step_parts(self, values: list[Any]) -> tuple[int | None, str, str, str]:
        """The parts of a step's line: the step's goroutine, its thread in the trace, the text up to the time, and the
        text up to the number."""
        words = values[:-1] if self._has_answers else values
        kind = words[0]
        mine: int | None = words[1] if kind in BY_A_GOROUTINE else None
        process, thread = (GOROUTINES, mine) if mine is not None else (NETWORK, _thread(kind, words[1:]))
        text = " ".join(map(str, words))
        if len(text) > SHOWN:
            text = " ".join([kind, *(shortened(str(word)) for word in words[1:])])
        where = f'"pid":{process},"tid":{thread}'
        what = f',"dur":1,"name":{of_json(text)},"cat":"step","args":{{"step":'
        return mine, where, f'{{"ph":"X",{where},"ts":', what

    def _changed(self) -> Iterator[tuple[int, Statuses, str]]:
        """Each step that changed a status or the clock, with the statuses and the new time; at the end, step 0."""
        last, clock = "", ""
        statuses: Statuses = {}
        for step, cell, value in searched(self.changes, STATUSES_AND_CLOCK):
            if step != last:
                if last:
                    yield int(last), statuses, clock
                last, statuses, clock = step, {}, ""
            if cell == "clock":
                clock = value
            else:
                statuses[int(cell[4:])] = value
        if last:
            yield int(last), statuses, clock
        yield 0, {}, ""

    def _is_led_to(self, statuses: Statuses) -> None:
        """Takes over the statuses from before the first traced step; their slices begin at that step."""
        self._statuses |= statuses
        for g, status in statuses.items():
            if status in QUIET:
                self._since.pop(g, None)
            else:
                self._since[g] = self.begins

    def _statuses_change(
        self, number: int, mine: int | None, where: str, statuses: Statuses, events: list[str]
    ) -> None:
        """Adds the slices that end at a step, and the flows from it."""
        known, order = self._statuses, list(statuses)
        for g in order:
            if g not in known:
                known[g] = value_at_start(f"gor {g}")
        if len(order) > 1:
            # (another goroutine wakes a sleeping goroutine; of two goroutines at a descriptor, the reader comes first)
            order.sort(key=lambda g: (g == mine, known[g].split()[-1]))
        for g in order:
            before, now = known[g], statuses[g]
            if g in self._since:
                events.append(self._status(g, before, number))
            if now not in QUIET:
                self._since[g] = number
            if g != mine and before != "absent":
                self._flow(number, where, g, events)
            known[g] = now

    def _status(self, g: int, words: str, until: int) -> str:
        """The slice of a status that has ended."""
        since = self._since.pop(g)
        self.slices += 1
        return f'{{"ph":"X","pid":{GOROUTINES},"tid":{g},"ts":{since},"dur":{until - since},"name":"{words}","cat":"status"}}'

    def _flow(self, number: int, where: str, woken: int, events: list[str]) -> None:
        """Adds the flow from the step that wakes a goroutine to the status in which it continues."""
        self.flows += 1
        about = f'"id":{self.flows},"name":"wakes","cat":"wake"'
        events.append(f'{{"ph":"s",{where},"ts":{number - 1},{about}}}')
        events.append(f'{{"ph":"f","pid":{GOROUTINES},"tid":{woken},"ts":{number},{about},"bp":"e"}}')

    def _names(self, name: str) -> Iterator[Event]:
        """The names of processes and threads."""
        kinds = Counter(step.kind for step in self.recording.steps_of(("spawn", "sockopen"), self.recording.length))
        for process, title in ((GOROUTINES, f"goroutines of {plain(name)}"), (NETWORK, "network, poller and clock")):
            yield {"ph": "M", "pid": process, "name": "process_name", "args": {"name": title}}
        runs = names_data(self.recording, Window(0, self.recording.length))
        threads = [
            (GOROUTINES, g, plain(f"goroutine {g} {runs.get(g, '')}".rstrip())) for g in range(kinds["spawn"] + 1)
        ]
        threads += [(NETWORK, at, title) for at, title in ((POLLER, "poller"), (TIMERS, "timers"), (CLOCK, "clock"))]
        threads += [(NETWORK, SOCKETS + s, f"socket {s}") for s in range(kinds["sockopen"])]
        for process, thread, title in threads:
            yield {"ph": "M", "pid": process, "tid": thread, "name": "thread_name", "args": {"name": title}}


def _thread(kind: str, arguments: list[Any]) -> int:
    """The thread of a step that no goroutine makes."""
    if kind in ("arrive", "drain", "peerclose"):
        return SOCKETS + int(arguments[0])
    return {"pollevent": POLLER, "pop": TIMERS, "fire": TIMERS}.get(kind, CLOCK)


def slice_ends(lines: SourceLines, length: int) -> Iterator[str]:
    """The end of each step's slice as text, with the program's line, if known. The text of each stack is made only
    once."""
    texts = {number: stack.words() for number, stack in lines.stacks.items()}
    ends = {number: f',"line":{of_json(plain(text))}}}}}' if text else "}}" for number, text in texts.items()}
    return chain(map(ends.__getitem__, lines.steps), repeat("}}", length - len(lines.steps)))
