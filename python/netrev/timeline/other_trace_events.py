"""The events of a trace other than statuses and steps: Go's calls, the deadlines, the clock, and what went wrong. The
events begin where the recording begins."""

from collections.abc import Iterator
from itertools import chain

from netrev.connection.beginnings import begins_at
from netrev.connection.scout import Scout
from netrev.findings.evidence.call_words import name_of
from netrev.recording.call import Call
from netrev.recording.recording import Recording
from netrev.recording.step_changes import RecordedChanges
from netrev.text.plain import plain

from .calls import Data, shown_calls
from .cell_runs import Window
from .searched_cells import DEADLINES_AND_CLOCK, by_cell, searched
from .stories import stories_data
from .trace_events import DEADLINES, GOROUTINES, NETWORK, Event, event_of, of_json

SIDES = {"rd": "read", "wd": "write"}
Changed = list[tuple[int, str]]  # the steps that change a cell, each with the new value


def beside(recording: Recording, changes: RecordedChanges, scout: Scout) -> Iterator[str]:
    """All events of a trace other than statuses and steps, each as JSON."""
    suspects, causes = stories_data(scout, recording)
    begins = begins_at(recording)
    changed = by_cell(searched(changes, DEADLINES_AND_CLOCK))
    cells = {cell: since(run, begins) for cell, run in changed.items()}
    clock = cells.pop("clock", [])
    stories = chain.from_iterable(story_events(story, begins) for story in (*suspects, *causes))
    return chain(
        call_events(recording), deadline_events(cells, recording.length), clock_events(clock), map(of_json, stories)
    )


def since(run: Changed, begins: int) -> Changed:
    """The changes of a cell since a position, beginning with the cell's value at that position."""
    before = [value for step, value in run if step <= begins]
    return [(begins, before[-1]), *(change for change in run if change[0] > begins)] if begins and before else run


def call_events(recording: Recording) -> Iterator[str]:
    """A slice for each call of more than one step, around the statuses and steps of the call's goroutine."""
    telling, begins = CallTexts(recording), begins_at(recording)
    for call in shown_calls(recording, Window(begins + 1 if begins else 0, recording.length)):
        if call.last == call.first:
            continue
        begin, until = max(call.first - 1, begins), call.last or recording.length + 1
        name, line = telling.of(call)
        # (the text is concatenated, because there may be hundreds of thousands of slices)
        yield (
            f'{{"ph":"X","pid":{GOROUTINES},"tid":{call.goroutine},"ts":{begin},"dur":{until - begin},"name":{name},"cat":"call",'
            f'"args":{{"waited":{call.waited},"slept_ns":{call.slept},"line":{line}}}}}'
        )


class CallTexts:
    """Calls as text, in JSON. Equal texts are stored once."""

    def __init__(self, recording: Recording) -> None:
        self._recording = recording
        self._names: dict[tuple[str, int], str] = {}  # names of calls, by their stacks
        self._lines: dict[int, str] = {}  # the lines of stacks
        self._texts: dict[str, str] = {}  # the name of a call with its result

    def of(self, call: Call) -> tuple[str, str]:
        """The name of a call with its result, and the program's line of the call."""
        stack = self._stack(call.first)
        named = call.name, stack
        if named not in self._names:
            self._names[named] = name_of(self._recording, call)
        if stack not in self._lines:
            self._lines[stack] = of_json(plain(self._recording.lines.words(call.first)))
        result = call.came()
        name = f"{self._names[named]} on socket {call.socket}{': ' if result else ''}{result}"
        if name not in self._texts:
            self._texts[name] = of_json(name)
        return self._texts[name], self._lines[stack]

    def _stack(self, step: int) -> int:
        """The number of a step's stack; 0 if unknown."""
        steps = self._recording.lines.steps
        return steps[step - 1] if 0 < step <= len(steps) else 0


def deadline_events(cells: dict[str, Changed], length: int) -> Iterator[str]:
    """A thread for each side of a descriptor that has a deadline at any time, with a slice for each deadline."""
    named = False
    for thread, (cell, run) in enumerate(cells.items()):
        ends = [*(step for step, _ in run[1:]), length + 1]
        slices = [(begin, end, value) for (begin, value), end in zip(run, ends) if value not in ("0", "absent")]
        if not slices:
            continue
        if not named:
            named = True
            yield of_json({"ph": "M", "pid": DEADLINES, "name": "process_name", "args": {"name": "deadlines"}})
        title = f"{SIDES[cell[:2]]} deadline of descriptor {cell[3:]}"
        yield of_json({"ph": "M", "pid": DEADLINES, "tid": thread, "name": "thread_name", "args": {"name": title}})
        for begin, end, value in slices:
            name = "has passed" if value.startswith("-") else f"at {value} ns"
            where = f'"pid":{DEADLINES},"tid":{thread},"ts":{begin},"dur":{end - begin}'
            yield f'{{"ph":"X",{where},"name":"{name}","cat":"deadline"}}'


def clock_events(ticks: Changed) -> Iterator[str]:
    """The clock, as a counter."""
    for step, time in ticks:
        yield f'{{"ph":"C","pid":{NETWORK},"tid":0,"ts":{step},"name":"clock","args":{{"ns":{int(time)}}}}}'


def story_events(story: Data, begins: int = 0) -> Iterator[Event]:
    """A numbered mark through all rows at each step of a story. A step before the beginning of the recording is marked
    at the beginning."""
    says = {"says": plain(story["says"]), "lines": [plain(line) for line in story["lines"]]}
    for number, step in enumerate(story["steps"], 1):
        step, name = max(step, begins), f"{number}. {story['rule']}"
        yield event_of("i", GOROUTINES, story["g"] or 0, step, s="g", name=name, cat="story", args=says)
