"""Go's calls in columns, as the page draws them: goroutine, socket, first and last step, result, and line of the
program. nrdb computes the calls from the recording's steps and the file beside the recording."""

import re
import sys
from array import array
from base64 import b64encode
from math import inf
from operator import sub
from typing import Any

from netrev.findings.evidence.call_words import is_by_go, name_of, short
from netrev.findings.evidence.waiters import is_waiting
from netrev.recording.call import Call, Outcome
from netrev.recording.recording import Recording
from netrev.recording.where import OF_THE_PROGRAM, Stack
from netrev.run.index import RunIndex, run_of

from .cell_runs import Window

Data = dict[str, Any]  # the data that the page's script reads
WRAPPER = re.compile(r"\.(gowrap|deferwrap)\d*$")
DONE, FAILED, HANGS, OPEN, LISTENS = range(5)  # the states of a drawn call


class IndexedTexts(dict[str, int]):
    """Texts, each stored once, with their indices in order of arrival."""

    def __missing__(self, text: str) -> int:
        number = self[text] = len(self)
        return number


def state_of(index: RunIndex, call: Call) -> int:
    """The state of a call. A call that Go's own code ended doesn't count as failed."""
    if call.last:
        return FAILED if call.outcome.is_error and not is_by_go(index.recording, call) else DONE
    if index.is_listening(call):
        return LISTENS
    return HANGS if is_waiting(index, call) else OPEN


def shown_calls(recording: Recording, window: Window) -> list[Call]:
    """The calls of a window, in the order of their first steps."""
    calls = run_of(recording).calls
    return [call for call in calls if call.first <= window.last and (not call.last or call.last >= window.first)]


WIDTHS = (
    ("B", 1, 2**8),
    ("H", 2, 2**16),
    ("I", 4, 2**32),
    ("d", 8, inf),
)  # the typecodes of arrays, the bytes of a number, and the first number that is too large
COLUMNS = ("g", "s", "first", "long", "name", "came", "line", "state", "stack", "waited", "slept")


def calls_data(recording: Recording, window: Window) -> Data:
    """The calls of the window, in packed columns. `first` is relative to the `first` of the previous call. `long` is
    the number of a call's steps, or 0 if the call hasn't ended. `name`, `came`, `line` and `stack` are indices into
    `texts`."""
    telling, calls = CallColumns(recording), shown_calls(recording, window)
    firsts = [call.first for call in calls]
    columns = [
        [call.goroutine for call in calls],
        [call.socket for call in calls],
        list(map(sub, firsts, [0, *firsts])),
        [call.last - call.first + 1 if call.last else 0 for call in calls],
        *map(list, zip(*map(telling.of, calls))),
        [call.waited for call in calls],
        [call.slept for call in calls],
    ]
    return {
        "count": len(calls),
        **({name: packed(column) for name, column in zip(COLUMNS, columns)} if calls else {}),
        "texts": list(telling.texts),
    }


def packed(column: list[int]) -> Any:
    """A column of natural numbers for the page. If all numbers are equal, the result is that number. Otherwise it is
    the size of a number, and the bytes of all numbers in base64. Numbers beyond 32 bits become 64-bit floating-point
    numbers, which the script uses."""
    most = max(column)
    if most == min(column):
        return most
    kind, wide = next((kind, wide) for kind, wide, above in WIDTHS if most < above)
    numbers = array(kind, column)
    if sys.byteorder == "big":
        numbers.byteswap()
    return [wide, b64encode(numbers.tobytes()).decode()]


class CallColumns:
    """The name, the result, the line and the stack of calls, each as an index into `texts`, and the calls' states."""

    def __init__(self, recording: Recording) -> None:
        self.texts = IndexedTexts({"": 0})
        self._recording, self._index = recording, run_of(recording)
        self._lines: dict[int, int] = {}  # the lines of stacks
        self._stacks: dict[int, int] = {}
        self._known: dict[tuple[str, int | None, int], tuple[int, ...]] = {}

    def of(self, call: Call) -> tuple[int, ...]:
        """The name, the result, the line, the state and the stack of a call. Many calls that succeeded have the same
        texts."""
        stack = self._stack(call.first)
        if not call.last or call.outcome is not Outcome.DONE:
            return self._texts_of(call, stack)
        alike = call.name, call.moved, stack
        if alike not in self._known:
            self._known[alike] = self._texts_of(call, stack)
        return self._known[alike]

    def _texts_of(self, call: Call, stack: int) -> tuple[int, ...]:
        result, state = self.texts[self._result(call)], state_of(self._index, call)
        return self.texts[name_of(self._recording, call)], result, self._line(stack), state, self._calls_of(stack)

    def _result(self, call: Call) -> str:
        """The result of a call, as text. A call that accepts a connection has no bytes."""
        if not call.last or (call.name == "Read" and not call.outcome.is_error and self._index.is_listening(call)):
            return ""
        return call.came()

    def _stack(self, step: int) -> int:
        """The number of a step's stack; 0 if unknown."""
        steps = self._recording.lines.steps
        return steps[step - 1] if 0 < step <= len(steps) else 0

    def _line(self, stack: int) -> int:
        """The index of the text for a stack's line. The text is empty if the stack is unknown."""
        if stack not in self._lines:
            self._lines[stack] = self.texts[self._recording.lines.stacks[stack].words()]
        return self._lines[stack]

    def _calls_of(self, stack: int) -> int:
        """The index of the text that lists the program's calls in a stack."""
        if stack not in self._stacks:
            self._stacks[stack] = self.texts[program_calls(self._recording.lines.stacks[stack])]
        return self._stacks[stack]


def program_calls(stack: Stack) -> str:
    """The program's calls in a stack, innermost first: `(*room).say main.go:63, (*room).serve main.go:71`."""
    return ", ".join(f"{short(call.function)} {call.place()}" for call in stack.calls if call.of == OF_THE_PROGRAM)


def names_data(recording: Recording, window: Window) -> dict[int, str]:
    """The function that each goroutine of the window runs: the outermost function of the program in one of its calls,
    or else the outermost function of any kind."""
    names: dict[int, str] = {}
    own: set[int] = set()
    for call in shown_calls(recording, window) if recording.lines else ():
        stack = recording.lines.of(call.first)
        if call.goroutine not in own and (function := runs_in(stack)):
            names.setdefault(call.goroutine, short(function))
        if call.goroutine not in own and (function := runs_in(stack, OF_THE_PROGRAM)):
            names[call.goroutine] = short(function)
            own.add(call.goroutine)
    return names


def runs_in(stack: Stack, of: str | None = None) -> str | None:
    """The outermost function in a stack; with `of`, the outermost function of that kind. The compiler's wrapper of a
    `go` or `defer` statement doesn't count."""
    functions = (call.function for call in reversed(stack.calls) if of in (None, call.of))
    return next((function for function in functions if not WRAPPER.search(function)), None)
