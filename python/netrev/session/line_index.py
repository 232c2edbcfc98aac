"""The positions at which goroutines reach a line or a function of the program, found in the stacks of NAME.where."""

import re
from collections.abc import Callable, Hashable, Iterable, Sequence
from functools import lru_cache
from typing import NamedTuple, TypeVar

from netrev.messages import session as messages
from netrev.recording.recording import Recording
from netrev.recording.where import SourceCall, Stack
from netrev.run.index import run_of
from netrev.text.vocabulary import KINDS, cell_of

OF_A_LINE = re.compile(r"(.+):(\d{1,9})\Z")
Key = TypeVar("Key", bound=Hashable)
POINTER = re.compile(r"\(\*([^()]*)\)")  # a pointer receiver
MOST_NEAR = 5  # if the requested line has no step, the answer names at most this many other lines


class ProgramPlace(NamedTuple):
    """A line or a function as it was typed, and the positions before the steps at which a goroutine reaches it, in
    ascending order."""

    spelled: str
    positions: list[int]


class Places:
    """The lines and functions of the program from which a recording's steps come."""

    def __init__(self, recording: Recording) -> None:
        self._recording, self._lines = recording, recording.lines
        run = run_of(recording)
        self._makers = run.owners.goroutines
        self._begins = {call.first for call in run.calls}

    def place(self, spelled: str) -> ProgramPlace | None:
        """The place that a word names; None if no recorded step comes from that place."""
        found = OF_A_LINE.fullmatch(spelled)
        positions = self._of_line(found[1], int(found[2])) if found else self._of_function(spelled)
        return ProgramPlace(spelled, positions) if positions else None

    def lines_of(self, is_meant: Callable[[str], bool]) -> dict[int, list[int]]:
        """For each line of the matching files, the positions at which a goroutine reaches it."""
        return self._positions(lambda stack: {call.line for call in stack.calls if is_meant(call.file)})

    def near(self, spelled: str) -> list[str]:
        """The lines with steps that are nearest to a line without steps."""
        found = OF_A_LINE.fullmatch(spelled)
        if not found:
            return []
        file, line = found[1], int(found[2])
        return near_lines(file, line, self.lines_of(lambda known: is_file(known, file)))

    def _of_line(self, file: str, line: int) -> list[int]:
        return self.lines_of(lambda known: is_file(known, file)).get(line, [])

    def _of_function(self, name: str) -> list[int]:
        found = self._positions(lambda stack: {name for call in stack.calls if is_function(call, name)})
        return found.get(name, [])

    def _positions(self, keys: Callable[[Stack], set[Key]]) -> dict[Key, list[int]]:
        """For each key, the positions before the steps at which a goroutine reaches a stack with that key. If the
        goroutine's previous step had the same key, a step counts only if a call begins at it."""
        of_stack = {number: keys(stack) for number, stack in self._lines.stacks.items()}
        found: dict[Key, list[int]] = {}
        before: dict[int, set[Key]] = {}
        for step, (number, maker) in enumerate(zip(self._lines.steps, self._makers), 1):
            here = of_stack[number]
            if not number or maker < 0:
                continue
            for key in here if step in self._begins else here - before.get(maker, set()):
                found.setdefault(key, []).append(step - 1)
            before[maker] = here
        return found


def near_lines(file: str, wanted: int, lines: Iterable[int]) -> list[str]:
    """The lines of a file that are nearest to a line."""
    near = sorted(lines, key=lambda line: abs(line - wanted))[:MOST_NEAR]
    return [f"{file}:{line}" for line in sorted(near)]


def no_step_from(spelled: str, near: Sequence[str]) -> str:
    """The message about a line or a function from which no step comes, with the nearest lines that have steps."""
    if near:
        return messages.NO_STEP_FROM_BUT.format(place=spelled, near=", ".join(near))
    return messages.NO_STEP_FROM.format(place=spelled)


def is_place(recording: Recording | None, words: list[str]) -> bool:
    """Whether the words after a command name a place of the program and nothing else: FILE:LINE, a function with its
    package or receiver, or any other function of the recording."""
    if len(words) != 1 or words[0] in KINDS or words[0].isdecimal() or words[0].startswith("@") or cell_of(words):
        return False
    if OF_A_LINE.fullmatch(words[0]):
        return True
    return recording is not None and bool(recording.lines) and places_of(recording).place(words[0]) is not None


def is_file(known: str, spelled: str) -> bool:
    """Whether a file of NAME.where has this name, or has a name that ends with it."""
    return known == spelled or known.endswith(f"/{spelled.removeprefix('./')}")


def is_function(call: SourceCall, name: str) -> bool:
    """Whether a call calls the function with this name. The name may lack the package or the package's path.
    `hub.broadcast` also matches `(*hub).broadcast`."""
    return any(
        function == spelled or function.endswith((f"/{spelled}", f".{spelled}"))
        for function, spelled in ((call.function, name), (without_pointer(call.function), name))
    )


def without_pointer(function: str) -> str:
    """A function's name with a pointer receiver spelled as a value receiver: `main.hub.broadcast` of
    `main.(*hub).broadcast`."""
    return POINTER.sub(r"\1", function)


@lru_cache(maxsize=2)
def places_of(recording: Recording) -> Places:
    """The places of a recording."""
    return Places(recording)
