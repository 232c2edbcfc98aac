"""A simple model of the shared debugger, with which a session's replies are compared.

`Recording` has the kinds of a recording's steps, from its text, and the replies to queries at each position, from one
pass of `netrev run` over it. The vocabulary is in netrev/text/vocabulary.py.

The model itself follows docs/reference/COMMANDS.md: `read_line` returns the meaning of a line. `Recording.answer`
returns the reply to a line in a state of the session, and the next state.
"""

from __future__ import annotations

import json
import subprocess
from bisect import bisect_left, bisect_right
from collections.abc import Mapping, Sequence
from dataclasses import dataclass
from functools import lru_cache
from pathlib import Path
from typing import Any, NamedTuple

from netrev.text.commands import OF_NETREV, SHORT
from netrev.text.vocabulary import DUMPS, MOST_LINE, MOST_STANDING, break_of, cell_of, number_of

UNKNOWN = "fault 201 unknown command"
BAD = "fault 202 bad argument"
TOO_LONG = "fault 203 line too long"
FULL = "fault 303 journal full"
NO_MARK = "fault 401 no such mark"
MARKS_FULL = "fault 402 marks full"
NO_CHECKPOINT = "fault 403 no such checkpoint"
CHECKPOINTS_FULL = "fault 404 checkpoints full"


Reply = tuple[str, ...]  # the lines of a reply
Marks = tuple[tuple[int, str], ...]  # the number of each, and its text in `info breakpoints`


class Request(NamedTuple):
    """The meaning of a line: a command, which goes into the journal, a query, or a line with the same reply in every
    state."""

    sort: str
    what: Any = None


class SharedState(NamedTuple):
    """The shared state. Marks and checkpoints are pairs of a number and an object, in ascending order."""

    position: int = 0
    reverse: bool = False
    marks: Marks = ()
    mark_count: int = 0
    checkpoints: tuple[tuple[int, int], ...] = ()
    checkpoint_count: int = 0


Answered = tuple[SharedState, Reply]
COMMANDS = {"step", "seek", "turn", "mark", "delete", "checkpoint", "restart", "forget"}


def read_line(line: bytes) -> Request | None:
    """The meaning of a line of bytes without its newline; None for a blank line."""
    if len(line) > MOST_LINE:
        return Request("fault", TOO_LONG)
    text = line.removesuffix(b"\r").decode("latin-1")
    words = [word for word in text.split(" ") if word]
    if not words:
        return None
    first = SHORT.get(words[0], words[0])
    if first not in OF_NETREV:
        return Request("fault", UNKNOWN)
    return read_words(first, words[1:]) or Request("fault", BAD)


def read_words(first: str, rest: list[str]) -> Request | None:
    """The meaning of a line's words if the first word is known; None if the other words are wrong."""
    number = number_of(rest[0]) if len(rest) == 1 else None
    match first:
        case "stepi" | "reverse-stepi":
            count = 1 if not rest else number
            return Request("step", (count, first == "reverse-stepi")) if count else None
        case "continue" | "reverse-continue" if not rest:
            return Request("seek", first == "reverse-continue")
        case "set" if rest in (["exec-direction", "forward"], ["exec-direction", "reverse"]):
            return Request("turn", rest[1] == "reverse")
        case "break" | "tbreak" if place := break_of(rest):
            return Request("mark", f"{first} {place}")
        case "watch" if cell := cell_of(rest):
            return Request("mark", f"watch {cell}")
        case "delete" if number is not None:
            return Request("delete", number)
        case "delete" if len(rest) == 2 and rest[0] == "checkpoint" and number_of(rest[1]) is not None:
            return Request("forget", number_of(rest[1]))
        case "checkpoint" if not rest:
            return Request("checkpoint")
        case "restart" if number is not None:
            return Request("restart", number)
        case "print" if cell := cell_of(rest):
            return Request("look", f"print {cell}")
        case "dump" if len(rest) == 2 and rest[0] in DUMPS and number_of(rest[1]) is not None:
            return Request("look", f"dump {rest[0]} {number_of(rest[1])}")
        case "info" if rest in (["position"], ["breakpoints"], ["checkpoints"]):
            return Request("info", rest[0])
        case "resume" if not rest:
            return Request("fault", "nothing owed")
        case "quit" if not rest:
            return Request("quit")
    return None


def is_command(request: Request | None) -> bool:
    """Whether a line is a command, which takes a place in the journal."""
    return request is not None and request.sort in COMMANDS


@dataclass(frozen=True, eq=False)
class DebuggedRecording:
    """A recording, and the results of some queries at each of its positions. A whole script uses it."""

    path: Path | None
    kinds: tuple[str, ...]
    shown: Mapping[str, Any]

    @staticmethod
    def read(netrev: str, path: Path, looks: Sequence[str]) -> DebuggedRecording:
        """Reads the recording, and makes the queries at all its positions in one pass of `netrev run`."""
        with open(path, encoding="ascii") as lines:
            kinds = tuple(json.loads(line)[0] for line in list(lines)[1:] if line.strip())
        script = "\n".join([*looks, "stepi"]) + "\n"
        ended = subprocess.run(
            [netrev, "run", path],
            input=script * (len(kinds) + 1),
            capture_output=True,
            text=True,
            timeout=60,
            check=True,
        )
        replies = ended.stdout.splitlines()
        every = len(looks) + 1
        moves = [f"at {position}" for position in range(1, len(kinds) + 1)] + [f"at {len(kinds)} end"]
        assert replies[every - 1 :: every] == moves, "one pass of `netrev run` over the recording"
        return DebuggedRecording(path, kinds, {look: tuple(replies[at::every]) for at, look in enumerate(looks)})

    @property
    def length(self) -> int:
        return len(self.kinds)

    @lru_cache(maxsize=None)
    def hits_of(self, mark: str) -> tuple[int, ...]:
        """The positions at which a mark hits, in ascending order."""
        sort, what = mark.split(" ", 1)
        if sort == "watch":
            values = self.shown[f"print {what}"]
            return tuple(at for at in range(1, self.length + 1) if values[at - 1] != values[at])
        if what.startswith("@"):
            step = int(what[1:])
            return (step - 1,) if step <= self.length else ()
        return tuple(at for at, kind in enumerate(self.kinds) if kind == what)

    @lru_cache(maxsize=200_000)
    def nearest(self, marks: Marks, position: int, reverse: bool) -> tuple[int, list[int]] | None:
        """The nearest position in this direction at which marks hit, and these marks; None if no mark hits."""
        found = [hit for _, mark in marks if (hit := self.nearest_of(mark, position, reverse)) is not None]
        if not found:
            return None
        hit = max(found) if reverse else min(found)
        return hit, [number for number, mark in marks if self.is_hit(mark, hit)]

    def nearest_of(self, mark: str, position: int, reverse: bool) -> int | None:
        """The nearest position in that direction at which a mark hits, or None."""
        hits = self.hits_of(mark)
        if reverse:
            at = bisect_left(hits, position)
            return hits[at - 1] if at else None
        at = bisect_right(hits, position)
        return hits[at] if at < len(hits) else None

    def is_hit(self, mark: str, position: int) -> bool:
        """Whether a mark hits at a position."""
        hits = self.hits_of(mark)
        at = bisect_left(hits, position)
        return at < len(hits) and hits[at] == position

    def answer(self, state: SharedState, request: Request) -> Answered:
        """The state after a line, and the lines of its reply."""
        return getattr(self, f"answer_{request.sort}")(state, request.what)

    def answer_fault(self, state: SharedState, text: str) -> Answered:
        return state, (text,)

    def answer_quit(self, state: SharedState, _: object) -> Answered:
        return state, ("bye",)

    def answer_look(self, state: SharedState, look: str) -> Answered:
        return state, (self.shown[look][state.position],)

    def answer_info(self, state: SharedState, what: str) -> Answered:
        if what == "position":
            way = "reverse" if state.reverse else "forward"
            return state, (f"at {state.position} of {self.length} {way}",)
        if what == "breakpoints":
            return state, (f"marks {len(state.marks)}", *(f"{number} {mark}" for number, mark in state.marks))
        listed = state.checkpoints
        return state, (f"checkpoints {len(listed)}", *(f"{number} at {place}" for number, place in listed))

    def answer_step(self, state: SharedState, what: tuple[int, bool]) -> Answered:
        count, backwards = what
        if backwards or state.reverse:
            position = max(state.position - count, 0)
            reply = "at 0 start" if count > state.position else f"at {position}"
        else:
            position = min(state.position + count, self.length)
            reply = f"at {position} end" if state.position + count > self.length else f"at {position}"
        return moved(state, position), (reply,)

    def answer_seek(self, state: SharedState, backwards: bool) -> Answered:
        reverse = backwards or state.reverse
        found = self.nearest(state.marks, state.position, reverse)
        if found:
            hit, numbers = found
            reply = " ".join(["at", str(hit), "by", *map(str, numbers)])
            return moved(state._replace(marks=left_standing(state.marks, numbers)), hit), (reply,)
        position = 0 if reverse else self.length
        return moved(state, position), ("at 0 start" if reverse else f"at {position} end",)

    def answer_turn(self, state: SharedState, reverse: bool) -> Answered:
        reply = "direction reverse" if reverse else "direction forward"
        return (state if state.reverse == reverse else state._replace(reverse=reverse)), (reply,)

    def answer_mark(self, state: SharedState, mark: str) -> Answered:
        if len(state.marks) == MOST_STANDING:
            return state, (MARKS_FULL,)
        number = state.mark_count + 1
        return state._replace(marks=(*state.marks, (number, mark)), mark_count=number), (f"mark {number}",)

    def answer_delete(self, state: SharedState, number: int) -> Answered:
        left = tuple(mark for mark in state.marks if mark[0] != number)
        if len(left) == len(state.marks):
            return state, (NO_MARK,)
        return state._replace(marks=left), (f"deleted mark {number}",)

    def answer_checkpoint(self, state: SharedState, _: object) -> Answered:
        if len(state.checkpoints) == MOST_STANDING:
            return state, (CHECKPOINTS_FULL,)
        number = state.checkpoint_count + 1
        kept = (*state.checkpoints, (number, state.position))
        reply = f"checkpoint {number} at {state.position}"
        return state._replace(checkpoints=kept, checkpoint_count=number), (reply,)

    def answer_restart(self, state: SharedState, number: int) -> Answered:
        place = 0 if number == 0 else dict(state.checkpoints).get(number)
        if place is None:
            return state, (NO_CHECKPOINT,)
        return moved(state, place), (f"at {place}",)

    def answer_forget(self, state: SharedState, number: int) -> Answered:
        left = tuple(kept for kept in state.checkpoints if kept[0] != number)
        if len(left) == len(state.checkpoints):
            return state, (NO_CHECKPOINT,)
        return state._replace(checkpoints=left), (f"deleted checkpoint {number}",)


def left_standing(marks: Marks, hitting: Sequence[int]) -> Marks:
    """The marks that remain after a stop at which these marks hit: all marks except the temporary marks that hit."""
    return tuple(mark for mark in marks if mark[0] not in hitting or not mark[1].startswith("tbreak "))


def moved(state: SharedState, position: int) -> SharedState:
    """The state at another position, or the same state if the position doesn't change."""
    return state if state.position == position else state._replace(position=position)
