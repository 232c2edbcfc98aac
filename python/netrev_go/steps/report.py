"""The report on a recording: netrev's output, the hanging goroutines, each with its step and line of the program, and
the command to type next. Text from the program, such as names of functions and files, is printed through `plain`."""

from __future__ import annotations

import pathlib
from collections.abc import Callable, Iterable, Sequence
from dataclasses import dataclass, field
from typing import NamedTuple, TypeVar

from netrev.connection.errors import unexpected
from netrev.errors import NetrevError
from netrev.findings.finding import (
    Finding,
    FirstFindings,
    Kind,
    Place,
    Sentence,
    SuspectFindings,
    command_of,
    suspect_lines,
)
from netrev.messages import recorder as messages
from netrev.recording import recording as library
from netrev.recording.waits import Name
from netrev.system.command_lines import command_line, file_word, how_to_get_netrev
from netrev.system.program_path import netrev_program
from netrev.system.time_limits import LateError
from netrev.text.plain import plain
from netrev.text.plurals import counted
from netrev_go.log.source_lines import OF_GO, Calls, LineCall

from .analysis import Analysis, hanging, never_closed
from .recording_builder import NewRecording
from .where import own_line

MOST_TOLD, MOST_SUSPECTS = 20, 12
WAITS = {"r": "waits to read", "w": "waits to write"}
LOCKS = {"r": "waits for the read lock", "w": "waits for the write lock"}
AT_THE_LOCK = ("acquiring", "queued", "relock")
Hear = Callable[[list[str]], None]  # receives lines as soon as they are known
Result = TypeVar("Result")


class Shown(NamedTuple):
    """A finding, and its lines in the report without the label of the first."""

    finding: Finding
    lines: Sequence[Sentence]


@dataclass(frozen=True)
class Conversion:
    """The result for a log: whether netrev accepts the recording, the report's lines, whether the log had no sockets,
    the findings in the report, and the recording as the library read it, if all its findings could be computed."""

    taken: bool
    lines: list[str]
    is_empty: bool = False
    shown: list[Shown] = field(default_factory=list)
    read: library.Recording | None = None

    @property
    def suspects(self) -> list[Finding]:
        """The suspects in the report."""
        return [shown.finding for shown in self.shown if shown.finding.kind is Kind.SUSPECT]


def unheard(lines: list[str]) -> None:
    """Ignores the lines; the caller gets all of them at the end."""


def in_words(status: str) -> str:
    words = status.split()
    side = words[-1]
    if words[0] in AT_THE_LOCK:
        return f"{LOCKS.get(side, 'waits for a lock')} of socket {words[1]}"
    if words[0] == "owing":
        return f"has still to wake goroutines that wait for socket {words[1]}"
    return WAITS.get(side, "waits")


def short(call: LineCall) -> str:
    """A call's file and line."""
    return plain(f"{call.file}:{call.line}")


def line_of(calls: Calls | None) -> tuple[str, str]:
    """The program's line in a stack, and the function called there."""
    own = own_line(calls) if calls else None
    if own:
        return short(own[0]), plain(own[1] or own[0].function)
    if calls and calls.calls:
        return messages.NO_OWN_LINE, plain(calls.calls[0].function)
    return messages.NO_LINE, ""


def is_of_go(calls: Calls | None) -> bool:
    """Whether only Go's own code waits there, in a goroutine started by Go's own code."""
    if calls is None or not calls.calls or own_line(calls):
        return False
    return calls.made is not None and calls.made.of == OF_GO


def wait_of(g: int, status: str, last: int, since: str, calls: Calls | None) -> Finding:
    """The finding about a hanging goroutine, given its last step and the words for it."""
    line, function = line_of(calls)
    started = f"; started at {short(calls.made)}" if calls and calls.made else ""
    words = f"{line}: {function + ' ' if function else ''}{in_words(status)} (goroutine {g}, since {since}{started})"
    own = own_line(calls) if calls else None
    place = Place(own[0].file, own[0].line) if own else None
    begun = Place(calls.made.file, calls.made.line) if calls and calls.made else None
    return Finding(Kind.WAIT, (Sentence(words, place or begun),), place, (last,), (Name(g),))


def since_words(recording: NewRecording, step: int) -> str:
    """The text that says how long a goroutine has waited, given its last step."""
    return f"step {step}" if step > recording.prelude else "before the recording begins"


def waits_of(
    recording: NewRecording, calls: dict[int, Calls], waiting: dict[int, str]
) -> tuple[list[Finding], list[str]]:
    """The findings about hanging goroutines, first those with a line of the program, and lines about those that are
    left out."""

    def calls_of(g: int) -> Calls | None:
        step = recording.last_steps[g]
        return calls.get(recording.stacks[step - 1]) if step else None

    def order(g: int) -> tuple[bool, int]:
        known = calls_of(g)
        return (not (known and own_line(known)), -recording.last_steps[g])

    def finding(g: int) -> Finding:
        last = recording.last_steps[g]
        return wait_of(g, waiting[g], last, since_words(recording, last), calls_of(g))

    own = [g for g in sorted(waiting, key=order) if not is_of_go(calls_of(g))]
    idle = [messages.IDLE_IN_GO.format(count=len(waiting) - len(own))] if len(own) < len(waiting) else []
    rest = len(own) + len(idle) - MOST_TOLD
    left_out = [messages.MORE_GOROUTINES.format(count=rest)] if rest > 0 else idle
    return [finding(g) for g in own[:MOST_TOLD]], left_out


def next_line(name: pathlib.Path, evidence: Sequence[str], nobody_waits: bool = False, failed: bool = False) -> str:
    """The command to type next: nrdb with the commands of the first suspect, or with a list of waiting goroutines. If
    no goroutine waits, the command lists the failed calls of a program that failed, or searches other schedules of a
    good run."""
    topic = "errors" if failed and nobody_waits else "goroutines"
    line = command_of(evidence or ["continue", f"info {topic}"], name)
    if nobody_waits and not failed and not evidence:
        line = command_line("nrdb", "--explore", file_word(name))
    return plain(f"next: {line}")


def computed(compute: Callable[[], Result], nothing: Result, line: str) -> tuple[Result, list[str]]:
    """What the library computes. If that fails, the result is `nothing`, with the line that says why, and which command
    line prints more."""
    try:
        return compute(), []
    except LateError as late:
        return nothing, [plain(messages.PRINTS_THEM.format(late=late, line=line))]
    except NetrevError:  # netrev reports what is wrong with the recording
        return nothing, []
    except Exception as error:  # the recording is more important than what the library finds in it
        return nothing, [plain(f"  {unexpected(error)}")]


class Report:
    """The report about a recording."""

    def __init__(self, recording: NewRecording, name: pathlib.Path, calls: dict[int, Calls], hear: Hear) -> None:
        self._recording, self._name, self._calls, self._hear = recording, name, calls, hear
        self.lines: list[str] = []
        self.shown: list[Shown] = []

    def say(self, lines: list[str], shown: Iterable[Shown] = ()) -> None:
        """Prints lines, and keeps the findings in them."""
        self.lines += lines
        self.shown += shown
        self._hear(lines)

    def head(self, words: str) -> list[str]:
        """The first line about the recording, and its notes."""
        counts = f"{counted(self._recording.goroutines, 'goroutine')}, {counted(self._recording.sockets, 'socket')}"
        notes = [f"  ({note})" for note in self._recording.notes]
        return [f"{plain(str(self._name))}: {words}{counts}", *notes]

    def whole(self, netrev: str, analysis: Analysis, failed: bool) -> bool:
        """Prints the report, the causes first, while netrev reads the recording; returns whether netrev accepts it."""
        causes, why = self.causes(analysis) if failed else (FirstFindings([], 0, []), [])
        self.say(why, [Shown(finding, finding.sentences) for finding in causes.all])
        try:
            taken, words = analysis.outcome()
        except OSError as fault:
            unchecked = messages.CHECK_FAILED.format(netrev=plain(netrev), why=fault.strerror)
            self.say([*self.head(""), unchecked])
            return False
        self.say(self.head(f"{plain(words)}; "))
        if not taken:
            self.say([messages.REFUSED_WITH_CAUSES if why else messages.REFUSED])
            return False
        waiting = self.end(analysis)
        found, lines = self.suspects(analysis)
        evidence = [finding.evidence for finding in found.findings[:1]]
        known = [finding.evidence for finding in causes.all[:1]]
        if not known or evidence and evidence != known:  # the causes already name a command
            lines = [*lines, next_line(self._name, evidence[0] if evidence else (), not waiting, failed)]
        self.say(lines, shown_suspects(found.findings))
        return True

    def causes(self, analysis: Analysis) -> tuple[FirstFindings, list[str]]:
        """The failed calls and hanging goroutines of a program that failed, each with its cause, and the lines about
        them."""
        line = command_line("nrdb", "-ex", "info errors", file_word(self._name))
        causes, why = computed(analysis.causes, FirstFindings([], 0, []), line)
        return causes, why or [plain(line) for line in causes.lines(str(self._name))]

    def end(self, analysis: Analysis) -> dict[int, str]:
        """Prints the goroutines and sockets that aren't at rest at the end, from netrev; returns the goroutines."""
        values, why = computed(analysis.values, dict[str, str](), "")
        waiting = hanging(values)
        waits, left_out = waits_of(self._recording, self._calls, waiting)
        kept = [
            messages.HELD_REFERENCES.format(socket=s, references=counted(left, "reference is", "references are"))
            for s, left in never_closed(values).items()
        ]
        lines = [f"  {sentence}" for wait in waits for sentence in wait.sentences]
        self.say([*lines, *left_out, *kept, *why], [Shown(wait, wait.sentences) for wait in waits])
        return waiting

    def suspects(self, analysis: Analysis) -> tuple[SuspectFindings, list[str]]:
        """The suspects, and the lines about them. They come last because they may take long: Ctrl-C ends only this
        search."""
        line, none = command_line("nrdb", "--suspects", file_word(self._name)), SuspectFindings([], "")
        try:
            found, why = computed(analysis.suspects, none, line)
        except KeyboardInterrupt:
            late = messages.SUSPECTS_INTERRUPTED
            return none, [plain(messages.PRINTS_THEM.format(late=late, line=line))]
        lines = found.lines()[:MOST_SUSPECTS]
        return found, why or ["  nrdb suspects:", *(f"    {plain(line)}" for line in lines)] if lines else why


def shown_suspects(suspects: list[Finding]) -> list[Shown]:
    """The suspects of which the report has lines."""
    shown, room = list[Shown](), MOST_SUSPECTS
    for at, finding in enumerate(suspects, 1):
        lines = suspect_lines(at, finding)[:room]
        shown += [Shown(finding, lines)] if lines else []
        room -= len(lines)
    return shown


def report(
    recording: NewRecording,
    name: pathlib.Path,
    calls: dict[int, Calls],
    failed: bool = False,
    hear: Hear = unheard,
    stuck: int = 0,
) -> Conversion:
    """The report about a recording. `failed` is whether the program failed, and `stuck` Go's number of a goroutine that
    has waited for too long. `hear` receives the lines as soon as they
    are known: why calls failed or hang, long before the suspects."""
    printed, netrev = Report(recording, name, calls, hear), netrev_program()
    if netrev is None:
        unchecked = messages.UNCHECKED.format(how=how_to_get_netrev())
        printed.say([*printed.head(f"{counted(len(recording.lines), 'step')}; "), unchecked])
        return Conversion(True, printed.lines)
    with Analysis(netrev, name, stuck) as analysis:
        taken = printed.whole(netrev, analysis, failed)
        return Conversion(taken, printed.lines, False, printed.shown, analysis.recording)
