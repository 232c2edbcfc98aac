"""The command `explore`, and what `nrdb --explore` prints."""

import sys
import time
from collections.abc import Callable
from pathlib import Path
from typing import NamedTuple

from netrev.findings.suspects.ranking import suspects_of
from netrev.messages import searches as messages
from netrev.recording.recording import Recording
from netrev.reduce.reduced import Reduced, Reducing, Wanted, answered_recording, reduced_of
from netrev.reduce.writing import answered_by, text_of, where_text, write_recording
from netrev.recording.where import SourceLines
from netrev.run.index import run_of
from netrev.session.files import derived
from netrev.session.session import Session, UsageError
from netrev.system.interrupts import SearchInterruptedError
from netrev.text.files import has
from netrev.text.vocabulary import number_of

from .hangs import moved_by
from .numbered_state import ImpossibleScheduleError
from .script import script_of
from .search import ScheduleFinding, Search
from .sentences import FindingSentences, summary
from .workers import Share, processors, run_all

MOST, GREATEST = 3_000, 1_000_000
MOST_STEPS = 100_000
SECONDS = 0.2  # seconds between two lines of progress


def answer_explore(session: Session, words: list[str]) -> None:
    number = number_of(words[0]) if len(words) == 1 else MOST if not words else None
    if number is None or not 0 < number <= GREATEST:
        raise UsageError(messages.EXPLORE.format(most=GREATEST))
    session.printer.note(explored(session, number).text)


class Explored(NamedTuple):
    """The report on the schedules, and the number of findings."""

    text: str
    found: int


def explored(session: Session, most: int = MOST) -> Explored:
    """Runs schedules near the recorded one, and writes those that end with a suspect or a call that hangs."""
    recording = session.text()
    if recording.length > MOST_STEPS:
        raise UsageError(messages.TOO_LONG.format(most=MOST_STEPS))
    answered = answered_recording(session.program, recording, recording.length)
    answered.lines = recording.lines
    begun = time.monotonic()
    try:
        script = script_of(answered)
        search = Search(script, recording.lines.words)
    except ImpossibleScheduleError as why:
        raise UsageError(messages.NOT_CALLS.format(why=why)) from None
    progress = Progress(search, most, session.interrupts.check)
    is_stopped = False
    try:
        run_all(search, Share(script, recording.lines, most, 0, processors()), progress.tell)
    except SearchInterruptedError:
        is_stopped = True
    progress.end()
    lines = [summary(search, time.monotonic() - begun, is_stopped)]
    files = FindingFiles(session, FindingSentences(recording, run_of(recording), search.script))
    for at, finding in enumerate(search.found.values(), 1):
        lines += files.write(at, search.simplest(finding), search.times[finding.key])
    return Explored("\n".join(lines), len(search.found))


class Progress:
    """A line on a terminal that shows the progress."""

    def __init__(self, search: Search, most: int, check: Callable[[], None]) -> None:
        self.search, self.most, self.check = search, most, check
        self._next = time.monotonic() + SECONDS if sys.stderr.isatty() else float("inf")
        self._width = 0

    def tell(self) -> None:
        """Updates the line. Called after each schedule."""
        if time.monotonic() >= self._next:
            self._next = time.monotonic() + SECONDS
            found = len(self.search.found)
            self._show(messages.PROGRESS.format(played=self.search.tried, most=self.most, found=found))
        self.check()

    def _show(self, text: str) -> None:
        sys.stderr.write(f"\r{text.ljust(self._width)}\r" if not text else f"\r{text.ljust(self._width)}")
        sys.stderr.flush()
        self._width = len(text)

    def end(self) -> None:
        """Removes the line."""
        if self._width:
            self._show("")


class FindingFiles:
    """Writes the recordings of findings into the current folder, and reports each recording."""

    def __init__(self, session: Session, sentences: FindingSentences) -> None:
        self.session, self.sentences = session, sentences

    def write(self, at: int, finding: ScheduleFinding, times: int) -> list[str]:
        """Writes a finding's recording and the reduced recording; returns the lines about them."""
        recording, run, of = self.sentences.recording, finding.run, self.session.path
        data = text_of(run.world, run.world.limits.buf, run.pairs(), recording.has_answers)
        status, output = answered_by(self.session.program, "check", data)
        if status:
            fault = output.decode("utf-8", "replace").strip()
            return [messages.SCHEDULE_REFUSED.format(finding=at, fault=fault)]
        lines_beside = where_text(recording.lines, [step.number for step in run.steps])
        endings = {".jsonl": has(data), ".where": has(lines_beside.encode())}
        short: Reduced | None = None
        why = ""
        try:
            short = self._shortened(data, lines_beside, finding)
            endings |= {f"-short{ending}": owns for ending, owns in short.endings().items()}
        except UsageError as wrong:
            why = str(wrong)
        finally:
            base = derived(Path(f"{Path(of).stem}-other-{at}"), of, endings)
            write_recording(f"{base}.jsonl", of, data, lines_beside)
        if short:
            write_recording(f"{base}-short.jsonl", of, short.data, short.lines)
            why = short.words(f"{base}-short.jsonl", len(run.steps))
        *lines, unless = self.sentences.finding(at, finding, times, f"{base}.jsonl")
        lines.append(f"   netrev: {output.decode('utf-8', 'replace').strip()}")
        lines.append(f"   short:  {why}")
        return [*lines, unless]

    def _shortened(self, data: bytes, lines: str, finding: ScheduleFinding) -> Reduced:
        """A finding's recording, reduced; raises UsageError if a replay doesn't show the finding."""
        whole = Recording(data)
        whole.lines = SourceLines(lines, whole.length)
        reducing = Reducing(whole, self.session.program, self.session.interrupts.check)
        return reduced_of(reducing, self._wanted(whole, finding))

    def _wanted(self, whole: Recording, finding: ScheduleFinding) -> Wanted:
        """The target of the reduced recording: the finding's suspect, or the goroutine that hangs after both settings of
        its deadline."""
        if finding.suspect:
            shown = [suspect for suspect in suspects_of(whole).suspects if suspect.is_shown]
            subjects = [suspect.subject for suspect in shown]
            number = subjects.index(finding.suspect.subject) + 1 if finding.suspect.subject in subjects else 1
            return Wanted(number, "", "", whole.length)
        run = finding.run
        steps = moved_by(self.sentences.script, finding.hangs, run.places[finding.hangs], run.steps)
        return Wanted(0, "", "", whole.length, finding.hangs, steps)
