"""The table of `info suspects`."""

from collections.abc import Sequence
from typing import Protocol

from netrev.connection.output import Row, Table, Values
from netrev.findings.finding import Finding, SuspectFindings, suspect_lines
from netrev.recording.notes import Timeout
from netrev.recording.recording import Recording
from netrev.recording.where import OF_GO
from netrev.text.plurals import counted

from .ranking import Ranked, all_suspects_of
from .suspect import Suspect

MOST = 12  # the most suspects that are shown


class Answers(Protocol):
    """Netrev's values at positions: a second netrev, or the changes that netrev listed."""

    def values(self, position: int, cells: Sequence[str]) -> list[str]:
        """The values of the cells at the position."""


def suspect_findings(answers: Answers, recording: Recording) -> SuspectFindings:
    """The suspects of a recording, each with netrev's answers at the positions in question."""
    ranked = all_suspects_of(recording)
    shown = shown_of(ranked)
    findings = [_finding(recording, suspect, *_evidence(answers, suspect)) for suspect in shown]
    return SuspectFindings(findings, _rest(recording, ranked, len(shown)))


def suspects_table(answers: Answers, recording: Recording, ranked: Ranked | None = None) -> Table:
    """The table of the suspects, worst first, each with netrev's answers at the positions in question."""
    ranked = ranked or all_suspects_of(recording)
    shown = shown_of(ranked)
    rows = [row for at, suspect in enumerate(shown, 1) for row in _rows(answers, recording, at, suspect)]
    return Table("suspects", rows, _rest(recording, ranked, len(shown)))


def shown_of(ranked: Ranked) -> list[Suspect]:
    """The suspects that are shown."""
    return [suspect for suspect in ranked.suspects if suspect.is_shown][:MOST]


def is_by_go(recording: Recording, timeout: Timeout) -> bool:
    """Whether Go's own code ended its own wait by a deadline in the past, as net/http ends its read between two
    requests. The program doesn't see that timeout."""
    calls = recording.lines.of(timeout.step).calls
    return timeout.passing.kind == "setdeadline" and bool(calls) and all(call.of == OF_GO for call in calls)


def _rows(answers: Answers, recording: Recording, at: int, suspect: Suspect) -> list[Row]:
    """A suspect's rows. The first has the values, and the others are further lines."""
    evidence, doubts = _evidence(answers, suspect)
    values: Values = {
        "rule": suspect.rule,
        "weight": int(suspect.weight),
        "step": suspect.step,
        "says": suspect.sentence(),
        "netrev": evidence,
        "doubts": doubts,
        "lines": _lines(recording, suspect),
        "looks": suspect.looks,
    }
    first, *further = suspect_lines(at, _finding(recording, suspect, evidence, doubts))
    return [Row(values, first), *(Row({}, line) for line in further)]


def _finding(recording: Recording, suspect: Suspect, evidence: list[str], doubts: list[str]) -> Finding:
    """The finding for a suspect."""
    lines = [f"Go:     {line}" for line in _lines(recording, suspect)]
    details = [f"netrev: {'; '.join(evidence)}", *(f"take care: {doubt}" for doubt in doubts), *lines]
    return suspect.finding(recording.lines, details)


def _evidence(answers: Answers, suspect: Suspect) -> tuple[list[str], list[str]]:
    """netrev's lines, its answers at the positions in question, and a sentence for each answer that differs from the
    rule's expectation."""
    evidence, doubts = list(suspect.listed), []
    for position, cell, expected in suspect.evidence:
        answer = answers.values(position, [cell])[0]
        evidence.append(f"at {position} {cell} = {answer}")
        if expected not in (None, answer):
            doubts.append(f"the rule expects {cell} = {expected} at {position}")
    return evidence, doubts


def _lines(recording: Recording, suspect: Suspect) -> list[str]:
    """The program's lines at the suspect's steps, if known."""
    lines = []
    for number in dict.fromkeys(suspect.steps):
        if words := recording.lines.words(number):
            lines.append(f"step {number}, {recording.step(number).kind}: {words}")
    return lines


def _rest(recording: Recording, ranked: Ranked, shown: int) -> str:
    """The line about the suspects that aren't shown, and about the timeouts."""
    others = len(ranked.suspects) - shown
    timeouts = [timeout for timeout in ranked.timeouts if not is_by_go(recording, timeout)]
    rest = [] if shown else ["no suspect"]
    if others:
        rest.append(f"{others} of little weight left out")
    if timeouts:
        rest.append(f"{counted(len(timeouts), 'call')} ended with a timeout")
    return "; ".join(rest)
