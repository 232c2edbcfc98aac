"""Timeout again and again: 20 calls in a row, by one goroutine and at one side of a connection, time out at the same
deadline, and no goroutine sets another deadline."""

from collections.abc import Iterator

from netrev.findings.evidence.call_words import is_of_go, text_of_call
from netrev.findings.suspects.run import SIDES, Run
from netrev.findings.suspects.suspect import Evidence, Suspect, Weight
from netrev.recording.call import Call, Outcome
from netrev.run.index import RunIndex

MANY = 20


def rule(run: Run) -> Iterator[Suspect]:
    index = run.calls
    for calls in index.by_socket.values():
        for name in SIDES:
            row: list[Call] = []
            for call in (candidate for candidate in calls if candidate.name == name and candidate.last):
                if not row or not is_next(row[-1], call):
                    row = []
                row.append(call)
                if len(row) == MANY and not is_of_go(index.recording, call):
                    yield suspect_of(index, row)


def is_next(last: Call, call: Call) -> bool:
    """Whether a call timed out at the same deadline as its goroutine's previous call."""
    are_late = last.outcome is call.outcome is Outcome.TIMED_OUT
    return are_late and last.cause == call.cause > 0 and last.goroutine == call.goroutine


def suspect_of(index: RunIndex, row: list[Call]) -> Suspect:
    first, last = row[0], row[-1]
    letter = SIDES[first.name]
    says = [
        f"{text_of_call(index.recording, first)} timed out {len(row)} times in a row, from step {first.last} to "
        f"{last.last}",
        f"all by the deadline of step {first.cause}, and nobody set another",
    ]
    return Suspect(
        last.last,
        Weight.LIKELY,
        says,
        goroutine=first.goroutine,
        descriptor=first.descriptor,
        socket=first.socket,
        evidence=[Evidence(last.last, f"{letter}d {first.descriptor}", "-1")],
        looks=[f"goto {first.last}", f"history {letter}d {first.descriptor}"],
        steps=[first.cause, first.first],
    )
