"""Counts of the events in a run's cases, for the last lines of output."""

from collections import Counter
from collections.abc import Iterator, Mapping
from typing import Any

from netrev.machine.debugger_model import Reply, Request
from netrev.machine.observer import Observer
from netrev.text.contents import Answer
from netrev.text.vocabulary import KINDS


class Met(Observer):
    """Counts of what the model did: applied steps by kind and answer, refused steps by kind and reason, steps with
    another recorded answer, faults, and commands."""

    def __init__(self) -> None:
        self.cases: Counter[str] = Counter()
        self.answers: Counter[tuple[str, str]] = Counter()
        self.reasons: Counter[tuple[str, int]] = Counter()
        self.others: Counter[str] = Counter()
        self.faults: Counter[str] = Counter()
        self.commands: Counter[str] = Counter()
        self.replies: Counter[str] = Counter()
        self.doubted = 0
        self.nrdb: Counter[str] = Counter()

    def applied(self, kind: str, answer: Answer) -> None:
        self.answers[kind, name_of(answer)] += 1

    def refused(self, kind: str, reason: int) -> None:
        self.reasons[kind, reason] += 1

    def differed(self, kind: str, recorded: Answer, answer: Answer) -> None:
        """Counts a recorded answer that isn't the machine's. Either only its number differs, or it is another answer of
        the step's kind, or the step's kind has no such answer."""
        if recorded[0] == answer[0]:
            self.others["another number"] += 1
        else:
            self.others["another answer" if recorded[0] in KINDS[kind].answers else "none of the kind's"] += 1

    def printed(self, fault: str) -> None:
        """Counts a fault of a recording, without its line or step."""
        self.faults[fault.split(": ", 1)[1].split(" reason")[0]] += 1

    def replied(self, request: Request, reply: Reply) -> None:
        self.commands[request.sort] += 1
        self.replies[first_words(reply[0])] += 1

    def lines(self) -> Iterator[str]:
        """The counts, one line for each kind."""
        kinds = by_first(self.answers)
        reasons: Counter[int] = Counter()
        for (_, reason), count in self.reasons.items():
            reasons[reason] += count
        yield f"cases: {counts_text(self.cases)}" + (f"; not judged {self.doubted}" if self.doubted else "")
        yield f"faults: {counts_text(self.faults)}"
        yield f"reasons: {counts_text(dict(sorted(reasons.items())))}"
        yield f"recorded answers that differ: {counts_text(self.others)}"
        yield f"steps: {sum(self.answers.values())}, of these"
        for kind in KINDS:
            refused = {f"reason {reason}": count for (of, reason), count in sorted(self.reasons.items()) if of == kind}
            yield f"    {kind}: {counts_text({**kinds.get(kind, {}), **refused})}"
        yield f"lines that ask: {counts_text(self.commands)}"
        yield f"replies: {counts_text(self.replies)}"
        yield f"sessions of nrdb: {counts_text(self.nrdb)}"


def name_of(answer: Answer) -> str:
    """The name of an answer; a code has its number too."""
    return f"code {answer[1]}" if answer[0] == "code" else answer[0]


def by_first(counts: Mapping[tuple[str, str], int]) -> dict[str, dict[object, int]]:
    """Regroups counts of pairs: for each first element, the counts of the second elements."""
    found: dict[str, dict[object, int]] = {}
    for (first, second), count in sorted(counts.items()):
        found.setdefault(first, {})[second] = count
    return found


def first_words(reply: str) -> str:
    """The kind of a reply: its text without numbers."""
    if reply.startswith("fault"):
        return reply
    if " = " in reply:
        return "a value"
    return " ".join(word for word in reply.split() if not word.isdigit())


def counts_text(counts: Mapping[Any, int]) -> str:
    return ", ".join(f"{name} {count}" for name, count in counts.items()) or "none"
