"""A rule's finding: a suspect with the step at fault, its sentence, its weight, and the queries to netrev that support
it."""

from collections.abc import Sequence
from dataclasses import dataclass, field
from enum import IntEnum
from typing import NamedTuple

from netrev.findings.finding import Finding, Kind, place_of, sentences_of
from netrev.recording.waits import Name
from netrev.recording.where import SourceLines


class Weight(IntEnum):
    """The weight of a suspect. Suspects below SHOWN are counted but not shown."""

    CERTAIN = 95  # a goroutine hangs or a reference leaks because of the suspect, with no other explanation
    STRONG = 85
    LIKELY = 60
    POSSIBLE = 40
    SHOWN = 30
    DOUBTFUL = 10


# each is added to the weight in one case: the suspect's goroutine hangs there, it is still there, it has gone on, or a
# call timed out because of the suspect
HANGS, STILL_THERE, WENT_ON, TIMED_OUT = 50, 40, -30, 20


class Evidence(NamedTuple):
    """A query to netrev at a position, and the answer that the rule expects; None if the rule accepts any answer."""

    position: int
    cell: str
    value: str | None = None


@dataclass
class Suspect:
    """A suspected bug. Its sentence consists of clauses; the first clause is complete by itself."""

    step: int
    weight: int
    says: list[str]
    goroutine: int | None = None
    descriptor: int | None = None
    socket: int | None = None
    listed: list[str] = field(default_factory=list)  # the lines of `netrev suspects` about the suspect
    evidence: list[Evidence] = field(default_factory=list)
    looks: list[str] = field(default_factory=list)
    steps: list[int] = field(default_factory=list)  # the steps that the suspect names, in the order of events
    rule: str = ""  # the name of the rule that found the suspect

    @property
    def is_shown(self) -> bool:
        """Whether the suspect's weight is high enough to show it."""
        return self.weight >= Weight.SHOWN

    @property
    def subject(self) -> tuple[object, ...]:
        """The rule and its object. Of several suspects with the same subject, only one is shown."""
        return self.rule, self.goroutine, self.descriptor, self.socket

    def has_line(self, line: str) -> None:
        """Adds netrev's own line about the suspect, unless the line is empty."""
        self.listed += [line] if line else []

    def sentence(self) -> str:
        """The whole sentence."""
        return "; ".join(self.says)

    def finding(self, lines: SourceLines, details: Sequence[str]) -> Finding:
        """The finding for the suspect, with these details."""
        names = () if self.goroutine is None else (Name(self.goroutine),)
        sentence, *more = sentences_of(lines, [f"{self.rule}: {self.sentence()}", *details])
        place, steps = place_of(lines.of(self.step)), (self.step, *self.steps)
        return Finding(Kind.SUSPECT, (sentence,), place, steps, names, tuple(self.looks), tuple(more))
