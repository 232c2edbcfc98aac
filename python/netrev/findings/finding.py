"""A finding about a recording, such as a failed call, a hang or a suspect. Printers turn findings into text, JSON and
annotations."""

from collections.abc import Iterable, Sequence
from dataclasses import dataclass
from enum import Enum
from typing import NamedTuple

from netrev.recording.call import Call
from netrev.recording.waits import Name
from netrev.recording.where import SourceLines, Stack
from netrev.system.command_lines import command_line, file_word

CAUSE, INDENT, NEXT = "cause:  ", "        ", "next:   "


class Kind(Enum):
    """The kinds of findings."""

    FAILED_CALL = "failed call"
    HANG = "hang"
    LEFT_OVER = "left over"  # what may be wrong if no call failed
    REFUSED_DIAL = "refused dial"
    WAIT = "wait"  # a goroutine that isn't at rest at the end
    SUSPECT = "suspect"


class Place(NamedTuple):
    """A line of a source file."""

    file: str
    line: int


class Sentence(str):
    """A sentence, and the first line of the program that it names, if any."""

    place: Place | None

    def __new__(cls, text: str, place: Place | None = None) -> "Sentence":
        sentence = super().__new__(cls, text)
        sentence.place = place
        return sentence


@dataclass(frozen=True)
class Finding:
    """A finding: its line of the program if known, the steps and goroutines that it names, its sentences, and nrdb's
    commands that show it. Each detail begins with a label: netrev's answers, doubts about them, and the steps' lines.
    """

    kind: Kind
    sentences: tuple[Sentence, ...]
    place: Place | None = None
    steps: tuple[int, ...] = ()
    goroutines: tuple[Name, ...] = ()
    evidence: tuple[str, ...] = ()
    details: tuple[Sentence, ...] = ()


class Cause(NamedTuple):
    """The explanation of a call that failed or hangs: the call, the sentences, the steps that the sentences name, and
    the lines to type next."""

    call: Call
    says: list[str]
    steps: list[int]
    looks: list[str]
    stopped: int = 0  # the step after which a goroutine that could have woken the waiter did nothing more
    chain: list[Call] = []  # the failed calls that the sentences name as causes
    beyond: list[str] = []  # the sentences about goroutines beyond the one that the call needed


def with_more(cause: Cause, more: list[str]) -> Cause:
    """A cause with further sentences."""
    return cause._replace(says=[*cause.says, *more])


def with_others(cause: Cause, others: int) -> Cause:
    """A cause with the number of further causes like it."""
    return cause._replace(says=[*cause.says, f"{others} more like it."]) if others else cause


def place_of(stack: Stack) -> Place | None:
    """The program's line in a stack, if known."""
    own = stack.own()
    return Place(own[0].file, own[0].line) if own else None


def sentences_of(lines: SourceLines, texts: Iterable[str]) -> tuple[Sentence, ...]:
    """These texts as sentences. Each text consists of phrases by many functions, so the line that it names is found by
    the names of the program's files."""
    found = ((text, lines.named.search(text)) for text in texts)
    return tuple(Sentence(text, Place(named[1], int(named[2])) if named else None) for text, named in found)


def command_of(evidence: Sequence[str], name: object) -> str:
    """The command line that opens a recording and runs the commands of a finding."""
    return command_line("nrdb", file_word(name), *(word for command in evidence for word in ("-ex", command)))


class FirstFindings(NamedTuple):
    """The failed calls and hangs that the first output shows, the number of those that it leaves out, and, if nothing
    failed, what may be wrong."""

    shown: list[Finding]
    left_out: int
    perhaps: list[Finding]

    @property
    def all(self) -> list[Finding]:
        """All findings that are shown, in order."""
        return [*self.shown, *self.perhaps]

    def lines(self, name: str) -> list[str]:
        """The lines of the first output, before `plain` is applied to them; none if no cause is found."""
        lines = [line for finding in self.shown for line in paragraph(finding.sentences)]
        if self.left_out:
            lines.append(f"{INDENT}({self.left_out} more: info errors, info hangs)")
        lines += [line for finding in self.perhaps for line in paragraph(finding.sentences)]
        return [*lines, *(f"{NEXT}{command_of(finding.evidence, name)}" for finding in self.all[:1])]


class SuspectFindings(NamedTuple):
    """The suspects that are shown, worst first, and a line about the rest; the line may be empty."""

    findings: list[Finding]
    rest: str

    def lines(self) -> list[str]:
        """The lines of `info suspects`, before `plain` is applied to them."""
        lines = [line for at, finding in enumerate(self.findings, 1) for line in suspect_lines(at, finding)]
        return [*lines, *([self.rest] if self.rest else [])]


def paragraph(says: Sequence[str]) -> list[str]:
    """The lines of a cause, one sentence to a line."""
    first, *rest = says
    return [f"{CAUSE}{first}", *(f"{INDENT}{line}" for line in rest)]


def suspect_lines(at: int, finding: Finding) -> list[Sentence]:
    """The lines of the suspect with this number: its sentence, netrev's lines and answers, notes about answers that the
    rule didn't expect, the program's lines, and the command to type next. Only netrev's output follows `netrev:`."""
    first, further = finding.sentences[0], [*finding.details, Sentence(f"next:   {'; '.join(finding.evidence)}")]
    return [Sentence(f"{at}. {first}", first.place), *(Sentence(f"   {line}", line.place) for line in further)]
