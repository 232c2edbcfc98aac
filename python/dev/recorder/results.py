"""The result of each recorded test, and the tables of results."""

from __future__ import annotations

import collections
import json
import pathlib
from collections.abc import Iterable, Mapping
from dataclasses import asdict, dataclass, field, replace

from netrev.text.plain import plain

from .readiness import Readiness

# Steps whose answer isn't Go's: generated steps, or answers that the converter numbers.
MADE_UP = frozenset(
    "arrive drain peerclose tick pop spawn sockopen pollopen setdeadline evict pollclose release closewrite".split()
)
EVENT = "pollevent"
UNTAGGED = ("1.18", "1.19", "1.20")  # releases in which an event's answer is generated too


@dataclass
class Result:
    """The result of one log of a test."""

    release: str
    suite: str
    test: str
    processors: int
    went: str = ""  # how the test itself ended
    steps: int = 0
    words: int = 0
    answers: int = 0  # answers that are Go's own values
    events: int = 0
    stale: int = 0  # events
    said: str = ""
    differ: int = 0
    recording: str = ""
    is_healthy: bool = False
    suspects: list[str] = field(default_factory=list)

    def again(self) -> Result:
        """A result for another process of this run."""
        return replace(self, suspects=[])

    def count(self, lines: Iterable[str]) -> None:
        """Counts the answers that are Go's own values."""
        has_tags = not self.release.removeprefix("go").startswith(UNTAGGED)
        for line in lines:
            kind = line[2 : line.index('"', 2)]
            self.events += kind == EVENT
            self.stale += kind == EVENT and line.endswith('"stale"]')
            self.answers += kind not in MADE_UP and (has_tags or kind != EVENT)

    @property
    def is_taken(self) -> bool:
        return self.said.startswith("ok")


def say(text: str) -> None:
    """Prints lines, with text from outside escaped."""
    print("\n".join(plain(line) for line in text.split("\n")), flush=True)


def keep(results: list[Result], out: pathlib.Path) -> None:
    """Writes the results so far."""
    (out / "results.jsonl").write_text("".join(json.dumps(asdict(result)) + "\n" for result in results))


def read_results(out: pathlib.Path) -> list[Result]:
    return [Result(**json.loads(line)) for line in (out / "results.jsonl").read_text().splitlines()]


HEADINGS = (
    "recordings", "accepted", "refused", "not made", "steps", "answers of Go's", "lock words", "events, stale", "differ", "suspects"
)  # fmt: skip


OF_RELEASES = (
    "rules that fit", "compiled", "the doctor's program", "of samples", "of tests", *HEADINGS[1:]
)  # fmt: skip


def of_release(row: list[Result], readiness: Readiness | None) -> list[str]:
    """The figures of a release: its state, and the recordings of its samples and tests with their results."""
    samples = sum(result.suite.startswith("samples/") for result in row)
    return [*(readiness.cells() if readiness else "???"), f"{samples:,}", f"{len(row) - samples:,}", *counted(row)[1:]]


def counted(row: list[Result]) -> list[str]:
    """The figures of a row."""
    taken = [result for result in row if result.is_taken]
    refused = [result for result in row if result.recording and not result.is_taken]
    healthy = [result for result in taken if result.is_healthy]
    suspected = f"{sum(bool(result.suspects) for result in healthy)} of {len(healthy)}" if healthy else "-"
    events = f"{sum(result.events for result in taken):,}, {sum(result.stale for result in taken)}"
    numbers = [len(row), len(taken), len(refused), len(row) - len(taken) - len(refused)]
    numbers += [sum(getattr(result, name) for result in taken) for name in ("steps", "answers", "words")]
    return [f"{number:,}" for number in numbers] + [events, f"{sum(result.differ for result in taken):,}", suspected]


def rows(results: Iterable[Result], of_all: bool) -> list[tuple[str, list[Result]]]:
    """The results of each release, or of each of its suites on this many processors."""
    found: dict[str, list[Result]] = collections.defaultdict(list)
    for result in results:
        found[result.release if of_all else f"{result.release} | {result.suite} | {result.processors}"].append(result)
    return list(found.items())


def table(results: list[Result]) -> bool:
    """Prints a row for each suite, and returns whether all is well."""
    say(f"| Go | Tests of | on | {' | '.join(HEADINGS)} |")
    say("|---|---|--:|" + "--:|" * len(HEADINGS))
    for name, row in rows(results, False):
        say(f"| {name} | {' | '.join(counted(row))} |")
    bad = [result for result in results if result.differ or not result.is_taken or result.suspects]
    for result in bad:
        more = "; suspected: " + result.suspects[0] if result.suspects else ""
        say(
            f"{result.release} {result.suite} {result.test} on {result.processors} ({result.went}): {result.said}{more}"
        )
    return not bad


def summary(results: list[Result], standings: Mapping[str, Readiness | None]) -> None:
    """Prints a row for each release."""
    say(f"\n| Go | {' | '.join(OF_RELEASES)} |")
    say("|---|" + "--:|" * len(OF_RELEASES))
    for name, row in rows(results, True):
        say(f"| {name} | {' | '.join(of_release(row, standings.get(name)))} |")
    failed = collections.Counter(
        (result.release, result.suite, result.test) for result in results if result.went in ("failed", "timeout")
    )
    if failed:
        say(
            "\nTests that failed themselves: "
            + ", ".join(f"{' '.join(name)} ({times})" for name, times in failed.items())
        )
