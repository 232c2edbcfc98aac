"""Machine-readable test results: JSON lines, GitHub annotations and JUnit XML (docs/reference/OPTIONS.md)."""

from __future__ import annotations

import json
from collections.abc import Iterable
from dataclasses import asdict, dataclass, field
from xml.etree import ElementTree

from netrev.text.plain import plain
from netrev_go.go_command.build_errors import place_in
from netrev_go.log.tests_in_log import Ran, Went

from .report import Conversion, Shown

UNBUILT, BUILD = "unbuilt", "[build failed]"  # a package's status, and the name in place of a test's
WORST = (Went.FAILED, Went.UNFINISHED, Went.PASSED, Went.SKIPPED)


@dataclass
class Cause:
    """A line of the report that names a line of the program."""

    file: str
    line: int
    text: str


@dataclass
class TestResult:
    """The result of one test in all its runs."""

    package: str
    test: str
    status: str = Went.SKIPPED.value
    runs: int = 0
    failed: int = 0
    seconds: float = 0.0
    file: str | None = None
    line: int | None = None
    recording: str | None = None
    accepted: bool | None = None  # by netrev; None without a recording
    page: str | None = None
    suspects: list[str] = field(default_factory=list)
    causes: list[Cause] = field(default_factory=list)
    possible: list[str] = field(default_factory=list)
    says: list[str] = field(default_factory=list)

    def add(self, test: Ran) -> None:
        """Adds a run."""
        self.runs += 1
        self.failed += test.is_red()
        self.seconds = round(self.seconds + test.seconds(), 6)
        if self.file is None and test.place is not None:
            self.file, self.line = test.place
        self.status = min(Went(self.status), test.went(), key=WORST.index).value

    def is_red(self) -> bool:
        return self.failed > 0

    def outcome(self) -> str:
        """The test's outcome: `failed`, or `failed in 1 of 3 runs`."""
        return f"{self.status} in {self.failed} of {self.runs} runs" if self.runs > 1 else self.status

    def place(self) -> tuple[str, int] | None:
        """The line at which the test failed, or else the first line of the program in the report."""
        if self.file is not None and self.line is not None:
            return self.file, self.line
        return (self.causes[0].file, self.causes[0].line) if self.causes else None

    def report(self, outcome: Conversion) -> None:
        """Adds the report about the test's recording."""
        self.says, self.accepted = outcome.lines, outcome.taken
        self.suspects = [plain(finding.sentences[0]) for finding in outcome.suspects]
        self.causes = causes_in(outcome.shown)


def unbuilt(package: str, lines: list[str]) -> TestResult:
    """The result of a package that Go couldn't load, build or vet."""
    file, line = place_in(lines) or (None, None)
    return TestResult(package, BUILD, UNBUILT, file=file, line=line, says=[line.expandtabs(4) for line in lines])


def causes_in(findings: list[Shown]) -> list[Cause]:
    """Each source line that the report's findings name, with the first line of the report that names it."""
    lines: dict[tuple[str, int], Cause] = {}
    for line in (line for shown in findings for line in shown.lines):
        if line.place:
            lines.setdefault(line.place, Cause(*line.place, plain(line).strip()))
    return list(lines.values())


def json_lines(results: Iterable[TestResult]) -> str:
    """A line for each test."""
    return "".join(json.dumps(asdict(result)) + "\n" for result in results)


def of_data(text: str) -> str:
    """Escapes a text for the part after the colons of a GitHub annotation."""
    return text.replace("%", "%25").replace("\r", "%0D").replace("\n", "%0A")


def of_property(text: str) -> str:
    """Escapes a text for a property of a GitHub annotation."""
    return of_data(text).replace(":", "%3A").replace(",", "%2C")


def annotation(result: TestResult) -> str:
    """The GitHub annotation for a failed test."""
    title = f"title={of_property(plain(f'{result.package} {result.test}'))}"
    words = [result.outcome(), *result.says]
    place = result.place()
    where = f"file={of_property(plain(place[0]))},line={place[1]}," if place else ""
    return f"::error {where}{title}::{of_data(chr(10).join(map(plain, words)))}"


def github_lines(results: Iterable[TestResult]) -> list[str]:
    """Annotations for the failed tests, without those that have a failed subtest."""
    red = [result for result in results if result.is_red()]
    parts = [(result.package, result.test) for result in red]
    return [
        annotation(result)
        for result in red
        if not any(package == result.package and test.startswith(f"{result.test}/") for package, test in parts)
    ]


def junit(results: list[TestResult]) -> str:
    """JUnit XML: a suite for each package, and a case for each test."""
    top = ElementTree.Element("testsuites", counts(results))
    for package in dict.fromkeys(result.package for result in results):
        cases = [result for result in results if result.package == package]
        suite = ElementTree.SubElement(top, "testsuite", {"name": plain(package), **counts(cases)})
        for result in cases:
            add_case(suite, result)
    ElementTree.indent(top)
    return '<?xml version="1.0" encoding="UTF-8"?>\n' + ElementTree.tostring(top, encoding="unicode") + "\n"


def counts(results: list[TestResult]) -> dict[str, str]:
    how = [result.status for result in results]
    return {
        "tests": str(len(results)),
        "failures": str(how.count(Went.FAILED.value)),
        "errors": str(how.count(Went.UNFINISHED.value) + how.count(UNBUILT)),
        "skipped": str(how.count(Went.SKIPPED.value)),
        "time": f"{sum(result.seconds for result in results):.6f}",
    }


def add_case(suite: ElementTree.Element, result: TestResult) -> None:
    """Adds a test. A failed test has a failure; a test that never ended and an unbuilt package have an error."""
    words = {"classname": plain(result.package), "name": plain(result.test), "time": f"{result.seconds:.6f}"}
    case = ElementTree.SubElement(suite, "testcase", words)
    if result.status == Went.SKIPPED.value:
        ElementTree.SubElement(case, "skipped")
    if not result.is_red():
        return
    sort = "failure" if result.status == Went.FAILED.value else "error"
    message = result.outcome()
    ElementTree.SubElement(case, sort, {"message": message}).text = "\n".join(map(plain, result.says))
