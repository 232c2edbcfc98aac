"""`netrev-go test`: the tests that ran, their sockets, the recordings that are kept, and the output. A stand-in for Go
writes a made-up log and its tests. Neither Go nor netrev is needed."""

import contextlib
import io
import json
import re
import signal
import tempfile
import time
from contextlib import ExitStack
from dataclasses import asdict
from pathlib import Path
from types import SimpleNamespace
from typing import Any, cast
from xml.etree import ElementTree

import pytest

from dev.fuzz.generators.logs import binary
from netrev.findings.finding import Finding
from netrev.findings.finding import Kind as FindingKind
from netrev.findings.finding import Place, Sentence, sentences_of
from netrev.recording.where import SourceLines
from netrev_go import cli
from netrev_go.cli import ExitStatus
from netrev_go.go_command import build_errors
from netrev_go.go_command.running import FROM_THE_TERMINAL, GoRunner, RunLimits
from netrev_go.go_command.toolchain import Go
from netrev_go.go_test_results import Recordings, file_name, short_name
from netrev_go.log.goroutines import goroutines_of as everybody
from netrev_go.log.points import Log, PointKind
from netrev_go.log.sockets import owned
from netrev_go.log.tests_in_log import Ran, Tests, Went, of_log
from netrev_go.steps import conversion, forms, report
from netrev_go.steps.conversion import RecordingOptions
from netrev_go.steps.forms import Cause, TestResult
from netrev_go.steps.report import Conversion, Shown
from netrev_go.steps.scopes_of_tests import goroutines_of, sockets_of
from tests.logs.test_go_converting import Points
from tests.support.stubs import stub

from .test_go_kept_runs import PYTHON, Run, restore_signals

Captured = pytest.CaptureFixture[str]
Patch = pytest.MonkeyPatch
MAIN, RED, PART, GREEN, CHILD = 1, 10, 11, 20, 12  # goroutines
PACKAGE = "example.org/toy/v2"
# The main goroutine opens a socket, and so do TestRed, its subtest in a goroutine of its own, and TestGreen, which runs
# in parallel.
POINTS = (
    Points()
    .opened(701, 901, g=MAIN)
    .add(PointKind.READY, MAIN, 0, RED, 1)
    .opened(702, 902, g=RED)
    .add(PointKind.READY, MAIN, 0, GREEN, 1)
    .opened(703, 903, g=GREEN)
    .add(PointKind.READY, RED, 0, PART, 1)
    .add(PointKind.READY, PART, 0, CHILD, 1)
    .opened(704, 904, g=CHILD)
    .add(PointKind.READ, CHILD, 701, 100, 100)
    .add(PointKind.READ, RED, 702, 8, 2)
)
LINES = f"""1 1 5 package {PACKAGE}
3 {RED} 1000000000 runs TestRed
6 {GREEN} 1000000000 runs TestGreen
9 {PART} 1500000000 runs TestRed/a_part
12 {PART} 1700000000 fails TestRed
12 {PART} 1700000000 fails TestRed/a_part	/else/a_test.go:31
13 {PART} 2000000000 ends TestRed/a_part
14 {RED} 3000000000 ends TestRed
14 {GREEN} 3000000000 ends TestGreen
14 30 3000000000 runs TestLeft
14 30 3000000000 skips TestLeft
14 30 3000000000 ends TestLeft
"""


def tests_of(lines: str) -> Tests:
    """The tests in a process's lines."""
    with tempfile.TemporaryDirectory() as folder:
        log = Path(folder, "log.1")
        log.with_name("log.1.tests").write_text(lines)
        return of_log(log)


def test_each_test_is_known_by_its_name() -> None:
    tests = tests_of(LINES)
    assert [(test.name, test.went().value, test.seconds()) for test in tests.ran] == [
        ("TestRed", "failed", 2.0),
        ("TestGreen", "passed", 2.0),
        ("TestRed/a_part", "failed", 0.5),
        ("TestLeft", "skipped", 0.0),
    ]
    assert {test.package for test in tests.ran} == {PACKAGE}


def test_one_that_never_ended_ran_when_the_process_did() -> None:
    tests = tests_of("1 1 5 package p\n2 3 9 runs TestHang\n")
    assert tests.ran[0].went() == Went.UNFINISHED
    assert tests.to_keep() == tests.ran


def test_of_a_test_and_its_part_the_part_is_kept() -> None:
    assert [test.name for test in tests_of(LINES).to_keep()] == ["TestRed/a_part"]
    assert [test.name for test in tests_of(LINES).leaves()] == ["TestGreen", "TestRed/a_part", "TestLeft"]


def test_where_it_failed_is_known_from_here() -> None:
    here = Path.cwd()
    for place, wanted in ((f"{here}/x/a_test.go:7", ("x/a_test.go", 7)), ("", None), ("a:b", None), (":5", None)):
        tests = tests_of(f"1 1 5 package p\n2 3 9 runs T\n2 3 9 fails T\t{place}\n2 3 9 fails T\tb.go:9\n")
        assert tests.ran[0].place == wanted


def test_a_damaged_line_says_nothing() -> None:
    lines = f"x\n1 1\n1 1 -5 package p\n{10**30} 1 5 package p\n1 1 1 ends TestNone\n\x00\xff 1 1 runs T\n" + LINES
    assert len(tests_of(lines).ran) == 4
    assert of_log(Path("/nowhere/log.1")).ran == []


def test_the_file_is_mapped_and_zeros_say_nothing() -> None:
    lines = "1 1 5 package p\n2 3 9 runs Te\0\0\0\0\n3 3 9 runs T\n3 3 9 fai\0\0\0\0" + "\0" * 10**6
    assert [(test.package, test.name, test.went()) for test in tests_of(lines).ran] == [("p", "T", Went.UNFINISHED)]


def test_it_runs_again_by_the_same_name() -> None:
    tests = tests_of("1 1 1 package p\n1 2 1 runs T\n1 2 1 ends T\n2 3 1 runs T\n2 3 1 fails T\n2 3 1 ends T\n")
    assert [test.went().value for test in tests.ran] == ["passed", "failed"]


def test_a_bubble_of_synctest_is_part_of_the_test_of_its_name() -> None:
    begins, ends, fails = "1 2 1 runs T\n1 3 1 runs T\n", "2 3 4 ends T\n", "2 3 3 fails T\ta.go:5\n"
    for lines, went, seconds in (
        (f"{begins}{ends}3 2 6 ends T\n", Went.PASSED, 5 / 10**9),
        (f"{begins}{fails}{ends}3 2 6 ends T\n", Went.FAILED, 5 / 10**9),
        (f"{begins}2 3 3 skips T\n{ends}3 2 6 ends T\n", Went.SKIPPED, 5 / 10**9),
        (f"{begins}{ends}", Went.UNFINISHED, 0.0),
        (f"{begins}{ends}3 4 5 runs T\n3 4 5 ends T\n3 2 6 ends T\n", Went.PASSED, 5 / 10**9),
    ):
        (test,) = tests_of(f"1 1 1 package p\n{lines}").ran
        assert (test.went(), test.goroutine) == (went, 2), lines
        assert test.seconds() == pytest.approx(seconds, abs=5e-8), lines


def kept(name: str) -> list[int]:
    """The sockets of a test, numbered in the order in which the log opens them."""
    tests, log = tests_of(LINES), Log(POINTS.points)
    found = owned([point for point in log.points if point.kind != PointKind.READY])
    return [socket.opening for socket in sockets_of(tests.by_name[name], log, found, tests.ran)]


def test_a_test_has_its_own_and_its_parts_and_nobodys_that_was_used() -> None:
    assert kept("TestRed") == [0, 1, 3]


def test_a_part_has_those_of_the_test_that_it_is_part_of_where_they_are_used() -> None:
    assert kept("TestRed/a_part") == [0, 3]


def test_another_one_has_none_of_them() -> None:
    assert kept("TestGreen") == [0, 2]


def test_a_test_has_no_goroutines_of_another_one() -> None:
    """Another test has left a waiting goroutine, which is removed. The main goroutine, the goroutines of the test's
    parts, and the goroutines with which it shares a socket are kept."""
    points = Points()
    points.points += POINTS.points
    left, channel = 40, 5_000
    points.add(PointKind.READY, RED, 0, left, 1)
    for goroutine in (MAIN, RED, PART, GREEN, CHILD, left):
        points.add(PointKind.PARKS, goroutine, channel, 1).add(PointKind.CHANNEL_CLOSED, goroutine, channel)
        points.add(PointKind.TIMER, goroutine, channel)
    found = everybody([point._replace(time=1_600_000_000) for point in points.points], [], 0)
    tests = tests_of(LINES)
    rows: list[tuple[str, dict[int, int], set[int]]] = [
        ("TestGreen", {}, {MAIN, GREEN}),
        ("TestGreen", {left: 0}, {MAIN, GREEN, left}),
        ("TestRed", {}, {MAIN, RED, PART, CHILD, left}),
        ("TestRed/a_part", {}, {MAIN, RED, PART, CHILD, left}),
    ]
    for name, numbers, expected in rows:
        kept = goroutines_of(tests.by_name[name], found, tests.ran, numbers)
        parks, timers = {park.goroutine for park in kept.parks}, {timer.goroutine for timer in kept.timers}
        assert [parks, timers, {use.goroutine for use in kept.uses}] == [expected] * 3, (name, numbers)


def test_goroutines_that_made_each_other_are_nobodys() -> None:
    points = Points().add(PointKind.READY, 5, 0, 6, 1).add(PointKind.READY, 6, 0, 5, 1).opened(701, 901, g=5)
    test = Ran("p", "T", 99, 0, 0)
    found = owned([point for point in points.points if point.kind != PointKind.READY])
    assert len(sockets_of(test, Log(points.points), found, [test])) == 1


SUSPECTED = Shown(
    Finding(FindingKind.SUSPECT, (Sentence("lost wake-up: 100%: step 3, so"),)),
    [Sentence("1. lost wake-up: 100%: step 3, so")],
)


class Tested(Run):
    """`netrev-go test`, with a stand-in for Go that leaves a log with tests."""

    def __init__(self, folder: Path, monkeypatch: pytest.MonkeyPatch, cleanups: ExitStack) -> None:
        super().__init__(folder, monkeypatch, cleanups)
        self.log.write_bytes(binary(POINTS.points))
        (self.folder / "lines").write_text(LINES)

    def told(self, *words: str, status: int = 1, does: str = "") -> tuple[int, str, str]:
        """netrev-go's status, and its text on standard output and on standard error."""
        leaves = f'cp {self.log} "$NETREV_LOG.$$"; cp {self.folder}/lines "$NETREV_LOG.$$.tests"'
        out, error = io.StringIO(), io.StringIO()
        with contextlib.redirect_stdout(out), contextlib.redirect_stderr(error):
            go = self.go(does, status, leaves)
            with pytest.MonkeyPatch.context() as patch:
                patch.setattr(cli, "find_go", lambda: go)
                patch.setattr(cli, "ready", lambda _: self.folder / "overlay.json")
                patch.setattr(report, "netrev_program", lambda: None)
                returned = cli.main(list(words))
        return returned, out.getvalue(), error.getvalue()

    def made(self, folder: str = "recordings") -> list[str]:
        return sorted(path.name for path in (self.folder / folder).glob("*.jsonl"))


def test_the_recording_of_the_test_that_failed_is_kept(package: Tested) -> None:
    returned, out, error = package.told("test", "./...")
    assert (returned, out) == (1, "")
    assert package.made() == ["toy.TestRed.a_part.jsonl"]
    assert f"FAILED {PACKAGE} TestRed/a_part, at /else/a_test.go:31\n  recordings/toy.TestRed.a_part.jsonl: " in error
    assert "netrev-go: 4 tests, 1 run; 2 failed" in error
    assert "the logs are in" not in error
    recording = package.folder / "recordings/toy.TestRed.a_part.jsonl"
    lines = SourceLines.beside(str(recording), len(recording.read_text().splitlines()) - 1)
    assert (lines.fault, lines.bytes) == ("", 64)
    assert f"{PACKAGE} TestRed/a_part" in [name for _, _, name in lines.tests]


def test_a_recording_replaces_only_an_earlier_one_of_its_test(package: Tested) -> None:
    name, key = "toy.TestRed.a_part", b'"test":"TestRed/a_part"'
    recording, lines, page = (package.folder / f"recordings/{name}{ending}" for ending in (".jsonl", ".where", ".html"))
    package.told("test", ".")
    lines.write_bytes(lines.read_bytes() + b" ")
    page.write_text("mine")
    package.told("test", ".")
    assert (package.made(), lines.read_bytes()[-1:]) == ([recording.name], b"\n")
    package.told("--html", "test", ".")
    assert (package.made(), page.read_text()) == ([f"{name}-2.jsonl", recording.name], "mine")
    lines.write_bytes(lines.read_bytes().replace(key, b'"test":"TestRed/another"'))
    before = recording.read_bytes(), lines.read_bytes()
    package.told("test", ".")
    assert (package.made(), (recording.read_bytes(), lines.read_bytes())) == (
        [f"{name}-2.jsonl", recording.name],
        before,
    )


def test_all_are_kept_where_that_is_wanted(package: Tested) -> None:
    package.told("--all", "-o", "mine", "test", ".", status=0)
    assert package.made("mine") == ["toy.TestGreen.jsonl", "toy.TestRed.a_part.jsonl"]


def test_where_no_test_is_known_to_have_failed_the_process_is_kept(package: Tested) -> None:
    (package.folder / "lines").write_text(f"1 1 5 package {PACKAGE}\n")
    returned, _, error = package.told("test", ".", status=3)
    assert (returned, package.made()) == (3, ["toy.jsonl"])
    assert "no test in it is known to have failed" in error


def test_of_tests_that_pass_nothing_is_kept_and_nothing_said(package: Tested) -> None:
    (package.folder / "lines").write_text(LINES.replace("fails", "other"))
    assert package.told("test", ".", status=0) == (0, "", "")
    assert not (package.folder / "recordings").exists()


def test_again_and_again(package: Tested) -> None:
    returned, _, error = package.told("--runs", "3", "test", ".")
    assert returned == 1
    assert f"  {PACKAGE} TestRed/a_part: failed in 3 of 3 runs" in error
    assert package.made() == ["toy.TestRed.a_part.jsonl"]
    _, _, error = package.told("--until-failure", "--delays", "5", "test", ".", does="exit 1")
    assert "run 1 (--delays 5) failed" in error
    assert "4 tests, 1 run" in error
    (package.folder / "lines").write_text(LINES.replace("fails", "other"))
    seen = package.folder / "seen"
    package.told(
        "--runs", "3", "--delays", "5", "test", ".", status=0, does=f'echo "$GOMAXPROCS $NETREV_DELAYS" >> {seen}'
    )
    runs = [line.split(" ") for line in seen.read_text().splitlines()]
    assert [run[1] for run in runs] == ["5", "6", "7"]
    assert len({run[0] for run in runs}) == 3


def test_suspects_fail_where_that_is_wanted(monkeypatch: pytest.MonkeyPatch, package: Tested) -> None:
    text = Conversion(True, ["x.jsonl: ok"], shown=[SUSPECTED])
    monkeypatch.setattr(conversion, "report", lambda *_: text)
    for what, wanted in (("suspects", ExitStatus.SUSPECTED), ("possible", 0)):
        assert package.told("--fail-on", what, "test", ".", status=0)[0] == wanted
    assert package.told("test", ".", status=0)[0] == 0
    assert package.told("--fail-on", "suspects", "test", ".", status=1)[0] == 1
    assert package.told("--fail-on", "suspects", "run", ".", status=0)[0] == ExitStatus.SUSPECTED


def test_each_form_is_read_as_its_consumer_does(monkeypatch: pytest.MonkeyPatch, package: Tested) -> None:
    printed = ["x: ok 9 steps", "  a/b.go:7: net.Dial waits to read", "    1. lost wake-up: 100%: step 3, so"]
    sentence = Sentence("a/b.go:7: net.Dial waits to read", Place("a/b.go", 7))
    wait = Shown(Finding(FindingKind.WAIT, (sentence,)), [sentence])
    text = Conversion(True, printed, shown=[wait, SUSPECTED])
    with monkeypatch.context() as patch:
        patch.setattr(conversion, "report", lambda *_: text)
        _, out, _ = package.told("--json", "a.json", "--junit", "a.xml", "--github", "test", ".")
    lines = [json.loads(line) for line in (package.folder / "a.json").read_text().splitlines()]
    assert [sorted(line) for line in lines] == [sorted(keys_of_the_page())] * 4
    part = next(line for line in lines if line["test"] == "TestRed/a_part")
    assert (part["status"], part["runs"], part["failed"], part["seconds"]) == ("failed", 1, 1, 0.5)
    assert part["recording"] == "recordings/toy.TestRed.a_part.jsonl"
    assert part["causes"] == [{"file": "a/b.go", "line": 7, "text": "a/b.go:7: net.Dial waits to read"}]
    assert part["suspects"] == ["lost wake-up: 100%: step 3, so"]
    top = ElementTree.parse(package.folder / "a.xml").getroot()
    suite = top[0]
    assert (top.tag, suite.get("name"), suite.get("tests")) == ("testsuites", PACKAGE, "4")
    assert (suite.get("failures"), suite.get("errors"), suite.get("skipped")) == ("2", "0", "1")
    case = next(case for case in suite if case.get("name") == "TestRed/a_part")
    assert (case.get("classname"), case.get("time")) == (PACKAGE, "0.500000")
    failure = case.find("failure")
    assert failure is not None and failure.text is not None
    assert "net.Dial waits to read" in failure.text
    result = [as_github_reads(line) for line in out.splitlines()]
    assert len(result) == 1
    properties, message = result[0]
    assert (properties["file"], properties["line"]) == ("/else/a_test.go", "31")
    assert properties["title"] == f"{PACKAGE} TestRed/a_part"
    assert (part["file"], part["line"]) == ("/else/a_test.go", 31)
    assert "\n    1. lost wake-up: 100%: step 3, so" in message


ERRORS = """go: downloading example.org/x v1.2.0
# example.org/p/cyc
package example.org/p/cyc
	imports example.org/p/cyc from c.go: import cycle not allowed
# example.org/p/broken [example.org/p/broken.test]
broken/b.go:3:19: too many return values
	have (number)
# example.org/p/vetted
# [example.org/p/vetted]
./v_test.go:6:2: fmt.Printf format %d has arg "x" of wrong type string
# example.org/p/outside_test [example.org/p/outside.test]
o_test.go:3: undefined: y
# example.org/c
a.go:5:10: warning: unused variable
sqlite3.c:3:1: note: declared here
"""
"""What Go prints to standard error about packages that it can't load, build or vet, and about one that it can."""


def test_a_package_that_go_cannot_build_is_in_each_form(package: Tested, capfd: Captured) -> None:
    (package.folder / "errors").write_text(ERRORS)
    words = ("--json", "a.json", "--junit", "a.xml", "--github", "test", "./...")
    returned, out, error = package.told(*words, does="cat errors >&2")
    assert (returned, capfd.readouterr().err) == (1, ERRORS)
    assert "netrev-go: 4 tests, 1 run; 2 failed" in error
    lines = [json.loads(line) for line in (package.folder / "a.json").read_text().splitlines()]
    found = {line["package"]: line for line in lines if line["status"] == "unbuilt"}
    assert {name: (line["file"], line["line"], line["test"], line["runs"]) for name, line in found.items()} == {
        "example.org/p/cyc": (None, None, "[build failed]", 1),
        "example.org/p/broken": ("broken/b.go", 3, "[build failed]", 1),
        "example.org/p/vetted": ("v_test.go", 6, "[build failed]", 1),
        "example.org/p/outside": ("o_test.go", 3, "[build failed]", 1),
    }
    assert found["example.org/p/broken"]["says"] == ["broken/b.go:3:19: too many return values", "    have (number)"]
    top = ElementTree.parse(package.folder / "a.xml").getroot()
    suite = next(suite for suite in top if suite.get("name") == "example.org/p/broken")
    assert (top.get("errors"), suite.get("tests"), suite.get("errors"), suite.get("failures")) == ("4", "1", "1", "0")
    assert (suite[0][0].tag, suite[0][0].get("message")) == ("error", "unbuilt")
    assert suite[0][0].text == "broken/b.go:3:19: too many return values\n    have (number)"
    properties, message = as_github_reads(next(line for line in out.splitlines() if "broken" in line))
    assert properties == {"file": "broken/b.go", "line": "3", "title": "example.org/p/broken [build failed]"}
    assert message == "unbuilt\nbroken/b.go:3:19: too many return values\n    have (number)"


def test_what_go_prints_at_its_end_is_passed_on(package: Tested, monkeypatch: Patch, capfd: Captured) -> None:
    monkeypatch.setattr(build_errors, "select", stub(select=lambda *_: time.sleep(0.2)))
    assert package.told("--json", "a.json", "test", ".", status=0, does="echo late >&2")[0] == 0
    assert capfd.readouterr().err == "late\n"


def test_if_go_fails_before_any_test_its_error_is_in_each_form(package: Tested) -> None:
    go = ("--junit", "a.xml", "test", "./...")
    does = "echo 'go: cannot find main module' >&2"
    for leaves, suites in (("rm $NETREV_LOG.*", ["go test"]), ("true", [PACKAGE])):
        package.told(*go, does=f"{does}; {leaves}")
        assert [suite.get("name") for suite in ElementTree.parse(package.folder / "a.xml").getroot()] == suites


def test_what_cannot_go_together_is_told_before_anything_runs(package: Tested) -> None:
    for words in (
        ["--github", "test", "-json", "."],
        ["--runs", "0", "test", "."],
        ["--runs", "2", "run", "."],
        ["-o", "stored", "test", "."],
    ):
        returned, _, error = package.told(*words, does=f"touch {package.folder}/ran")
        assert returned == ExitStatus.TROUBLE, error
    assert not (package.folder / "ran").exists()


def test_a_file_that_cannot_be_written_is_said_and_changes_nothing(package: Tested) -> None:
    returned, _, error = package.told("--json", "nowhere/a", "test", ".", status=0)
    assert returned == 0
    assert "netrev-go: nowhere/a: No such file or directory" in error


def as_github_reads(line: str) -> tuple[dict[str, str], str]:
    """The properties and the message of an annotation, parsed as GitHub's runner parses them: it unescapes fewer
    characters in the message."""
    head, _, message = line.removeprefix("::").partition("::")
    command, _, rest = head.partition(" ")
    assert command == "error", line

    def back(text: str, codes: dict[str, str]) -> str:
        for code, sign in codes.items():
            text = text.replace(code, sign)
        return text

    of_data, of_properties = {"%0D": "\r", "%0A": "\n"}, {"%3A": ":", "%2C": ","}
    properties = dict(part.split("=", 1) for part in rest.split(","))
    read = {name: back(value, of_data | of_properties | {"%25": "%"}) for name, value in properties.items()}
    return read, back(message, of_data | {"%25": "%"})


def keys_of_the_page() -> list[str]:
    """The keys of a line of JSON, as listed in docs/reference/OPTIONS.md."""
    page = (PYTHON.parent / "docs/reference/OPTIONS.md").read_text()
    table = page[page.index("| Key | Says |") : page.index("`--github` prints")]
    return [word for row in table.splitlines()[2:] for word in re.findall(r"`(\w+)`", row.split("|")[1] if row else "")]


NOWHERE = Path("/nowhere")


def test_what_a_page_or_a_terminal_would_obey_is_written_out() -> None:
    test_result = TestResult("p", "T\x1b[31m", "failed", 1, 1, says=["a\x07b"], causes=[Cause("x,y:z.go", 3, "")])
    assert forms.annotation(test_result) == "::error file=x%2Cy%3Az.go,line=3,title=p T\\x1b[31m::failed%0Aa\\x07b"
    case = ElementTree.fromstring(forms.junit([test_result]))[0][0]
    assert case.get("name") == "T\\x1b[31m"


def test_whatever_is_said_is_read_again_as_it_was() -> None:
    strange = '100%, 50%25: a::b, c=d %0A %2C %3A </failure> & <!-- ]]> "x" ::error::'
    test_result = TestResult(
        "p", strange, "failed", 1, 1, file=strange, line=3, says=[strange, "b"], suspects=[strange]
    )
    properties, message = as_github_reads(forms.annotation(test_result))
    assert properties == {"file": strange, "line": "3", "title": f"p {strange}"}
    assert message == f"failed\n{strange}\nb"
    (case,) = ElementTree.fromstring(forms.junit([test_result])).iter("testcase")
    assert (case.get("name"), case[0].text) == (strange, f"{strange}\nb")
    (line,) = forms.json_lines([test_result]).splitlines()
    assert json.loads(line) == asdict(test_result)


def test_one_that_never_ended_is_an_error() -> None:
    case = ElementTree.fromstring(forms.junit([TestResult("p", "T", "unfinished", 1, 1)]))[0][0]
    assert [part.tag for part in case] == ["error"]


def test_names_of_files() -> None:
    assert short_name("example.org/toy/v2") == "toy"
    assert short_name("v2") == "v2"
    assert file_name("toy", "Test/a b/../c") == "toy.Test.a_b....c"
    assert len(file_name("toy", "x" * 400)) < 250


def test_each_recording_has_a_name_of_its_own() -> None:
    recordings = Recordings(Path("r"), Go("go", NOWHERE, "", "", ""), RecordingOptions(), False, False)
    names = [recordings.name_of("p", test).name for test in ("T/a=b", "T/a_b", "T/a_b-2", "T/a b")]
    assert names == ["p.T.a_b.jsonl", "p.T.a_b-2.jsonl", "p.T.a_b-2-2.jsonl", "p.T.a_b-3.jsonl"]


def test_a_long_line_is_searched_in_no_time() -> None:
    begin = time.process_time()
    lines = SourceLines()
    lines._add({"call": 1, "function": "main.f", "file": "a.go", "line": 3, "of": "program"})
    shown = Shown(Finding(FindingKind.HANG, ()), sentences_of(lines, ["x" * 100_000, "ba.go:9, a.go:7 and a.go:8"]))
    assert forms.causes_in([shown]) == [Cause("a.go", 7, "ba.go:9, a.go:7 and a.go:8")]
    assert time.process_time() - begin < 5


def test_of_several_runs_it_is_said_in_how_many_it_failed() -> None:
    assert TestResult("p", "T", "failed", 1, 1).outcome() == "failed"
    assert TestResult("p", "T", "failed", 3, 1).outcome() == "failed in 1 of 3 runs"


def test_the_page_has_each_key_and_element() -> None:
    page = (PYTHON.parent / "docs/reference/OPTIONS.md").read_text()
    assert sorted(keys_of_the_page()) == sorted(asdict(TestResult("p", "T")))
    table = page[page.index("| Element | Has |") : page.index("`--html` writes")]
    named = set(re.findall(r"`(\w+)`", table))
    red = [TestResult("p", "T", status, 1, int(status != "skipped")) for status in ("failed", "unfinished", "skipped")]
    top = ElementTree.fromstring(forms.junit(red))
    assert {part.tag for part in top.iter()} | {key for part in top.iter() for key in part.keys()} == named


@pytest.fixture
def signals(cleanups: ExitStack) -> None:
    restore_signals(cleanups)


def ended(folder: Path, script: str, called: list[bool] | None = None) -> tuple[int, bool]:
    """The status of a command, and whether it was cancelled before its end."""
    runner = GoRunner(["sh", "-c", script], folder, RunLimits())
    status = runner.wait(lambda: (called if called is not None else []).append(True))
    return status, runner.cancelled


@pytest.mark.alone
@pytest.mark.usefixtures("signals")
def test_what_cancels_netrev_go_goes_to_go(folder: Path) -> None:
    loop = "while :; do sleep 0.05; done"
    for name, status in (("TERM", 7), ("INT", 8)):
        text = ended(folder, f"trap 'exit {status}' {name}; kill -{name} $PPID; {loop}")
        assert text == (status, True), name
    assert ended(folder, f"kill -TERM $PPID; {loop}") == (-signal.SIGTERM, True)


@pytest.mark.alone
@pytest.mark.usefixtures("signals")
def test_what_the_terminal_sent_to_all_is_not_sent_twice(folder: Path) -> None:
    runner = GoRunner(["true"], folder, RunLimits())
    runner.wait(lambda: None)
    for code, times in ((FROM_THE_TERMINAL, 0), (0, 1)):
        sent: list[int] = []
        runner.process = cast(Any, SimpleNamespace(send_signal=sent.append))
        runner.attend(cast(Any, SimpleNamespace(si_signo=signal.SIGINT, si_code=code)), lambda: None)
        assert sent == [signal.SIGINT] * times


@pytest.mark.alone
@pytest.mark.usefixtures("signals")
def test_a_recording_so_far_cancels_nothing(folder: Path) -> None:
    called: list[bool] = []
    assert ended(folder, "kill -USR1 $PPID; sleep 0.3", called) == (0, False)
    assert called == [True]
