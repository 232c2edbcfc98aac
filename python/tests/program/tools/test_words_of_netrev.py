"""In every output of nrdb and netrev-go, text after `netrev:` was printed by netrev itself; nrdb's conclusions follow
`cause:`, and the command to type next follows `next:`."""

import json
import re
import shutil
import subprocess
from collections.abc import Iterator
from pathlib import Path

import pytest

from netrev.findings.suspects import table
from netrev.findings.suspects.suspect import Evidence, Suspect
from netrev.recording.recording import Recording
from netrev.recording.where import SourceLines
from netrev_go.steps import forms, report
from netrev_go.steps.forms import TestResult
from netrev_go.steps.report import Conversion
from tests.program.nrdb.common.support import netrev, nrdb
from tests.program.support.sharing import NETREV
from tests.support.examples import EXAMPLES
from tests.support.stubs import stub

CAUSED = EXAMPLES.parent / "python/tests/caused"
SUSPECT = EXAMPLES / "real/hijacked.jsonl"
FAILED = CAUSED / "pool-bad.jsonl"  # a read that ended with a timeout
HUNG = CAUSED / "mutex-bad.jsonl"
SAYS = re.compile(r"netrev: *(.*)")
LABEL = re.compile(r"[|\s]*(cause|next|look|netrev):")
VALUE = re.compile(r"at (\d+) (.+) = (.+)")
REPLIES: dict[tuple[Path, str, str], str] = {}


def reply_at(path: Path, position: str, cell: str) -> str:
    """netrev's output for a cell at a position."""
    if (path, position, cell) not in REPLIES:
        REPLIES[path, position, cell] = netrev(path, [f"restart 0\nstepi {position}", f"print {cell}"])[-1]
    return REPLIES[path, position, cell]


def foreign_words(text: str, path: Path) -> list[str]:
    """A text about a recording quotes netrev after `netrev:`. These are the quotes that netrev doesn't print."""
    lines = [line for program in ("check", "suspects") for line in printed(program, path).splitlines()]
    answers = [answer for found in SAYS.findall(text) for answer in found.replace("`", "").split("; ")]
    return [answer for answer in answers if not is_printed(answer, path) and answer not in lines]


def printed(program: str, path: Path) -> str:
    """What a program prints for a file."""
    return subprocess.run([NETREV, program, path], capture_output=True, text=True, timeout=60, check=False).stdout


def is_printed(answer: str, path: Path) -> bool:
    found = VALUE.fullmatch(answer)
    return found is not None and f"{found[2]} = {found[3]}" == reply_at(path, found[1], found[2])


def labels(text: str) -> list[str]:
    """The labels that begin lines of a text."""
    return [found[1] for line in text.splitlines() if (found := LABEL.match(line))]


def reported_by_netrev_go(path: Path, is_failed: bool = True) -> Conversion:
    """netrev-go's output about the recording of a program that failed."""
    recording = Recording.read(str(path))
    steps = [recording.step(number) for number in range(1, recording.length + 1)]
    last = [0] * recording.limits["gor"]
    for step in steps:
        if (g := step.argument("g")) is not None:
            last[g] = step.number
    recorded = stub(
        prelude=0,
        goroutines=recording.limits["gor"], sockets=recording.limits["sock"], notes=[], lines=steps, last_steps=last,
        stacks=[0] * len(steps),
    )  # fmt: skip
    with pytest.MonkeyPatch.context() as patch:
        patch.setattr(report, "netrev_program", lambda: str(NETREV))
        outcome = report.report(recorded, path, {}, is_failed)
    assert outcome.taken, outcome.lines
    return outcome


@pytest.fixture(scope="module")
def reported() -> dict[Path, Conversion]:
    """What netrev-go prints about each recording."""
    return {path: reported_by_netrev_go(path) for path in (SUSPECT, FAILED, HUNG)}


def outputs(reported: dict[Path, Conversion], folder: Path) -> Iterator[tuple[Path, str]]:
    """Every output that may contain netrev's name, with the recording that it is about."""
    for path, outcome in reported.items():
        yield path, "\n".join(outcome.lines)
        test = TestResult("example.org/toy", "TestRed", "failed", 1, 1)
        test.report(outcome)
        yield path, "\n".join(forms.github_lines([test])).replace("%0A", "\n").replace("%25", "%")
        yield path, forms.junit([test])
    yield SUSPECT, nrdb("--suspects", SUSPECT, status=4)
    yield HUNG, nrdb("--batch", "-ex", "continue", "-ex", "info suspects", "-ex", "info hangs", HUNG)
    yield FAILED, nrdb("--batch", "-ex", "continue", "-ex", "info errors", FAILED)
    nrdb("--batch", "-ex", f"report {folder / 'bug.md'}", SUSPECT)
    yield folder / "bug.jsonl", (folder / "bug.md").read_text().split("In the whole recording:")[0]
    data = json.loads(nrdb_page(SUSPECT, folder))
    yield SUSPECT, "\n".join(f"netrev: {answer}" for story in data["suspects"] for answer in story["netrev"])


def nrdb_page(path: Path, folder: Path) -> str:
    """The data of a recording's page."""
    nrdb("--timeline", folder / "page.html", path)
    found = re.search(r'<script type="application/json" id="data">(.*?)</script>', (folder / "page.html").read_text())
    assert found
    return found[1]


def test_only_netrevs_own_answers_follow_its_name(reported: dict[Path, Conversion], tmp_path: Path) -> None:
    seen = 0
    for path, text in outputs(reported, tmp_path):
        assert foreign_words(text, path) == [], text
        seen += len(SAYS.findall(text))
    assert seen > 5


def test_the_command_to_type_is_printed_once(reported: dict[Path, Conversion]) -> None:
    for outcome in reported.values():
        commands = [line.split() for line in outcome.lines if line.startswith("next:")]
        assert commands and all(commands.count(command) == 1 for command in commands)


def test_causes_follow_cause_and_commands_next(reported: dict[Path, Conversion]) -> None:
    for outcome in reported.values():
        assert labels("\n".join(outcome.lines))[:2] == ["cause", "next"]
        assert "look" not in labels("\n".join(outcome.lines))
        assert all(not LABEL.match(cause.text) for cause in forms.causes_in(outcome.shown))
    assert labels(nrdb("--suspects", SUSPECT, status=4)) == ["netrev", "next"]


def test_kept_schedules_carry_netrevs_answer_alone(tmp_path: Path, monkeypatch: pytest.MonkeyPatch) -> None:
    monkeypatch.chdir(tmp_path)
    output = nrdb("--batch", "-ex", "explore 100", shutil.copy(EXAMPLES / "cancelled-read.jsonl", tmp_path))
    answers = SAYS.findall(output)
    assert len(answers) == 2
    for number, answer in enumerate(answers, 1):
        assert foreign_words(f"netrev: {answer}", Path(f"cancelled-read-other-{number}.jsonl")) == []


def test_a_doubt_about_a_rule_is_nrdbs_own_line() -> None:
    suspect = Suspect(3, 1, ["s"], listed=["at 3 x"], evidence=[Evidence(3, "rd 0", "-1")], looks=["goto 3"], rule="r")
    lines = stub(words=lambda *_: "", of=lambda *_: stub(own=lambda *_: None), named=SourceLines().named)
    recording, scout = stub(lines=lines), stub(values=lambda *_: ["7"])
    rows = [row.text.strip() for row in table._rows(scout, recording, 1, suspect)]
    says = "netrev: at 3 x; at 3 rd 0 = 7"
    assert rows == ["1. r: s", says, "take care: the rule expects rd 0 = -1 at 3", "next:   goto 3"]
