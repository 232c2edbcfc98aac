"""`explore` with netrev: netrev accepts the recordings that are kept, they end as reported, and they can be reduced;
each finding is marked as possible; and the exit status of `--explore` says whether there are findings."""

import json
import os
import re
import shutil
from pathlib import Path

import pytest

from netrev.explore.sentences import UNLESS
from netrev.findings.suspects.ranking import suspects_of
from netrev.recording.recording import Recording
from netrev.reduce.writing import answered_by
from tests.program.nrdb.common.support import EXAMPLES, nrdb
from tests.program.nrdb.test_suspects import checked
from tests.program.support.sharing import NETREV

SOME = 4
SCHEDULES = 100  # how many schedules of each race are tried
TIMED = re.compile(r" in [\d.]+ s")
GOOD = EXAMPLES / "cancelled-read.jsonl"


@pytest.fixture(autouse=True)
def working_folder(folder: Path, monkeypatch: pytest.MonkeyPatch) -> None:
    """Each test has a working folder of its own, where nrdb writes recordings."""
    monkeypatch.chdir(folder)


def test_what_is_kept_is_a_run_that_ends_with_the_suspect() -> None:
    output = nrdb("--explore", GOOD, status=SOME)
    found = re.findall(r"^\| \d\. .*?, in (\S+\.jsonl): ", output, re.MULTILINE)
    files = list(zip(found, re.findall(r"netrev: ok (\d+) steps$", output, re.MULTILINE), strict=True))
    assert len(files) == 2
    for name, steps in files:
        assert checked(Path(name)) == f"ok {steps} steps\n"
    for name in ("cancelled-read-other-1.jsonl", "cancelled-read-other-1-short.jsonl"):
        suspect = suspects_of(Recording.read(name)).suspects[0]
        assert (suspect.rule, suspect.goroutine) == ("deadline taken back too soon", 1)
    assert Recording.read("cancelled-read-other-1-short.jsonl").length < Recording.read(files[0][0]).length
    assert output.count(UNLESS) == output.count("short: ")
    assert len(re.findall(r"^\| \d\. ", output, re.MULTILINE)) == output.count(UNLESS)


def test_nothing_is_written_where_nothing_is_found() -> None:
    output = nrdb("--batch", "-ex", "explore 300", EXAMPLES / "temporary-break.jsonl")
    assert "| 14 schedules near the recorded one in " in output
    assert "; nothing found\n" in output
    assert os.listdir(".") == []
    nrdb("--explore", EXAMPLES / "temporary-break.jsonl")


def test_answers_and_lines_of_the_program_go_along() -> None:
    recording, line = upgraded_with_lines(Path("good.jsonl"))
    output = nrdb("--explore", recording, status=SOME)
    assert f"|    Go:     step 18, setdeadline: {line}\n" in output
    whole = Recording.read("good-other-1.jsonl")
    assert whole.has_answers
    at = next(n for n in range(1, whole.length + 1) if whole.lines.words(n) == line)
    assert whole.step(at).kind == "setdeadline"
    assert checked(Path("good-other-1.jsonl")) == f"ok {whole.length} steps\n"


def test_each_race_is_found_as_the_stored_sessions_say() -> None:
    sessions = sorted((EXAMPLES / "races").glob("*.explored"))
    assert len(sessions) == 12
    for session in sessions:
        output = nrdb("--batch", "-ex", f"explore {SCHEDULES}", session.with_suffix(".jsonl"))
        reply = [TIMED.sub("", line) for line in output.splitlines()[3:]]
        assert reply == session.read_text().splitlines(), session.stem
        for name in Path().glob(f"{session.stem}-other-*.jsonl"):
            assert re.search(r"^ok \d+ steps\n$", checked(name)), session.stem
            assert ("-short" in name.stem or name.with_name(f"{name.stem}-short.jsonl").exists()) in (
                True,
            ), session.stem


def test_a_run_that_is_not_of_gos_calls_is_refused(folder: Path) -> None:
    steps = ['["sockopen",16,16]', '["pollopen",0,0]', '["increfclose",0,0]', '["decref",0,0]']
    path = folder / "closed.jsonl"
    path.write_text("\n".join(['{"netrev":1,"gor":2,"sock":1,"desc":1,"buf":16}', *steps, ""]))
    output = nrdb("--batch", "-ex", "explore 5", "-ex", "where", path)
    assert (
        "| explore replays calls of Go, and this recording isn't made of them: ('pollclose', 0, 0): reason 9" in output
    )
    assert "(netrev) where" in output


def test_other_words_and_the_recording_itself_are_refused() -> None:
    wrong = ("explore many", "explore 0", "explore 3 4", "explore failures")
    output = nrdb("--batch", *(word for line in wrong for word in ("-ex", line)), GOOD)
    assert output.count("| explore [N]: N is the number of schedules, from 1 to 1000000") == 4
    shutil.copy(GOOD, "x-other-1.jsonl")
    os.symlink("x-other-1.jsonl", "x.jsonl")
    Path("x-other-2-short.jsonl").symlink_to("diary")
    Path("diary").write_text("mine")
    for _ in range(2):  # (the second time replaces what the first wrote)
        output = nrdb("--explore", "x.jsonl", status=SOME)
        assert re.findall(r"^\| \d\. .*?, in (\S+): ", output, re.MULTILINE) == [f"x-other-{n}-2.jsonl" for n in (1, 2)]
    assert (Path("x.jsonl").read_bytes(), Path("diary").read_text()) == (GOOD.read_bytes(), "mine")
    new = {f"x-other-{n}-2{ending}.jsonl" for n in (1, 2) for ending in ("", "-short")}
    assert set(os.listdir()) == {"x.jsonl", "x-other-1.jsonl", "x-other-2-short.jsonl", "diary"} | new


def upgraded_with_lines(path: Path) -> tuple[Path, str]:
    """The good recording with answers, and source lines for its deadlines."""
    lines = GOOD.read_text().splitlines()
    path.write_text("".join(f"{line}\n" for line in lines))
    steps = len(lines) - 1
    stacks = [1 if json.loads(line)[0] == "setdeadline" else 0 for line in lines[1:]]
    result = [
        {"where": 1, "steps": steps},
        {"call": 1, "function": "main.main", "file": "main.go", "line": 43, "of": "program"},
        {"stack": 1, "calls": [1]},
        {"step": 1, "stacks": stacks},
    ]
    path.with_suffix(".where").write_text("".join(f"{json.dumps(item)}\n" for item in result))
    upgrade(path)
    return path, "main.go:43 main.main"


def upgrade(path: Path) -> None:
    """Adds netrev's answers to a recording."""
    path.write_bytes(answered_by(NETREV, "upgrade", path.read_bytes())[1])
