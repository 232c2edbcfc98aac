"""netrev-go's data about Go's releases, the evaluation of a trial, and the counts of `make real`. Neither Go nor netrev
is needed."""

import contextlib
import io
import json
import tempfile
from dataclasses import replace
from pathlib import Path

import pytest

from dev.fuzz.generators.logs import from_text
from dev.recorder import fetching
from dev.recorder import readiness as standing
from dev.recorder import real, results
from dev.recorder.readiness import Readiness, read_standing, standing_of
from dev.recorder.results import Result
from dev.recorder.suites import OF_OTHERS, OF_SAMPLES, SAMPLES, Suite
from netrev_go import release_check
from netrev_go.go_command.calls_of_go import known_calls, table
from netrev_go.go_command.toolchain import TRIED, Go, RecorderError, is_tried, release_of, tried
from netrev_go.log.logfile import read_log
from netrev_go.log.points import PointKind
from netrev_go.release_check import Trial, incomplete, ready, unchained
from netrev_go.steps.compare import DIFFERS, REFUSES, by_the_model
from netrev_go.steps.recording_builder import NewRecording, make, write, write_words
from tests.logs.test_go_converting import DESCRIPTOR, WORD, Points
from tests.support.stubs import raising

ROOT = Path(__file__).resolve().parents[3]
READING, WRITING = ord("r"), ord("w")
TAG = 1 << 32


def stored(name: str) -> NewRecording:
    """The recording of a stored log."""
    data, _ = from_text((ROOT / f"examples/real/{name}.log").read_text())
    with tempfile.TemporaryDirectory() as folder:
        path = Path(folder, "log.1")
        path.write_bytes(data)
        return make(read_log(path))


def said_of(recording: NewRecording) -> tuple[bool, str]:
    """The model's message about a recording and Go's lock words."""
    with tempfile.TemporaryDirectory() as folder:
        name = Path(folder, "one.jsonl")
        write(recording, name)
        write_words(recording, name.with_suffix(".words"))
        return by_the_model(name)


def test_a_version_says_its_release_and_its_patch() -> None:
    for version, release in (
        ("go1.27.3", ("1.27", "3")),
        ("go1.27", ("1.27", "0")),
        ("go1.27.3 X:nocoverageredesign", ("1.27", "3")),
        ("go1.28rc1", ("go1.28rc1", "")),
        ("devel go1.28-0123abc", ("devel go1.28-0123abc", "")),
    ):
        assert release_of(version) == release


def test_what_was_tried_is_said() -> None:
    assert is_tried("go1.27.3") and is_tried("go1.19.8")
    assert not (is_tried("go1.27.4") or is_tried("go1.28.0") or is_tried("go1.27rc1"))
    assert tried("go1.27.3") == "tested with netrev-go"
    assert tried("go1.27.4") == "not tested with netrev-go; 1.27.3 is"
    assert tried("go1.28rc1") == "not tested with netrev-go; 1.19, 1.21, 1.22, 1.23, 1.24, 1.26, 1.27 are"


def test_each_release_that_was_tried_can_be_fetched() -> None:
    assert list(fetching.SUITES) == list(TRIED)
    with pytest.raises(RecorderError) as raised:
        fetching.commands_of("1.20")
    assert "Go 1.20 can't be fetched: Debian has 1.19, " in str(raised.value)


def test_apt_is_told_of_folders_of_its_own_alone(folder: Path, monkeypatch: pytest.MonkeyPatch) -> None:
    with monkeypatch.context() as patch:
        patch.setattr(fetching, "FETCHED", folder)
        text = fetching.own_apt("trixie").read_text()
        sources = (folder / "apt/trixie/sources.list").read_text()
    assert sources.split()[-2:] == ["trixie", "main"]
    paths = [word.strip('";') for word in text.split() if word.startswith('"/')]
    assert [path for path in paths if not path.startswith(str(folder))] == []
    assert 'Dir::Etc::sourceparts "-"' in text


def test_the_samples_are_there() -> None:
    for sample in OF_SAMPLES:
        text = (SAMPLES / sample.source).read_text()
        if sample.name in ("small", "healthy"):
            assert [words for words in sample.runs if f'"{words[0]}"' not in text] == []


def test_other_projects_have_a_domain() -> None:
    assert Suite("golang.org/x/net/http2").is_of_others
    assert not (Suite("net/http").is_of_others or Suite("os").is_of_others)


def test_each_call_stands_there_once() -> None:
    calls = [word for line in table()[2:] for word in line.split("|")[1].replace("`", "").replace(",", "").split()]
    assert sorted(calls) == sorted(known_calls())
    assert len(calls) == len(set(calls))


def test_calls_that_read_have_a_sysread_and_those_that_write_a_syswrite() -> None:
    steps = {row[1]: row[2] for row in (line.split("|") for line in table()[2:])}
    for calls, words in steps.items():
        reads = any(f"`{name}" in calls for name in ("FD.Read`", "FD.ReadFrom", "FD.Accept"))
        writes = any(f"`{name}" in calls for name in ("FD.Write`", "FD.WriteTo", "FD.Writev", "SendFile"))
        assert ("`sysread`" in words, "`syswrite`" in words) == (reads, writes), calls


class Page:
    """The table of releases in docs/measurements/MEASUREMENTS.md."""

    HEADING = f"| Go | {' | '.join(results.OF_RELEASES)} |"

    def __init__(self) -> None:
        lines = (ROOT / "docs/measurements/MEASUREMENTS.md").read_text().splitlines()
        begin = lines.index(self.HEADING)
        rows = [
            [cell.strip() for cell in line.strip("|").split("|")] for line in lines[begin + 2 : lines.index("", begin)]
        ]
        names = ["Go", *results.OF_RELEASES]
        self.rows = {row[0]: dict(zip(names, row, strict=True)) for row in rows}
        self.sums = self.rows.pop("**all**")

    def number(self, release: str, name: str) -> int:
        return int(self.rows[release][name].replace(",", ""))


@pytest.fixture
def page() -> Page:
    return Page()


def test_each_release_that_was_tried_has_a_row(page: Page) -> None:
    assert set(page.rows) == set(TRIED)


def test_a_row_adds_up_and_has_as_many_recordings_as_are_wanted(page: Page) -> None:
    for release in page.rows:
        made = page.number(release, "of samples") + page.number(release, "of tests")
        result = [page.number(release, name) for name in ("accepted", "refused", "not made")]
        assert made == sum(result), release
        assert result[0] >= (200 if release in ("1.19", "1.24", "1.27") else 60), release
        assert (result[1], page.number(release, "differ")) == (0, 0), release


def test_the_last_row_is_the_sum(page: Page) -> None:
    for name, result in page.sums.items():
        if name in results.OF_RELEASES[3:] and name not in ("events, stale", "suspects"):
            total = sum(page.number(release, name) for release in page.rows)
            assert f"{total:,}" == result, name


def used_twice() -> Points:
    """Two sockets at one descriptor, whose events have tags 5 and 7."""
    log = Points()
    for word, tag in ((WORD, 5), (WORD + 1, 7)):
        log.add(PointKind.INIT, 1, word).add(PointKind.OPEN, 1, DESCRIPTOR, 4 + tag * TAG, 1, 1)
        if word == WORD:
            log.closed(word)
    return log


def test_an_event_is_of_the_use_that_has_its_tag() -> None:
    log = (
        used_twice()
        .add(PointKind.EVENT, 0, DESCRIPTOR, READING, 0, 7)
        .add(PointKind.EVENT, 0, DESCRIPTOR, READING, 2, 5)
    )
    assert log.steps()[-2:] == [["pollevent", 0, 2, "r", 0, "done"], ["pollevent", 0, 1, "r", 0, "stale"]]


def test_the_answer_is_what_go_compared() -> None:
    log = used_twice().add(PointKind.EVENT, 0, DESCRIPTOR, READING + WRITING, 3, 7)
    assert log.steps()[-1] == ["pollevent", 0, 2, "rw", 1, "stale"]
    assert said_of(log.made()) == (False, f"{REFUSES}: step {len(log.steps())}: fault 109 answer")


def test_an_event_of_a_use_before_the_log_is_left_out() -> None:
    log = used_twice()
    before = log.steps()
    assert log.add(PointKind.EVENT, 0, DESCRIPTOR, READING, 2, 3).steps() == before


def test_a_descriptor_that_could_not_be_opened_is_freed_by_nobody() -> None:
    log = Points().opened().closed()
    before = log.steps()
    log.add(PointKind.INIT, 1, WORD + 1).add(PointKind.OPEN, 1, DESCRIPTOR, 4 + 6 * TAG, 1, 1)
    log.add(PointKind.OPEN_FAILED, 1, DESCRIPTOR, 1).add(PointKind.CLOSE, 1, DESCRIPTOR)
    assert log.steps() == before


def test_the_model_takes_what_go_answered() -> None:
    for name in ("hijacked", "half"):
        recording = stored(name)
        assert said_of(recording) == (True, f"ok {len(recording.lines)} steps")


def test_the_model_says_which_answer_or_lock_word_differs() -> None:
    recording = stored("half")
    at = next(at for at, line in enumerate(recording.lines) if str(line).startswith('["rwlock"'))
    recording.lines[at] = str(recording.lines[at]).replace('"yes"', '"no"')
    assert said_of(recording) == (False, f"{REFUSES}: step {at + 1}: fault 109 answer")
    recording = stored("half")
    step, socket, word = recording.words[4]
    recording.words[4] = step, socket, word + 8
    assert said_of(recording) == (
        False,
        f"{DIFFERS}: step {step}: Go had lock {socket} = {word + 8}, netrev says lock {socket} = {word}",
    )


def test_a_lock_word_that_is_changed_elsewhere_is_found() -> None:
    recording = stored("half")
    assert unchained(recording) == ""
    step, socket, new = recording.words[5]
    del recording.words[4], recording.old_numbers[4]
    found, last = recording.old_numbers[4], next(word for _, at, word in reversed(recording.words[:4]) if at == socket)
    assert found != last
    assert unchained(recording) == f"step {step} found {found} in the lock word of socket {socket}, instead of {last}"


def test_bytes_that_go_by_are_missed() -> None:
    log = Points().opened().add(PointKind.READ, 1, WORD, 8, 2, 0).add(PointKind.WRITE, 1, WORD, 3, 3, 0)
    assert incomplete(log.made(), "2 3\n") == ""
    assert incomplete(log.made(), "2 4") == "the program counted 2 4 bytes read and written, but 2 3 were recorded"
    assert incomplete(log.made(), "") == ""


def message_about(version: str, trial: Trial, without: list[str]) -> tuple[str, int]:
    """The message about a Go whose trial has this result, and how many trials run if that Go is prepared twice."""
    go, output = Go("go", Path("/nowhere"), version, "linux/amd64", ""), io.StringIO()
    trials: list[Trial] = []

    def tries(_: Go) -> Trial:
        trials.append(trial)
        return trial

    with pytest.MonkeyPatch.context() as patch, contextlib.redirect_stderr(output):
        patch.setattr(release_check, "overlay", lambda _: Path("/nowhere/overlay.json"))
        patch.setattr(release_check, "left_out", lambda _: without)
        patch.setattr(release_check, "trial", tries)
        patch.setattr(release_check, "kept", lambda _: trials[-1] if trials and trials[-1].good else None)
        for _ in range(2):
            ready(go)
    return output.getvalue(), len(trials)


def test_a_go_is_tried_once_and_an_unknown_one_is_named() -> None:
    good = Trial(True, "5 steps")
    assert message_about("go1.27.3", good, [])[0] == ""
    text, times = message_about("go1.28.0", good, ["without what SendFile writes: no such file"])
    assert times == 1
    assert "go1.28.0 (not tested with netrev-go; 1.19, " in text
    assert " can be recorded: 5 steps\nwithout what SendFile writes: no such file\n" in text


def test_a_go_whose_trial_fails_is_not_recorded() -> None:
    for version in ("go1.27.3", "go1.28.0"):
        with pytest.raises(RecorderError) as raised:
            message_about(version, Trial(False, "step 43: fault 109 answer"), [])
        assert f"{version} can't be recorded (" in str(raised.value)
        assert "step 43: fault 109 answer" in str(raised.value)


GO = Go("go", Path("/nowhere"), "go1.28.0", "linux/amd64", "")
RULES = (True, ["fits runtime/proc.go newproc (as in 1.19)", "without the program's orders: none"])


def readiness(**functions: object) -> Readiness:
    """The state of a release, if these functions stand in for those of the module."""
    with pytest.MonkeyPatch.context() as patch:
        patch.setattr(standing, "fit", lambda _: RULES)
        patch.setattr(standing, "overlay", lambda _: None)
        for name, function in functions.items():
            patch.setattr(standing, name, function)
        return standing_of(GO)


def test_a_release_that_is_recorded(folder: Path) -> None:
    recorded = readiness(trial=lambda _: Trial(True, "5 steps, 2 lock words with GOMAXPROCS=1"))
    assert recorded.cells() == ["1 of 2", "yes", "5"]
    assert read_standing(folder) is None
    recorded.keep(folder)
    assert read_standing(folder) == recorded


def test_one_that_is_not() -> None:
    refused = readiness(trial=lambda _: Trial(False, "netrev refuses the recording: step 43"))
    assert refused.cells() == ["1 of 2", "yes", "no"]
    assert "step 43" in refused.trial
    other = readiness(overlay=raising(RecorderError("the changed files aren't compiled")))
    assert (other.cells(), other.is_good) == (["1 of 2", "no", "no"], False)
    assert "aren't compiled" in other.trial


WANTED = [suite for suite in OF_OTHERS if "golang.org/x/net" in suite.package]


@pytest.fixture
def recorder(folder: Path) -> real.Recorder:
    words = ["--go", "1.27", "--only", "golang.org/x/net", "--out", str(folder)]
    go = Go("go", Path("/nowhere"), "go1.27.3", "linux/amd64", "")
    return real.Recorder(go, "1.27", real.options_of(words))


def test_several_words_may_name_what_is_wanted(recorder: real.Recorder) -> None:
    recorder.options.only = "samples/,net/rpc"
    wanted = ["samples/load", "net/rpc", "net/rpc/jsonrpc"]
    assert [name for name in (*wanted, "net", "os") if recorder.is_wanted(name)] == wanted
    recorder.options.only = "^net$"
    assert [name for name in (*wanted, "net", "os") if recorder.is_wanted(name)] == ["net"]
    recorder.options.only = ""
    assert recorder.is_wanted("os")


def test_they_are_recorded_too(monkeypatch: pytest.MonkeyPatch, recorder: real.Recorder) -> None:
    recorded: list[Suite] = []
    monkeypatch.setattr(recorder, "suite", recorded.append)
    recorder.all()
    assert recorded == WANTED


@pytest.mark.parametrize("word, wanted", [("", "."), ("^TestUnix", "^TestUnix")])
def test_tests_may_be_named(monkeypatch: pytest.MonkeyPatch, recorder: real.Recorder, word: str, wanted: str) -> None:
    listed: list[Suite] = []

    def tests_of(_: object, __: object, suite: Suite, *___: object) -> list[str]:
        listed.append(suite)
        return []

    monkeypatch.setattr(real, "built", lambda *_: Path("program"))
    monkeypatch.setattr(real, "source_folder", lambda *_: ROOT)
    monkeypatch.setattr(real, "tests_of", tests_of)
    recorder.options.tests = word
    recorder.suite(Suite("net"))
    assert [suite.tests for suite in listed] == [wanted]


def test_those_that_are_not_here_are_named(monkeypatch: pytest.MonkeyPatch, recorder: real.Recorder) -> None:
    output = io.StringIO()
    with monkeypatch.context() as patch:
        patch.setattr(real, "source_folder", lambda *_, **__: Path("/nowhere"))
        with contextlib.redirect_stdout(output):
            recorder.all()
    names = ", ".join(suite.package for suite in WANTED)
    assert f"1.27: not here: {names} (apt-get install golang-golang-x-net-dev " in output.getvalue()


def test_those_that_the_time_was_not_enough_for_are_named_and_not_built(
    monkeypatch: pytest.MonkeyPatch, recorder: real.Recorder
) -> None:
    recorder.end = 0.0
    output, names = io.StringIO(), ", ".join(suite.package for suite in WANTED)
    monkeypatch.setattr(real, "built", raising(AssertionError("it is built")))
    monkeypatch.setattr(real, "source_folder", lambda *_: ROOT)
    with contextlib.redirect_stdout(output):
        recorder.all()
    assert f"1.27: the time was over before {names}\n" in output.getvalue()


def result(release: str) -> Result:
    result = Result(release, "net", "TestX", 4, "passed", said="ok 4 steps", recording="r")
    result.count(
        [
            '["incref",0,0,"yes"]',
            '["arrive",0,"00","done"]',
            '["pollevent",0,1,"r",0,"stale"]',
            '["evict",0,0,"done"]',
        ]
    )
    return result


def test_an_events_answer_is_gos_where_it_has_tags() -> None:
    for release, answers in (("1.19", 1), ("go1.19.8", 1), ("1.21", 2), ("1.27", 2)):
        item = result(release)
        assert (item.answers, item.events, item.stale) == (answers, 1, 1)


def table_of(*rows: Result) -> tuple[bool, list[str]]:
    output = io.StringIO()
    with contextlib.redirect_stdout(output):
        good = results.table(list(rows))
        results.summary(
            list(rows), {"1.27": Readiness("go1.27.3", 60, 59, True, "7 steps, 3 lock words, 8 steps", True)}
        )
    return good, output.getvalue().splitlines()


def test_what_is_wrong_is_named() -> None:
    item = replace(result("1.27"), steps=4, words=1)
    good, text = table_of(item)
    assert good
    assert "| 1.27 | net | 4 | 1 | 1 | 0 | 0 | 4 | 2 | 1 | 1, 1 | 0 | - |" in text
    for bad, found in (
        (replace(item, said="step 3: fault 109 answer"), "1.27 net TestX on 4 (passed): step 3: fault 109 answer"),
        (replace(item, said="not made: no", recording=""), "1.27 net TestX on 4 (passed): not made: no"),
        (replace(item, differ=1, said="ok 4 steps; step 2"), "1.27 net TestX on 4 (passed): ok 4 steps; step 2"),
        (
            replace(item, is_healthy=True, suspects=["1. lost wake-up"]),
            "1.27 net TestX on 4 (passed): ok 4 steps; suspected: 1. lost wake-up",
        ),
    ):
        good, text = table_of(item, bad)
        assert not good
        assert found in text


def test_a_release_has_a_row_with_how_it_stands() -> None:
    item, sample = replace(result("1.27"), steps=4), replace(result("1.27"), suite="samples/small")
    _, output = table_of(item, item, sample, result("1.19"))
    assert "| 1.27 | 59 of 60 | yes | 7, 8 | 1 | 2 | 3 | 0 | 0 | 8 | 6 | 0 | 3, 3 | 0 | - |" in output
    assert "| 1.19 | ? | ? | ? | 0 | 1 | 1 | 0 | 0 | 0 | 1 | 0 | 1, 1 | 0 | - |" in output


def test_results_are_kept_and_read(folder: Path) -> None:
    results.keep([result("1.27")], folder)
    assert results.read_results(folder) == [result("1.27")]
    json.loads((folder / "results.jsonl").read_text())
