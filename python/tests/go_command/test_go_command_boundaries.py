"""The commands of netrev-go at the boundaries of their rules: which flags are Go's own, where logs go, and how the runs
of tests end."""

import argparse
import contextlib
import io
import os
import shlex
from collections.abc import Callable, Iterator
from pathlib import Path
from types import SimpleNamespace as Made
from typing import Any, cast

import pytest

from dev.recorder.readiness import Readiness
from netrev.messages import recorder as messages
from netrev_go import cli, doctor, go_test, go_test_results, options
from netrev_go.go_command import outputs, status
from netrev_go.go_command.process_logs import ProcessLog
from netrev_go.go_command.toolchain import RecorderError
from netrev_go.go_test_results import Recordings
from netrev_go.log import source_lines
from netrev_go.steps import goroutine_records
from netrev_go.steps.conversion import RecordingOptions
from netrev_go.steps.goroutine_records import Everybody

from tests.support.stubs import raising

from .test_go_line_reader import elf

Patch = pytest.MonkeyPatch
Output = pytest.CaptureFixture[str]


@pytest.mark.parametrize(
    "words, own, is_taken",
    [
        ([], "", False), (["./overlay"], "", False), (["overlay", "gcflags"], "", False), (["-overlay=a"], "", True), (["--overlay", "a"], "", True),
        ([], "-v -overlay=a", True), (["-v", "."], "-mod=mod", False),
    ],
)  # fmt: skip
def test_an_overlay_of_the_user_s_own_is_refused(
    words: list[str], own: str, is_taken: bool, monkeypatch: Patch
) -> None:
    monkeypatch.setattr(cli, "ready", lambda go: "/o.json")
    go = cast(Any, Made(flags=own))
    if is_taken:
        with pytest.raises(RecorderError):
            cli.flags(go, words)
    else:
        assert cli.flags(go, words) == ["-overlay", "/o.json", "-gcflags=-l"]


@pytest.mark.parametrize(
    "word, is_own", [("-gcflags=-N", True), ("--gcflags", True), ("gcflags", False), ("-ldflags=-s", False)]
)
def test_flags_for_the_compiler_of_the_user_s_own_stay(word: str, is_own: bool, monkeypatch: Patch) -> None:
    monkeypatch.setattr(cli, "ready", lambda go: "/o.json")
    assert ("-gcflags=-l" in cli.flags(cast(Any, Made(flags="")), ["-v", word])) is not is_own


@pytest.mark.parametrize("name", ["logs", "my logs"])
def test_logs_of_a_shell_go_to_a_folder_of_the_user(
    name: str, tmp_path: Path, monkeypatch: Patch, capsys: Output
) -> None:
    monkeypatch.setattr(cli, "ready", lambda go: "/o.json")
    monkeypatch.setenv("NETREV_LOGS", str(tmp_path / name))
    (tmp_path / name).mkdir()
    folder = tmp_path / name / f"netrev-{os.geteuid()}"
    for _ in range(2):
        assert cli.env(cast(Any, Made(flags="-v"))) == 0
        assert capsys.readouterr().out.splitlines() == [
            "export GOFLAGS='-v -overlay=/o.json -count=1'",
            f"export NETREV_LOG={shlex.quote(f'{folder}/log')} NETREV_KEEP=all",
        ]
        assert folder.stat().st_mode & 0o777 == 0o700
    monkeypatch.setattr(os, "geteuid", lambda: os.getuid() + 1)
    folder.rename(tmp_path / name / f"netrev-{os.geteuid()}")
    with pytest.raises(RecorderError, match=f"it belongs to user {os.getuid()}"):
        cli.env(cast(Any, Made(flags="")))


@pytest.mark.parametrize("program", ["/opt/netrev", ""])
def test_doctor_names_the_netrev_that_checks(program: str, monkeypatch: Patch, capsys: Output) -> None:
    go = Made(version="go1.27", system="linux/amd64", root="/go")
    fakes: dict[str, Callable[..., object]] = {
        "find_go": lambda: go, "tried": lambda version: "tried", "rules_fit": lambda item: True, "has_room": lambda: True,
        "can_write": lambda: True, "netrev_program": lambda: program, "how_to_get_netrev": lambda: "how", "tries_well": lambda item: True,
    }  # fmt: skip
    for name, fake in fakes.items():
        monkeypatch.setattr(doctor, name, fake)
    assert doctor.doctor() == 0
    named = program or messages.CHECKED_BY_NOTHING.format(how="how")
    assert messages.CHECKED_BY.format(netrev=named) in capsys.readouterr().out


@pytest.mark.parametrize("unmet", ["rules_fit", "has_room", "can_write", "tries_well", ""])
def test_doctor_fails_if_one_requirement_isn_t_met(unmet: str, monkeypatch: Patch) -> None:
    monkeypatch.setattr(doctor, "find_go", lambda: Made(version="", system="", root=""))
    for name in ("rules_fit", "tries_well"):
        monkeypatch.setattr(doctor, name, lambda go, name=name: name != unmet)
    for name in ("has_room", "can_write"):
        monkeypatch.setattr(doctor, name, lambda name=name: name != unmet)
    assert doctor.doctor() == (1 if unmet else 0)


def test_exit_statuses() -> None:
    assert {exitstatu.name: exitstatu.value for exitstatu in status.ExitStatus} == {
        "DONE": 0, "REFUSED": 1, "USAGE": 2, "SUSPECTED": 3, "TROUBLE": 4, "UNRECORDED": 5, "INTERRUPTED": 130,
    }  # fmt: skip


@pytest.mark.parametrize(
    "waits, most, kept",
    [
        ("wwww", 4, "1111"), ("wwww", 3, "0111"), ("eeee", 4, "0001"), ("eeee", 8, "0011"), ("eeee", 16, "1111"), ("wwwe", 4, "1111"),
        ("ewwwe", 4, "01111"), ("eewwwe", 8, "011111"), ("wwwwe", 4, "11110"), ("wewewe", 12, "111111"), ("eeeew", 8, "00111"),
        ("wwwwwe", 4, "011110"),
    ],
)  # fmt: skip
def test_waits_that_last_are_kept_before_a_quarter_of_others(waits: str, most: int, kept: str) -> None:
    chosen = goroutine_records.newest([wait == "w" for wait in waits], most)
    assert "".join("1" if is_kept else "0" for is_kept in chosen) == kept


@pytest.mark.parametrize("goid, is_kept", [(1, True), (2, True), (3, False), (4, True)])
def test_goroutines_with_steps_and_waiting_ones_are_kept_first(goid: int, is_kept: bool) -> None:
    """Goroutine 1 has steps, and 2 waits. 3 and 4 have ended. Of four kept goroutines, at most one may have ended. So
    3, the older, isn't kept."""
    park = Made(goroutine=2, stack=7, by=0, last=goroutine_records.UNENDED)
    past = [Made(goroutine=goid, stack=8, by=0, last=5) for goid in (3, 4)]
    own = cast(
        Any,
        Made(
            last_stacks={1: 9}, numbers={1: 0}, kept=Made(parks=[park, *past], uses=[], timers=[], dials=[], held=None)
        ),
    )
    assert (goid in Everybody.goroutines(own, 4)) is is_kept


@pytest.mark.parametrize(
    "file, name",
    [
        ("/root/.cache/netrev-go/overlay/internal_poll_fd_mutex.go", "internal/poll/fd_mutex.go"), ("/a/b/runtime_netpoll.go", "runtime/netpoll.go"),
        ("/a/testing_testing.go", "testing/testing.go"), ("/a/runtime_x/chan.go", "chan.go"), ("netpoll.go", "netpoll.go"),
    ],
)  # fmt: skip
def test_files_of_go_that_the_overlay_replaces_have_their_names(file: str, name: str) -> None:
    assert source_lines.replaced_file(file) == name


@pytest.mark.parametrize("is_compiled, cell", [(True, "yes"), (False, "no")])
def test_the_cells_of_a_release(is_compiled: bool, cell: str) -> None:
    assert Readiness("go1.27", 5, 4, is_compiled, "ok 12 steps, ok 3 steps", True).cells() == ["4 of 5", cell, "12, 3"]
    assert Readiness("go1.27", 5, 4, is_compiled, "ok 12 steps", False).cells() == ["4 of 5", cell, "no"]


@pytest.mark.parametrize(
    "outcome, says",
    [(None, False), (Made(is_empty=True, lines=["a"]), False), (Made(is_empty=False, lines=["a"]), True)],
)
def test_a_process_that_failed_without_a_failed_test(
    outcome: Any, says: bool, monkeypatch: Patch, capsys: Output
) -> None:
    own = cast(Any, Made(
        name_of=lambda package, test: Path("x"), read=lambda log, tests: None, made=lambda read, name, test, hear: outcome,
    ))  # fmt: skip
    Recordings.whole(own, Path("log"), cast(Any, Made(package="p")))
    assert bool(capsys.readouterr().err) is says


@pytest.mark.parametrize("is_red", [False, True])
@pytest.mark.parametrize("is_empty", [False, True])
def test_only_a_test_that_failed_is_reported_while_its_recording_is_made(
    is_red: bool, is_empty: bool, monkeypatch: Patch, capsys: Output
) -> None:
    monkeypatch.setattr(go_test_results, "head_of", lambda test: f"FAIL {test.name}")
    kept: list[str] = []

    def made(read: object, name: Path, test: Any, hear: Callable[[list[str]], None]) -> Made:
        hear(["it hangs"])
        return Made(is_empty=is_empty)

    own = Made(
        read=lambda log, tests: None, of=lambda test: None, name_of=lambda package, test: Path(package, test), made=made, _names={Path("p", "T")},
        keep=lambda reports, name, outcome, saying: kept.append(str(name)),
    )  # fmt: skip
    test = Made(package="p", name="T", is_red=lambda: is_red)
    Recordings.of_each(cast(Any, own), Path("log"), cast(Any, None), cast(Any, [test]))
    empty = [messages.TEST_USED_NONE.format(test="FAIL T")] if is_empty else []
    assert capsys.readouterr().err.splitlines() == (["FAIL T", "  it hangs", *empty] if is_red else [])
    assert (kept, own._names) == (([], set()) if is_empty else (["p/T"], {Path("p", "T")}))


class Runner:
    """A run of Go's command that ends with a status, and may have been cancelled."""

    def __init__(self, status_of_go: int, is_cancelled: bool) -> None:
        self._status, self.is_cancelled = status_of_go, lambda: is_cancelled

    def wait(self, make: Callable[[], None]) -> int:
        make()
        return self._status


def run_of(folder: Path, runner: Runner, monkeypatch: Patch) -> go_test.GoRun:
    """A run that makes its recordings in `new`, a folder that doesn't exist yet."""
    fakes: dict[str, Callable[..., object]] = {
        "claim": lambda item: item, "logs_folder": lambda points: folder, "limits_of": lambda options: None, "replace": lambda limits, **more: limits,
        "GoRunner": lambda *words: runner, "still_written": lambda item: [], "leave": lambda *words: None, "report_unrecorded": lambda item: False,
        "report_no_log": lambda item: False, "RecordingMaker": lambda *words: Made(so_far=lambda: (folder / "new/here").touch()),
    }  # fmt: skip
    for name, fake in fakes.items():
        monkeypatch.setattr(go_test, name, fake)
    recordings = Made(base=folder / "new", all_recorded=True, take=lambda item, failed: None)
    return go_test.GoRun(
        argparse.Namespace(points=1, keep=False, json=None, junit=None, github=False),
        *cast(Any, (None, ["go", "test"], None, recordings)),
    )


@pytest.mark.parametrize("is_cancelled", [True, False])
def test_no_run_follows_a_cancelled_one(is_cancelled: bool, tmp_path: Path, monkeypatch: Patch) -> None:
    run = run_of(tmp_path, Runner(0, is_cancelled), monkeypatch)
    assert run.once(go_test.Round(0, None, 0)) == 0
    assert run.is_last is is_cancelled and (tmp_path / "new/here").exists()


def test_a_folder_that_cannot_be_made_ends_no_run(tmp_path: Path, monkeypatch: Patch) -> None:
    (tmp_path / "new").mkdir()
    run = run_of(tmp_path, Runner(0, False), monkeypatch)
    monkeypatch.setattr(Path, "mkdir", raising(OSError))
    assert run.once(go_test.Round(0, None, 0)) == 0


@pytest.mark.parametrize(
    "number, processors, delays, status_of_go, output",
    [(0, None, 0, 1, ""), (0, 2, 0, 1, "run 1 (GOMAXPROCS=2)"), (1, None, 0, 1, "run 2"), (1, None, 0, 0, ""), (2, 4, 9, 1, "run 3 (GOMAXPROCS=4, --delays 9)")],
)  # fmt: skip
def test_a_failed_run_is_named_unless_it_is_the_first_as_usual(
    number: int, processors: int | None, delays: int, status_of_go: int, output: str, tmp_path: Path, monkeypatch: Patch, capsys: Output
) -> None:  # fmt: skip
    run_of(tmp_path, Runner(status_of_go, False), monkeypatch).once(go_test.Round(number, processors, delays))
    assert capsys.readouterr().err == (messages.RUN_FAILED.format(run=output) + "\n" if output else "")


def test_the_user_s_words_come_after_go_s_command_and_the_added_ones(monkeypatch: Patch) -> None:
    commands: list[list[str]] = []

    @contextlib.contextmanager
    def kept(go: object, words: list[str], is_repeated: bool) -> Iterator[list[str]]:
        yield ["-json"]

    fakes: dict[str, Callable[..., object]] = {
        "base_name": lambda name, usual: Path("x"), "check_folder": lambda base: None, "kept": kept, "tell": lambda *words: None,
        "Recordings": lambda *words: Made(all_recorded=True, suspected=False), "most_runs": lambda options: 1,
        "run_all": lambda options, go, command, *rest: commands.append(command),
    }  # fmt: skip
    for name, fake in fakes.items():
        monkeypatch.setattr(go_test, name, fake)
    options = argparse.Namespace(o="", all=False, explore=None, html=False, words_of_go=["./..."])
    with contextlib.redirect_stderr(io.StringIO()):
        go_test.record_tests(options, cast(Any, None), ["go", "test", "-C", "d", "-v", "./..."], cast(Any, None))
    assert commands == [["go", "test", "-C", "d", "-json", "-v", "./..."]]


@pytest.mark.parametrize(
    "logs, pid, running", [(["a"], None, "0"), (["a", "b"], None, "00"), ([], 7, "1"), (["a", "b"], 7, "001")]
)
def test_only_the_log_of_a_process_is_still_written(
    logs: list[str], pid: int | None, running: str, monkeypatch: Patch
) -> None:
    written: list[bool] = []

    def convert(
        log: Path, base: Path, go: object, options: object, known: object, hear: object, is_written: bool
    ) -> Made:
        written.append(is_written)
        return Made(lines=[], taken=True)

    monkeypatch.setattr(cli, "log_of_process", lambda number: ProcessLog(Path(f"log.{number}")))
    monkeypatch.setattr(cli, "go_if_any", lambda: None)
    monkeypatch.setattr(cli, "wish_of", lambda options: RecordingOptions())
    monkeypatch.setattr(cli, "convert", convert)
    assert cli.convert_log(argparse.Namespace(words_of_go=logs, pid=pid, o=None)) == 0
    assert "".join("1" if is_written else "0" for is_written in written) == running


@pytest.mark.parametrize("size, moved", [(64, 0x1000 - 0x400), (63, None), (24, None)])
def test_how_far_a_program_s_code_is_moved(tmp_path: Path, size: int, moved: int | None) -> None:
    program = tmp_path / "program"
    program.write_bytes(elf(size, 0x400))
    with program.open("rb") as file:
        assert source_lines.shift(file, 0x1000) == moved


def test_a_folder_without_room_for_recordings_is_refused() -> None:
    with pytest.raises(RecorderError, match="/proc/nowhere"):
        outputs.check_folder(Path("/proc/nowhere"))


def test_output_for_machines_goes_to_a_file_or_to_standard_output(tmp_path: Path, capsys: Output) -> None:
    reply = cast(Any, Made(all_recorded=True))
    go_test.put("-", "one\ntwo\n", reply)
    go_test.put(str(tmp_path / "out"), "three\n", reply)
    assert (capsys.readouterr().out, (tmp_path / "out").read_text(), reply.all_recorded) == (
        "one\ntwo\n",
        "three\n",
        True,
    )
    go_test.put(str(tmp_path), "four\n", reply)
    assert not reply.all_recorded


def test_a_search_that_fails_is_reported(tmp_path: Path, monkeypatch: Patch, capsys: Output) -> None:
    monkeypatch.setattr(go_test_results, "netrev_program", lambda: "")
    recording = str(tmp_path / "nowhere.jsonl")
    assert go_test_results.findings(recording, 60) == []
    why = f"{recording}: No such file or directory"
    assert f"{recording}: other schedules weren't explored: {why}" in capsys.readouterr().err


@pytest.mark.parametrize(
    "name, least, most",
    [
        ("points", 16_384, 16_777_216), ("megabytes", 1, 1_048_576), ("procs", 1, 1_024), ("n", 0, 1_000_000_000), ("runs", 1, 1_000_000), ("seconds", 0, 1_000_000_000),
        ("explore", 0, 1_000_000_000), ("delays", 1, 100_000_000),
    ],
)  # fmt: skip
def test_the_limits_of_an_option(name: str, least: int, most: int) -> None:
    usual = dict.fromkeys((limit[0] for limit in options.LIMITS))
    command = {"command": "test", "github": False, "words_of_go": []}
    for value in (least, most):
        options.check(cast(Any, Made(**(usual | command | {name: value}))))
    for value in (least - 1, most + 1):
        with pytest.raises(RecorderError, match=f"from {least} to {most}"):
            options.check(cast(Any, Made(**(usual | command | {name: value}))))
