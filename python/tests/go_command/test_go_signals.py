"""No signal loses a run: the program gets it, netrev-go ends with the program's status, and the recording is made. A
shell script is called in place of Go."""

import os
import pty
import re
import signal
import subprocess
from pathlib import Path

import pytest

from netrev_go.go_command.run_folders import left_runs
from tests.support.go_stand_in import PATIENCE, WAITS, WHOLE, StandIn, reset_signals, until, wait_until

RUNS = f"touch here; {until('end')}"
CANCELLING = (signal.SIGQUIT, signal.SIGHUP, signal.SIGTERM, signal.SIGINT)


def catching(number: signal.Signals) -> str:
    """A script that handles a signal, records each signal that comes, and ends with status 7."""
    return f"trap 'echo {number.name} >> caught; exit 7' {number.name.removeprefix('SIG')}; touch here; {WAITS}"


def remaining_logs(stand_in: StandIn) -> list[str]:
    return os.listdir(stand_in.logs)


@pytest.mark.parametrize("number", CANCELLING, ids=lambda number: number.name)
def test_a_signal_reaches_the_program_and_the_recording_is_made(folder: Path, number: signal.Signals) -> None:
    stand_in = StandIn(folder, catching(number))
    running = stand_in.start("-o", "x", "run", ".")
    stand_in.wait_for("here")
    running.send_signal(number)
    _, errors = running.communicate(timeout=PATIENCE)
    assert (running.returncode, stand_in.recording("x")) == (7, WHOLE.read_text()), errors
    assert (folder / "caught").read_text() == f"{number.name}\n"
    assert remaining_logs(stand_in) == []


@pytest.mark.parametrize("number", (signal.SIGQUIT, signal.SIGHUP, signal.SIGTERM), ids=lambda number: number.name)
def test_a_signal_that_comes_while_recordings_are_made_stops_nothing(folder: Path, number: signal.Signals) -> None:
    stand_in = StandIn(folder, "exit 3")
    stand_in.executable("netrev", f"touch asked; {until('answer')}; echo ok 245 steps")
    running = stand_in.start("-o", "x", "run", ".")
    stand_in.wait_for("asked")
    running.send_signal(number)
    running.send_signal(number)
    (folder / "answer").touch()
    _, errors = running.communicate(timeout=PATIENCE)
    assert (running.returncode, stand_in.recording("x")) == (3, WHOLE.read_text()), errors
    assert remaining_logs(stand_in) == []


def test_a_signal_that_comes_while_recordings_are_made_begins_no_further_run(folder: Path) -> None:
    stand_in = StandIn(folder, "echo ran >> runs; exit 1")
    stand_in.executable("netrev", f"touch asked; {until('answer')}; echo ok 245 steps")
    running = stand_in.start("--runs", "3", "test", ".")
    stand_in.wait_for("asked")
    running.send_signal(signal.SIGTERM)
    (folder / "answer").touch()
    _, errors = running.communicate(timeout=PATIENCE)
    assert (running.returncode, (folder / "runs").read_text()) == (1, "ran\n"), errors


def test_ctrl_c_stops_the_making_of_recordings_and_says_where_the_logs_are(folder: Path) -> None:
    stand_in = StandIn(folder, "exit 3")
    stand_in.executable("netrev", f"touch asked; {WAITS}")
    running = stand_in.start("-o", "x", "run", ".")
    stand_in.wait_for("asked")
    running.send_signal(signal.SIGINT)
    _, errors = running.communicate(timeout=PATIENCE)
    assert running.returncode == 130 and re.search(r"nothing is lost: `\S*netrev-go -o NAME convert ", errors)
    assert stand_in.call("doctor")[1].count("recover") == 0  # it was reported, so it isn't offered


def at_a_terminal(stand_in: StandIn, *words: str) -> tuple[int, int]:
    """Starts netrev-go on its own terminal; returns its process, and the terminal's other end."""
    process, terminal = pty.fork()
    if process == 0:
        reset_signals()
        os.chdir(stand_in.folder)
        os.execvpe(stand_in.words()[0], stand_in.words(*words), stand_in.environment())
    return process, terminal


def status_of(process: int) -> int:
    """The status of a process, once it has ended."""
    found: list[int] = []

    def has_ended() -> bool:
        number, status = os.waitpid(process, os.WNOHANG)
        found.append(status)
        return number != 0

    try:
        wait_until(has_ended)
    except AssertionError:
        os.kill(process, signal.SIGKILL)
        raise
    return os.waitstatus_to_exitcode(found[-1])


def test_ctrl_backslash_at_a_terminal_reaches_the_program_once(folder: Path) -> None:
    stand_in = StandIn(folder, catching(signal.SIGQUIT))
    process, terminal = at_a_terminal(stand_in, "-o", "x", "run", ".")
    stand_in.wait_for("here")
    os.write(terminal, b"\x1c")
    status = status_of(process)
    os.close(terminal)
    assert (status, stand_in.recording("x")) == (7, WHOLE.read_text())
    assert (folder / "caught").read_text() == "SIGQUIT\n"


def test_a_terminal_that_is_closed_loses_nothing(folder: Path) -> None:
    stand_in = StandIn(folder, catching(signal.SIGHUP))
    process, terminal = at_a_terminal(stand_in, "-o", "x", "run", ".")
    stand_in.wait_for("here")
    os.close(terminal)
    assert (status_of(process), stand_in.recording("x")) == (7, WHOLE.read_text())
    assert (folder / "caught").read_text() == "SIGHUP\n"
    assert remaining_logs(stand_in) == []


def test_under_nohup_sighup_stays_ignored(folder: Path) -> None:
    stand_in = StandIn(folder, f"{RUNS}; exit 5")
    running = stand_in.start("-o", "x", "run", ".", ignored=signal.SIGHUP)
    stand_in.wait_for("here")
    running.send_signal(signal.SIGHUP)
    (folder / "end").touch()
    _, errors = running.communicate(timeout=PATIENCE)
    assert (running.returncode, stand_in.recording("x")) == (5, WHOLE.read_text()), errors


def killed(stand_in: StandIn) -> None:
    """Starts a run, kills its netrev-go, and then lets the run's program end."""
    running = stand_in.start("-o", "x", "run", "serve me")
    stand_in.wait_for("here")
    running.kill()
    running.wait(PATIENCE)
    (stand_in.folder / "end").touch()
    running.communicate(
        timeout=PATIENCE
    )  # returns only after the program has ended, because it writes to the same pipes


def test_a_run_whose_netrev_go_is_killed_is_offered_and_recovered(folder: Path) -> None:
    stand_in = StandIn(folder, RUNS)
    killed(stand_in)
    _, errors = stand_in.call("convert")
    assert "`netrev-go -o x run 'serve me'` of 2" in errors
    assert re.search(r"interrupted before the recordings were made: `\S*netrev-go recover` makes them", errors)
    status, errors = stand_in.call("-o", "again", "recover")
    assert (status, stand_in.recording("again")) == (0, WHOLE.read_text()), errors
    assert remaining_logs(stand_in) == []
    assert "no run was interrupted" in stand_in.call("recover")[1]
    assert "recover" not in stand_in.call("convert")[1]


def test_a_run_in_another_folder_than_netrev_logs_names_is_not_offered(
    folder: Path, monkeypatch: pytest.MonkeyPatch
) -> None:
    stand_in = StandIn(folder, RUNS)
    killed(stand_in)
    for place, count in ((stand_in.logs, 1), (folder, 0)):
        monkeypatch.setenv("NETREV_LOGS", str(place))
        assert len(left_runs()) == count


def test_several_runs_that_were_cut_off_are_recovered_together(folder: Path) -> None:
    stand_in = StandIn(folder, RUNS)
    for _ in range(2):
        killed(stand_in)
        for name in ("here", "end"):
            (folder / name).unlink()
    assert "2 runs, the last `netrev-go -o x run" in stand_in.call("convert")[1]
    status, errors = stand_in.call("recover")
    assert (status, "2 recordings of 2 runs" in errors) == (0, True), errors
    assert stand_in.recording("recovered") == stand_in.recording("recovered-2") == WHOLE.read_text()


def test_a_run_that_cannot_be_recovered_keeps_its_logs(folder: Path) -> None:
    stand_in = StandIn(folder, RUNS)
    killed(stand_in)
    stand_in.executable("netrev", "echo step 1: fault 107 reason 4; exit 1")
    status, errors = stand_in.call("recover")
    assert status == 1 and "netrev rejects this recording" in errors and "nothing is lost" in errors
    assert len(remaining_logs(stand_in)) == 1


def test_logs_of_a_netrev_go_that_runs_and_of_other_users_are_left_alone(
    folder: Path, monkeypatch: pytest.MonkeyPatch
) -> None:
    stand_in = StandIn(folder, RUNS)
    monkeypatch.setenv("NETREV_LOGS", str(stand_in.logs))
    running = stand_in.start("-o", "x", "run", ".")
    stand_in.wait_for("here")
    assert left_runs() == [] and "no run was interrupted" in stand_in.call("recover")[1]
    running.kill()
    running.wait(PATIENCE)
    assert len(left_runs()) == 1
    monkeypatch.setattr(os, "geteuid", lambda: os.getuid() + 1)
    assert left_runs() == []
    (folder / "end").touch()
    running.communicate(timeout=PATIENCE)


@pytest.mark.parametrize("command", ["recover", "convert"])
def test_a_folder_without_a_log_is_removed_once_no_program_can_write_there(command: str, folder: Path) -> None:
    stand_in = StandIn(folder, f'rm "$NETREV_LOG.$$"; {RUNS}')
    running = stand_in.start("-o", "x", "run", ".")
    stand_in.wait_for("here")
    stand_in.call(command)
    running.kill()
    running.wait(PATIENCE)
    stand_in.call(command)
    assert len(remaining_logs(stand_in)) == 1
    (folder / "end").touch()
    running.communicate(timeout=PATIENCE)
    assert "interrupted before" not in stand_in.call(command)[1] and remaining_logs(stand_in) == []


def test_a_log_that_a_program_still_writes_is_left_alone_and_kept(folder: Path) -> None:
    stand_in = StandIn(
        folder,
        f"""python3 -c '
import mmap, os, time
log = os.environ["NETREV_LOG"] + "." + str(os.getpid())
os.rename(os.environ["NETREV_LOG"] + "." + str(os.getppid()), log)
with open(log, "r+b") as file:
    mapped = mmap.mmap(file.fileno(), 4096)
open("here", "w").close()
while os.path.exists("go") and not os.path.exists("end"):
    time.sleep(0.05)
' > /dev/null 2>&1 &
{until("here")}""",
    )
    status, errors = stand_in.call("-o", "x", "run", ".")
    assert (status, stand_in.recording("x")) == (0, WHOLE.read_text()), errors
    assert re.search(r"still runs, and its log grows: `\S*netrev-go -o NAME convert ", errors)
    assert "no run was interrupted" in stand_in.call("recover")[1]
    (folder / "end").touch()
    wait_until(lambda: "interrupted before" in stand_in.call("convert")[1])
    assert stand_in.call("-o", "y", "recover")[0] == 0
    assert stand_in.recording("y") == WHOLE.read_text() and remaining_logs(stand_in) == []


def test_only_the_user_can_read_a_runs_folder(folder: Path) -> None:
    stand_in = StandIn(folder, 'cd "$(dirname "$NETREV_LOG")"; stat -c %a . owner log.unrecorded .. > $OLDPWD/modes')
    assert stand_in.call("-o", "x", "run", ".")[0] == 0
    modes = (folder / "modes").read_text().split()
    assert modes == (["711", "600", "1733", "711"] if os.geteuid() == 0 else ["700", "600", "700", modes[3]])


def test_standard_error_that_is_full_changes_no_status(folder: Path) -> None:
    stand_in = StandIn(folder, 'rm "$NETREV_LOG.$$"; exit 2')
    with open("/dev/full", "w") as full:
        ended = subprocess.run(
            stand_in.words("run", "-nosuch", "."), cwd=folder, env=stand_in.environment(), stderr=full, check=False
        )
    assert ended.returncode == 2
