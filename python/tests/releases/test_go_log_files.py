"""The files of a recorded program's log: whatever happens to them, the program goes on, and old ones are removed. The
tests need the Go 1.27 that dev.recorder.fetching fetches."""

import os
import shutil
import signal
import subprocess
import time
from collections.abc import Iterator
from contextlib import contextmanager
from pathlib import Path

import pytest

from dev.recorder.fetching import is_here
from netrev_go.go_command import process_logs
from netrev_go.go_command.toolchain import overlay, quiet_go
from netrev_go.log.logfile import HEADER_BYTES, MOST_POINTS, NOT_A_NUMBER, Header
from tests.trials import go_damaged
from tests.trials.go_snapshots import PROCESSORS, build
from tests.trials.go_untouched import go_of

RELEASE = "1.27"
OTHER_USER = 12_345
pytestmark = [
    pytest.mark.skipif(
        not is_here(RELEASE), reason=f"Go {RELEASE} isn't here (python3 python dev.recorder.fetching {RELEASE})"
    ),
    pytest.mark.together,
]
needs_root = pytest.mark.skipif(os.geteuid() != 0, reason="only root can mount a file system and change users")


@pytest.fixture(scope="module")
def server(tmp_path_factory: pytest.TempPathFactory) -> Path:
    """A server under load, which ends at the end of its standard input."""
    folder = tmp_path_factory.mktemp("server")
    build(go_of(RELEASE), Path(go_damaged.__file__).with_suffix(".go"), folder / "server")
    return folder / "server"


@contextmanager
def running(words: list[str | Path], folder: Path, name: str = "log", **settings: str) -> Iterator[int]:
    """The number of a running server, which then ends well."""
    process = subprocess.Popen(
        [*words, "1"], env=os.environ | {"NETREV_LOG": str(folder / name)} | settings, stdin=subprocess.PIPE, stdout=subprocess.DEVNULL
    )  # fmt: skip
    assert process.stdin
    until = time.monotonic() + 20
    while process.poll() is None and not has_begun(process.pid, folder) and time.monotonic() < until:
        time.sleep(0.01)
    yield process.pid
    process.stdin.close()
    assert process.wait() == 0


def has_begun(process: int, folder: Path) -> bool:
    """Whether a process has written the header of a log in this folder, or has said why it writes none."""
    names = names_of(process).split("\n")
    begun = (process_logs.has_begun(Path(name), process) for name in names if name.startswith(f"{folder}/log"))
    return any(name.startswith("/memfd:netrev-") for name in names) or any(begun)


def names_of(process: int) -> str:
    """The names of what a process has mapped."""
    lines = Path(f"/proc/{process}/maps").read_text().splitlines()
    return "\n".join(line.split(maxsplit=5)[5] for line in lines if len(line.split()) > 5)


def header_of(log: Path) -> Header:
    with log.open("rb") as file:
        return Header(file.read(HEADER_BYTES))


def logs_of(folder: Path) -> set[str]:
    return {path.name for path in folder.iterdir() if not path.name.startswith("log.program.")}


@pytest.mark.parametrize("processors", PROCESSORS)
@pytest.mark.parametrize("way", [*go_damaged.WAYS, *(go_damaged.ON_A_DEVICE if os.geteuid() == 0 else ())])
def test_a_damaged_log_changes_nothing(server: Path, way: str, processors: int) -> None:
    for seed in range(2):
        requests, why = go_damaged.damaged(server, processors, way, str(seed))
        assert (why, requests > 0) == ("", True)


def test_a_header_that_is_overwritten_is_written_again(server: Path, folder: Path) -> None:
    with running([server], folder) as process:
        log = folder / f"log.{process}"
        before, until = header_of(log), time.monotonic() + 20
        with log.open("r+b") as file:
            file.write(b"x" * HEADER_BYTES)
        while log.read_bytes()[:1] == b"x" and time.monotonic() < until:
            time.sleep(0.05)
        after = header_of(log)
        assert (after.points, after.program, after.process) == (before.points, before.program, process)


def test_a_lost_log_isnt_copied_at_a_signal(server: Path, folder: Path) -> None:
    with running([server], folder, NETREV_SIGNAL="usr2") as process:
        os.truncate(folder / f"log.{process}", 0)
        time.sleep(0.2)
        os.kill(process, signal.SIGUSR2)
        time.sleep(0.2)
    assert (folder / f"log.{process}.snapshot.failed.005").exists()
    assert not (folder / f"log.{process}.snapshot").exists()


def test_damaged_lines_about_tests_change_nothing(folder: Path) -> None:
    (folder / "p_test.go").write_text(
        'package p\n\nimport (\n\t"os"\n\t"testing"\n)\n\nfunc TestTruncated(t *testing.T) {\n'
        '\tif err := os.Truncate(os.Getenv("TESTS"), 0); err != nil {\n\t\tt.Fatal(err)\n\t}\n'
        '\tfor _, name := range []string{"a", "b"} {\n\t\tt.Run(name, func(t *testing.T) {})\n\t}\n}\n'
    )
    go = go_of(RELEASE)

    made = quiet_go(go, folder, "test", "-c", "-overlay", str(overlay(go)), "-o", str(folder / "p.test"), ".")
    assert made.returncode == 0, made.stderr
    words = f'TESTS="$NETREV_LOG.$$.tests" exec {folder}/p.test -test.v'
    run = subprocess.run(
        ["sh", "-c", words], cwd=folder, env=os.environ | {"NETREV_LOG": str(folder / "log")}, capture_output=True, text=True, check=False
    )  # fmt: skip
    assert (run.returncode, run.stderr) == (0, ""), run.stdout


def test_the_newest_logs_of_a_path_are_kept(server: Path, folder: Path) -> None:
    (folder / "log.77").write_text("the user's")
    (folder / "log.78").symlink_to("log.77")
    (folder / "log.program.5.6").write_bytes(b"an old copy")
    for name in ("log.77", "log.program.5.6"):
        os.utime(folder / name, (1, 1))
    begun: list[int] = []
    with running([server], folder, NETREV_KEEP="2") as first:
        for _ in range(4):
            with running([server], folder, NETREV_KEEP="2") as process:
                begun.append(process)
            (folder / f"log.{process}.tests").touch()
        kept = {f"log.{first}", f"log.{begun[3]}", f"log.{begun[3]}.tests", "log.77", "log.78"}
        assert logs_of(folder) == kept
    assert len([*folder.glob("log.program.*")]) == 1
    with running([server], folder, NETREV_KEEP="all") as process:
        assert logs_of(folder) == {*kept, f"log.{process}"}
    for _ in range(2):
        with running([server], folder) as process:
            pass
    assert (
        sum(name.removeprefix("log.").isdecimal() for name in logs_of(folder) - {"log.77", "log.78"}) == 4
    )  # by default
    assert (folder / "log.77").read_text() == "the user's"


@needs_root
def test_a_process_number_that_is_used_again_has_a_log_each_time(server: Path, folder: Path) -> None:
    for _ in range(12):
        words: list[str | Path] = ["unshare", "--pid", "--fork", "--kill-child", "--mount-proc", server]
        subprocess.run(
            [*words, "1"], env=os.environ | {"NETREV_LOG": str(folder / "log"), "NETREV_KEEP": "all"}, stdin=subprocess.DEVNULL,
            stdout=subprocess.DEVNULL, check=True,
        )  # fmt: skip
    assert logs_of(folder) == {"log.1", *(f"log.1.{number}" for number in range(2, 13))}


@needs_root
@pytest.mark.parametrize("right", ["set-user-ID", "capability"])
def test_a_program_with_rights_of_its_own_records_nothing(server: Path, folder: Path, right: str) -> None:
    program, private = folder / "server", folder / "private"
    folder.chmod(0o755)
    private.mkdir(mode=0o777)
    private.chmod(0o777)
    shutil.copy(server, program)
    program.chmod(0o4755 if right == "set-user-ID" else 0o755)
    if right == "capability":
        if not shutil.which("setcap"):
            pytest.skip("setcap isn't here (Debian: libcap2-bin)")
        subprocess.run(["setcap", "cap_net_raw+ep", program], check=True)
    words: list[str | Path] = ["setpriv", f"--reuid={OTHER_USER}", f"--regid={OTHER_USER}", "--clear-groups", program]
    with running(words, private, NETREV_POINTS="16384") as process:
        assert "/memfd:netrev-secure (deleted)" in names_of(process)
    assert [*private.iterdir()] == []


def test_the_number_of_points_has_limits(server: Path, folder: Path) -> None:
    for asked, points, header in (
        ("20000000", MOST_POINTS, 20_000_000), ("abc", 2**20, NOT_A_NUMBER), ("1", 2**14, 1), ("32768", 2**15, 0), ("", 2**20, 0),
    ):  # fmt: skip
        with running([server], folder, NETREV_POINTS=asked, NETREV_KEEP="1") as process:
            found = header_of(folder / f"log.{process}")
        assert (found.points, found.asked) == (points, header)


@needs_root
def test_a_log_leaves_half_of_the_room(server: Path) -> None:
    with go_damaged.device() as folder:
        with running([server], folder) as process:
            time.sleep(0.5)
            log = folder / f"log.{process}"
            found = header_of(log)
            assert (
                log.stat().st_size <= go_damaged.DEVICE_BYTES / 2
                and found.asked == 2**20
                and found.points % 2**14 == 0
            )
            assert not found.ended
        assert found.notes(found.end) == [
            f"the log has {found.points} points instead of 1048576, because its file system had no room for more"
        ]


def test_a_process_without_a_log_says_why(server: Path, folder: Path) -> None:
    with running([server], folder, "missing/log") as process:
        assert "/memfd:netrev-unwritten.2 (deleted)" in names_of(process)
    (folder / "elsewhere").mkdir()
    (folder / "log.unrecorded").symlink_to("elsewhere")
    with running(["sh", "-c", f"ulimit -f 100; exec {server} 1"], folder) as process:
        assert "/memfd:netrev-unwritten.27 (deleted)" in names_of(process)
    assert [*(folder / "elsewhere").iterdir()] == []
