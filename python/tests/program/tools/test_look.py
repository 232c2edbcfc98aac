"""`make look` in a fresh clone: every command answers as with the built netrev, and netrev is compiled only once."""

import os
import signal
import subprocess
import threading
import time
from collections.abc import Iterator
from contextlib import suppress
from pathlib import Path

import pytest

from tests.program.support.fresh import Toolchain, environment, fresh_clone, make
from tests.program.support.sharing import NETREV

PATIENCE = 120  # seconds
RECORDING = "examples/real/hijacked.jsonl"
COMMANDS = ("goto 186", "info suspects", "history wd 2", "info errors", "calls gor 2", "until rg 1 ready")


@pytest.fixture(scope="module")
def clone(tmp_path_factory: pytest.TempPathFactory) -> Path:
    return fresh_clone(tmp_path_factory.mktemp("clone"))


@pytest.fixture
def toolchain(tmp_path: Path) -> Toolchain:
    return Toolchain(tmp_path / "toolchain")


@pytest.fixture(autouse=True)
def nothing_is_kept(clone: Path) -> Iterator[None]:
    yield
    for file in (clone / "out/look").glob("*"):
        file.unlink()


def kept(clone: Path) -> list[str]:
    """The names of the programs that are kept."""
    return sorted(file.name for file in (clone / "out/look").glob("netrev-*") if file.suffix != ".sha256")


def looked(clone: Path, toolchain: Toolchain, *commands: str) -> str:
    """The output of `make look` for these commands at its prompt."""
    lines = "".join(f"{command}\n" for command in commands)
    process = make(clone, "look", f"FILE={RECORDING}", lines=lines, PATH=toolchain.path())
    assert process.returncode == 0, process.stderr
    return process.stdout


def with_built_netrev(clone: Path, *commands: str) -> str:
    """nrdb's output for these commands, with the built netrev."""
    lines = "".join(f"{command}\n" for command in commands)
    command = [str(clone / "nrdb"), "--netrev", NETREV, RECORDING]
    return subprocess.run(command, cwd=clone, input=lines, capture_output=True, text=True, check=True).stdout


def test_each_command_answers_as_with_the_built_netrev_and_one_compile_serves_all(
    clone: Path, toolchain: Toolchain, tmp_path: Path
) -> None:
    commands = (*COMMANDS, f"timeline {tmp_path}/page.html")
    printed = looked(clone, toolchain, *commands)
    assert printed == with_built_netrev(clone, *commands)
    assert "1. deadline left behind:" in printed and "set at step 107 by goroutine 2" in printed
    assert "ended with status" not in printed and (tmp_path / "page.html").stat().st_size > 10_000
    assert toolchain.compiled() == 1
    assert list(toolchain.temporary.iterdir()) == []


def test_a_later_look_compiles_nothing_while_the_sources_are_the_same(clone: Path, toolchain: Toolchain) -> None:
    first = make(clone, "look", f"FILE={RECORDING}", PATH=toolchain.path())
    again = make(clone, "look", f"FILE={RECORDING}", PATH=toolchain.path())
    assert toolchain.compiled() == 1
    assert "Nothing of this netrev is proved" in first.stderr and "Nothing of this netrev is proved" in again.stderr
    assert "out/look/netrev is up to date, so nothing is compiled." in again.stderr
    assert (clone / "out/look/netrev").samefile(clone / "out/look" / kept(clone)[0])
    assert again.stdout == first.stdout


def test_changed_sources_are_compiled_anew_and_the_old_program_goes(clone: Path, toolchain: Toolchain) -> None:
    looked(clone, toolchain)
    before = kept(clone)
    source = clone / "crates/netrev/src/main.rt"
    text = source.read_text()
    try:
        source.write_text(f"{text}// changed\n")
        looked(clone, toolchain)
    finally:
        source.write_text(text)
    assert toolchain.compiled() == 2
    assert len(kept(clone)) == 1 and kept(clone) != before
    assert (clone / "out/look/netrev").samefile(clone / "out/look" / kept(clone)[0])


def test_a_program_that_is_not_what_was_kept_is_compiled_anew(clone: Path, toolchain: Toolchain) -> None:
    looked(clone, toolchain)
    program = clone / "out/look" / kept(clone)[0]
    program.write_bytes(b"#!/bin/sh\necho another program\n")
    assert "at 0 of 216 forward" in looked(clone, toolchain)
    assert toolchain.compiled() == 2


def test_the_program_of_an_open_session_stays(clone: Path, toolchain: Toolchain) -> None:
    command = ["make", "-s", "look", f"FILE={RECORDING}"]
    opened = subprocess.Popen(
        command,
        cwd=clone,
        env=environment(PATH=toolchain.path()),
        stdin=subprocess.PIPE,
        stdout=subprocess.PIPE,
        stderr=subprocess.DEVNULL,
        text=True,
    )
    assert opened.stdin and opened.stdout
    assert opened.stdout.readline() == "at 0 of 216 forward\n"
    held = kept(clone)
    (clone / "HANDLES").write_text((clone / "HANDLES").read_text() + "\n")
    looked(clone, toolchain)
    assert set(held) < set(kept(clone)) and len(kept(clone)) == 2
    printed, _ = opened.communicate("info suspects\n", timeout=120)
    assert "deadline left behind" in printed and opened.returncode == 0
    (clone / "HANDLES").write_text((clone / "HANDLES").read_text() + "\n")
    looked(clone, toolchain)
    assert len(kept(clone)) == 1


def test_two_at_once_compile_once(clone: Path, toolchain: Toolchain) -> None:
    printed: list[str] = []
    looks = [threading.Thread(target=lambda: printed.append(looked(clone, toolchain, "continue"))) for _ in range(2)]
    for look in looks:
        look.start()
    for look in looks:
        look.join()
    assert len(printed) == 2 and printed[0] == printed[1] and "at 216 end" in printed[0]
    assert toolchain.compiled() == 1


def test_it_leaves_only_plain_files_in_the_tree(clone: Path, toolchain: Toolchain) -> None:
    """`rt ci` refuses a tree that contains links."""
    looked(clone, toolchain)
    looked(clone, toolchain)
    files = list((clone / "out").rglob("*"))
    assert {file.name for file in files} == {"look", "lock", "netrev", kept(clone)[0], f"{kept(clone)[0]}.sha256"}
    assert not any(file.is_symlink() for file in files)


def test_a_script_runs_with_the_same_program(clone: Path, toolchain: Toolchain) -> None:
    looked(clone, toolchain)
    process = make(clone, "look", "FILE=examples/first.jsonl", "SCRIPT=examples/first.script", PATH=toolchain.path())
    assert process.stdout == (clone / "examples/first.replies").read_text()
    assert "Nothing of this netrev is proved" in process.stderr and toolchain.compiled() == 1


def test_without_the_toolchain_it_says_what_is_missing(clone: Path, tmp_path: Path) -> None:
    for name in ("make", "python3"):
        found = next(Path(folder, name) for folder in ("/usr/bin", "/bin") if Path(folder, name).exists())
        (tmp_path / name).symlink_to(found)
    process = make(clone, "look", f"FILE={RECORDING}", PATH=str(tmp_path), SHELL="/bin/sh")
    assert process.returncode != 0 and process.stdout == ""
    assert (
        "look: make look needs the toolchain, and there is no `rt` on the PATH. The archive and the Debian package"
        in process.stderr
    )


def test_what_the_toolchain_says_is_the_error_if_it_compiles_nothing(clone: Path, toolchain: Toolchain) -> None:
    rt = toolchain.commands / "rt"
    rt.write_text("#!/bin/sh\n[ $1 = version ] || { echo 'error: no such type' >&2; exit 2; }\n")
    process = make(clone, "look", f"FILE={RECORDING}", PATH=toolchain.path())
    assert "look: error: no such type\n" in process.stderr and process.returncode != 0 and kept(clone) == []


@pytest.mark.parametrize("number", [signal.SIGTERM, signal.SIGHUP, signal.SIGINT])
def test_a_signal_ends_the_compiler_too(clone: Path, toolchain: Toolchain, number: signal.Signals) -> None:
    process_file = toolchain.temporary / "compiler"
    rt = toolchain.commands / "rt"
    rt.write_text(
        f"#!/bin/sh\n[ $1 = version ] && exit\necho $$ > {process_file}.new\nmv {process_file}.new {process_file}\nexec sleep 600\n"
    )
    command = ["python3", "scripts/look.py", RECORDING]
    looking = subprocess.Popen(command, cwd=clone, env=environment(PATH=toolchain.path()), stderr=subprocess.DEVNULL)
    until = time.monotonic() + PATIENCE
    while not process_file.exists() and time.monotonic() < until:
        time.sleep(0.05)
    compiler = int(process_file.read_text())
    looking.send_signal(number)
    try:
        assert looking.wait(PATIENCE) == 128 + number
        with pytest.raises(ProcessLookupError):
            os.kill(compiler, 0)
    finally:
        with suppress(ProcessLookupError):
            os.kill(compiler, signal.SIGKILL)
    assert kept(clone) == []


def test_a_file_that_is_not_there_is_named_before_anything_is_compiled(clone: Path, toolchain: Toolchain) -> None:
    process = make(clone, "look", "FILE=no/such.jsonl", PATH=toolchain.path())
    assert f"look: {clone}/no/such.jsonl: No such file or directory\n" in process.stderr and toolchain.compiled() == 0
    assert os.path.exists(clone / "Makefile") and process.returncode != 0
