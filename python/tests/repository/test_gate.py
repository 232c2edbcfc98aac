"""The gate after `rt ci`: each failed test is counted, and each skipped test is named and doesn't count as passed."""

import os
import re
import shutil
import subprocess
import sys
import tempfile
from pathlib import Path

import pytest

ROOT = Path(__file__).resolve().parents[3]
TESTS = """
import signal, time, pathlib, pytest

ENDED = pathlib.Path("ended")

def test_fails():
    pytest.fail("no such socket")

@pytest.mark.skip(reason="no such tool")
def test_left_out():
    raise AssertionError

def test_sigint_is_not_ignored():
    assert signal.getsignal(signal.SIGINT) is signal.default_int_handler

@pytest.mark.parametrize("number", [1, 2, 3])
def test_row(number):
    time.sleep(0.3)
    ENDED.touch()
    assert number != 2

@pytest.mark.alone
def test_alone_begins_when_the_others_have_ended():
    assert ENDED.exists()

@pytest.mark.alone
def test_alone_fails():
    raise AssertionError("no such step")
"""
LEFT_OUT = "python/tests/test_few.py::test_left_out: no such tool\n"


def test_unittest_at_the_root_says_how_the_tests_are_run() -> None:
    for words in ((), ("discover",)):
        run = subprocess.run(
            [sys.executable, "-m", "unittest", *words],
            cwd=ROOT,
            capture_output=True,
            text=True,
            timeout=60,
            check=False,
        )
        assert (run.returncode, run.stdout) == (1, "")
        assert run.stderr == "unittest runs none of these tests; pytest does: sh scripts/pytest.sh [FILE ..]\n"


@pytest.fixture
def top(folder: Path) -> Path:
    for name in ("scripts/tests.sh", "scripts/pytest.sh", "conftest.py", "pyproject.toml"):
        (folder / name).parent.mkdir(exist_ok=True)
        shutil.copy(ROOT / name, folder / name)
    support = folder / "python/tests/program/support"
    support.mkdir(parents=True)
    for package in ("", "program/", "program/support/"):
        shutil.copy(ROOT / f"python/tests/{package}__init__.py", folder / f"python/tests/{package}__init__.py")
    shutil.copy(ROOT / "python/tests/program/support/sharing.py", support)
    (folder / "python/netrev").symlink_to(ROOT / "python/netrev")
    (folder / "python/tests/test_few.py").write_text(TESTS)
    return folder


def played(top: Path, **settings: str) -> tuple[int, str, str]:
    """Runs the script; returns the status, the output, and the skipped tests."""
    built = {"NETREV": "/bin/true", "NETREV_PLAIN": "/bin/true", "NR_REFUSED": "/bin/true", "JOBS": "2"}
    process = subprocess.run(
        ["sh", "-c", 'trap "" INT; exec sh scripts/tests.sh'],
        cwd=top,
        env=os.environ | built | settings,
        capture_output=True,
        text=True,
        check=False,
    )
    return process.returncode, process.stdout + process.stderr, (top / "out/left-out.txt").read_text()


def test_each_that_fails_is_counted_and_each_left_out_is_named(top: Path) -> None:
    status, output, left_out = played(top)
    assert (status, left_out) == (3, LEFT_OUT), output
    for name in ("test_fails", "test_row[2]", "test_alone_fails"):
        assert f"FAILED python/tests/test_few.py::{name}" in output
    assert "2 failed, 3 passed, 1 skipped" in output
    assert "1 failed, 1 passed" in output


def test_what_has_no_tests_fails(top: Path) -> None:
    (top / "python/tests/test_few.py").unlink()
    assert played(top)[0] == 2


def test_what_is_not_built_fails(top: Path) -> None:
    status, output, _ = played(top, NR_REFUSED="/no/such/program")
    assert (status, output) == (1, "/no/such/program isn't built\n")


def test_without_pytest_all_is_left_out(top: Path) -> None:
    for name in ("python3", "other"):
        script = top / name
        script.write_text("#!/bin/sh\nexit 1\n")
        script.chmod(0o755)
    finder = top / "scripts/pytest.sh"
    finder.write_text(finder.read_text().replace("/usr/bin/python3", str(top / "other")))
    status, _, left_out = played(top, PATH=f"{top}:{os.environ['PATH']}")
    assert status == 0
    assert re.search(r"^pytest: it isn't on this machine \(Debian: .*\)\n$", left_out)


def test_the_gate_tells_how_many_were_skipped_behind_what_passed() -> None:
    text = (ROOT / "scripts/gate.sh").read_text()
    ending = text[text.index("# names what was left out here") :]
    for left_out, wanted in (
        ("", ["7 passed, 1 failed"]),
        ("a: no b\nc: no d\n", ["left out here:", "    a: no b", "    c: no d", "7 passed, 1 failed, 2 skipped"]),
    ):
        with tempfile.TemporaryDirectory() as folder:
            out = Path(folder, "out")
            out.mkdir()
            (out / "left-out.txt").write_text(left_out)
            (out / "log").write_text("7 passed, 0 failed\n")
            process = subprocess.run(
                ["sh", "-euc", f"log=out/log more=1 sum=out/sum\n{ending}"],
                cwd=folder,
                capture_output=True,
                text=True,
                check=False,
            )
        assert (process.stdout.splitlines(), process.returncode) == (wanted, 1), process.stderr
