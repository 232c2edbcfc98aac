"""How programs begin, and how they end: at once, or by a signal."""

import ast
import os
import signal
import subprocess
import sys
import time
from pathlib import Path

import pytest

from dev.fuzz.generators.logs import from_text

PACKAGES = Path(__file__).parents[2]
PROGRAM = """
import atexit
from netrev.system.immediate_exit import ended_by

class Given:
    def __del__(self):
        print("given back")

KNOWN = [Given()]

def main():
    print("said")
    {does}

atexit.register(print, "done at the end")
ended_by(main)
"""


def run(does: str) -> tuple[int, str]:
    """The status and the output of a program that ends with these statements."""
    words = [sys.executable, "-c", PROGRAM.format(does=does)]
    process = subprocess.run(words, cwd=PACKAGES, stdout=subprocess.PIPE, stderr=subprocess.DEVNULL, text=True)
    return process.returncode, process.stdout


def test_all_is_said_and_nothing_given_back() -> None:
    assert run("return 3")[0] == 3
    assert run("return 0") == (0, "said\n")


def test_who_ends_otherwise_ends_as_ever() -> None:
    assert run("raise SystemExit(5)") == (5, "said\ndone at the end\ngiven back\n")


CLONE = PACKAGES.parent
SLOW = "#!/bin/sh\necho $$ >> pids\nexec sleep 600\n"
PATIENCE = 60  # seconds


@pytest.mark.parametrize("number", [signal.SIGTERM, signal.SIGHUP, signal.SIGQUIT])
@pytest.mark.parametrize("words", ["nrdb --batch -ex where", "nrdb --suspects", "nrdb --reduce x.jsonl", "tools/go/netrev-go -o x convert"])  # fmt: skip
def test_a_signal_ends_the_netrevs_that_were_started(number: int, words: str, tmp_path: Path) -> None:
    log, netrev, pids = tmp_path / "log.1", tmp_path / "netrev", tmp_path / "pids"
    log.write_bytes(from_text((CLONE / "examples/real/past.log").read_text())[0])
    netrev.write_text(SLOW)
    netrev.chmod(0o755)
    program, *more = [*words.split(), str(CLONE / "examples/first.jsonl") if words[0] == "n" else str(log)]
    environment = os.environ | {"NETREV": str(netrev)}
    process = subprocess.Popen([CLONE / program, *more], cwd=tmp_path, env=environment, start_new_session=True)
    until = time.monotonic() + PATIENCE
    while time.monotonic() < until and not (pids.exists() and pids.read_text().endswith("\n")):
        time.sleep(0.01)
    time.sleep(0.2)
    process.send_signal(number)
    assert process.wait(PATIENCE) == -number
    assert pids.read_text() and [pid for pid in pids.read_text().split() if Path("/proc", pid).exists()] == []


def test_an_exception_of_a_signal_that_was_swallowed_comes_again() -> None:
    does = """
    import os, signal, time
    for number in (signal.SIGINT, signal.SIGTERM):
        try:
            os.kill(os.getpid(), number)
            time.sleep(60)
        except BaseException as error:
            print(type(error).__name__)
    time.sleep(10)
    print("late")"""
    assert run(does) == (-signal.SIGTERM, "said\nKeyboardInterrupt\nSystemExit\n")


def test_ctrl_c_before_a_program_begins_only_ends_it(tmp_path: Path) -> None:
    (tmp_path / "__main__.py").write_bytes((PACKAGES / "__main__.py").read_bytes())
    for name in ("nrdb", "other"):
        (tmp_path / name).mkdir()
        (tmp_path / name / "__main__.py").write_text("import signal\nsignal.raise_signal(signal.SIGINT)\n")
        ended = subprocess.run([sys.executable, tmp_path, name], capture_output=True, text=True)
        assert (ended.returncode, "Traceback" in ended.stderr) == (-signal.SIGINT, name == "other")
    words = [sys.executable, "-c", PROGRAM.format(does="raise KeyboardInterrupt")]
    ended = subprocess.run(words, cwd=PACKAGES, capture_output=True, text=True)
    assert (ended.returncode, ended.stderr) == (-signal.SIGINT, "")


def test_an_older_python_is_refused_in_a_line() -> None:
    main = PACKAGES / "__main__.py"
    assert not any(
        isinstance(node, (ast.JoinedStr, ast.AnnAssign, ast.NamedExpr))
        for node in ast.walk(ast.parse(main.read_text()))
    )
    script = f"import sys; sys.version_info = (3, 9); exec(open({str(main)!r}).read())"
    ended = subprocess.run([sys.executable, "-c", script, "nrdb", "--version"], capture_output=True, text=True)
    assert (ended.returncode, ended.stdout, ended.stderr) == (3, "", "Python 3.10 or later is needed\n")
