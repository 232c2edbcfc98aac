"""Runs as tests the scripts that check the built program or the tree. A script that leaves out a part for lack of a
tool prints a line `left out: NAME: WHY`; its test is then skipped and doesn't count as passed."""

import shlex
import subprocess

import pytest

from .sharing import ROOT

LEFT_OUT = "left out: "
SCRIPTS = (
    pytest.param("sh scripts/refused.sh", marks=pytest.mark.long),
    pytest.param("python3 python dev.recorder.real --gate", marks=pytest.mark.long),
    pytest.param("sh scripts/lint.sh --if-there", marks=pytest.mark.long),
    pytest.param("sh bench/pace/prove.sh", marks=pytest.mark.long),
    "python3 scripts/pages.py",
    "python3 scripts/surface.py",
    pytest.param("sh examples/play_all.sh", marks=pytest.mark.alone),
)


@pytest.mark.parametrize("command", SCRIPTS)
def test_script(command: str) -> None:
    process = subprocess.run(
        shlex.split(command), cwd=ROOT, stdout=subprocess.PIPE, stderr=subprocess.STDOUT, text=True, errors="replace"
    )
    print(process.stdout)
    assert process.returncode == 0
    left_out = [line.removeprefix(LEFT_OUT) for line in process.stdout.splitlines() if line.startswith(LEFT_OUT)]
    if left_out:
        pytest.skip("; ".join(left_out))
