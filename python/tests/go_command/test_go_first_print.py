"""netrev-go's first output for a program that failed: why calls failed or hang, before netrev has checked the recording
and long before the suspects are known."""

from contextlib import ExitStack
from pathlib import Path

import pytest

from dev.fuzz.generators.logs import from_text
from netrev.findings.finding import SuspectFindings
from netrev.run import changes
from netrev.system.time_limits import LateError
from netrev_go import recordings
from netrev_go.steps.analysis import Analysis

from .test_go_kept_runs import PYTHON, Run

HUNG = PYTHON.parent / "examples/real/hung.log"
CAUSE = "cause:  "
LATE = """#!/bin/sh
for _ in $(seq 600); do test -e heard && echo ok 9 steps && exit 0; sleep 0.1; done
exit 1
"""


class FirstPrint(Run):
    """A run of a program that hung. A stand-in for netrev ends only after netrev-go has printed something."""

    def __init__(self, folder: Path, monkeypatch: pytest.MonkeyPatch, cleanups: ExitStack) -> None:
        super().__init__(folder, monkeypatch, cleanups)
        self.log.write_bytes(from_text(HUNG.read_text())[0])
        self.netrev = self.folder / "netrev"
        self.netrev.write_text(LATE)
        self.netrev.chmod(0o700)
        self.said: list[list[str]] = []

    def hear(self, lines: list[str], stream: object = None) -> None:
        """Receives a piece of the output, and lets netrev continue."""
        self.said.append(lines)
        (self.folder / "heard").touch()

    def first(self, ends: type[BaseException]) -> int:
        """netrev-go's status if the search for suspects ends with this exception."""
        seen = list[int]()

        def suspects(_: Analysis) -> SuspectFindings:
            seen.append(len(self.said))
            raise ends("it takes long")

        with pytest.MonkeyPatch.context() as patch:
            patch.setattr(recordings, "say", self.hear)
            patch.setattr(Analysis, "suspects", suspects)
            patch.setattr(changes, "AT_LEAST", 0.1)
            patch.setattr(changes, "A_STEP", 0)
            status, _ = self.called("-o", "hung", "run", "main.go", status=3, netrev=str(self.netrev))
        assert len(seen) == 1
        assert seen[0] >= 2, "the causes and what netrev says are printed before the suspects are asked for"
        return status


@pytest.fixture
def run(folder: Path, monkeypatch: pytest.MonkeyPatch, cleanups: ExitStack) -> FirstPrint:
    return FirstPrint(folder, monkeypatch, cleanups)


def test_the_causes_are_printed_before_netrev_has_checked(run: FirstPrint) -> None:
    assert run.first(LateError) == 3
    assert run.said[0][0].startswith(CAUSE), run.said[0]
    assert run.said[1][0].startswith("hung.jsonl: ok 9 steps; "), run.said[1]
    assert any("it takes long: `" in line for line in run.said[-1]), run.said[-1]


def test_ctrl_c_ends_the_suspects_alone(run: FirstPrint) -> None:
    assert run.first(KeyboardInterrupt) == 3
    assert run.said[0][0].startswith(CAUSE), run.said[0]
    interrupted = [line for line in run.said[-1] if "the search for suspects was interrupted: `" in line]
    assert len(interrupted) == 1
    assert interrupted[0].endswith(" --suspects hung.jsonl` prints them"), interrupted
    assert not any("the logs are in" in line for lines in run.said for line in lines)


def test_causes_of_a_recording_that_netrev_refuses_may_be_wrong(
    monkeypatch: pytest.MonkeyPatch, run: FirstPrint
) -> None:
    run.netrev.write_text("#!/bin/sh\necho refused\nexit 1\n")
    monkeypatch.setattr(recordings, "say", run.hear)
    run.called("-o", "hung", "run", "main.go", status=3, netrev=str(run.netrev))
    printed = [line for lines in run.said for line in lines]
    assert printed[0].startswith(CAUSE), printed
    assert any("the causes above may be wrong" in line for line in printed), printed


def test_the_causes_ask_the_same_netrev_what_the_steps_changed(
    monkeypatch: pytest.MonkeyPatch, run: FirstPrint
) -> None:
    run.netrev.write_text('#!/bin/sh\necho "$@" >> asked\necho refused\nexit 1\n')
    monkeypatch.setattr(recordings, "say", run.hear)
    run.called("-o", "hung", "run", "main.go", status=3, netrev=str(run.netrev))
    assert "changes hung.jsonl" in (run.folder / "asked").read_text().splitlines()
    assert run.said[0][0].startswith(CAUSE), run.said[0]
