"""The causes use netrev's list of changes, and compute the changes themselves if netrev doesn't answer. Other tests are
about `info hangs` when a session opens."""

import pathlib

import pytest

from netrev.findings.causes import first_words
from netrev.findings.causes.tables import hangs_table
from netrev.recording.recording import Recording
from netrev.recording.step_changes import RecordedChanges
from netrev.run import changes as modelled_changes
from netrev.run import changes as printed_changes
from tests.suspects.test_suspects import OPEN

from .test_causes import CAUSED, with_lines

BAD = str(CAUSED / "pool-bad.jsonl")


class StandIn:
    """A stand-in for netrev that lists the changes of a recording."""

    def __init__(self, folder: pathlib.Path) -> None:
        self.netrev = folder / "netrev"
        self.changes = folder / "changes"
        self.recording = Recording.read(BAD)
        self.changes.write_text("\n".join(modelled_changes._lines(self.recording)) + "\n")
        self.says(f'test "$1" = changes && cat {self.changes}')

    def says(self, script: str) -> None:
        """Sets the behaviour of the stand-in for netrev."""
        self.netrev.write_text(f"#!/bin/sh\n{script}\n")
        self.netrev.chmod(0o700)

    def printed(self) -> list[str]:
        """The first output, with the changes from the stand-in if it lists them."""
        recording = Recording.read(BAD)
        recording.changes = self.changes_of_netrev()
        return first_words(recording, BAD)

    def changes_of_netrev(self) -> RecordedChanges | None:
        with printed_changes.PrintedChanges(str(self.netrev), BAD) as printed:
            return printed.of(self.recording)


@pytest.fixture
def stand_in(folder: pathlib.Path) -> StandIn:
    return StandIn(folder)


def test_the_words_are_the_same_without_the_model(stand_in: StandIn, monkeypatch: pytest.MonkeyPatch) -> None:
    expected = first_words(Recording.read(BAD), BAD)
    assert expected[0].startswith("cause:  "), expected
    monkeypatch.delattr(modelled_changes, "_lines")
    assert stand_in.printed() == expected


def test_the_model_says_them_if_netrev_does_not(monkeypatch: pytest.MonkeyPatch, stand_in: StandIn) -> None:
    expected = stand_in.printed()
    short = "echo ok 1 steps"
    for script in (
        "exit 0",
        "exit 1",
        f"cat {stand_in.changes}; exit 1",
        "echo step 2: refused",
        short,
        "exec sleep 60",
    ):
        stand_in.says(script)
        with monkeypatch.context() as patch:
            patch.setattr(printed_changes, "AT_LEAST", 0.5)
            patch.setattr(printed_changes, "A_STEP", 0)
            assert stand_in.changes_of_netrev() is None, script
            assert stand_in.printed() == expected, script
    stand_in.netrev.unlink()
    assert stand_in.changes_of_netrev() is None


def test_what_hangs_is_that_of_the_end() -> None:
    recording = Recording.read(str(CAUSED / "bodies-bad.jsonl"))
    start, end = hangs_table(recording, 0), hangs_table(recording, recording.length)
    assert end.rows
    assert start.rows == end.rows
    assert f"that is at the end, position {recording.length}: " in start.rest
    assert "at the end" not in end.rest


def test_it_says_so_also_where_nothing_hangs() -> None:
    assert hangs_table(with_lines(OPEN), 0).rest == "no call hangs at the end, but for those that wait for connections"
