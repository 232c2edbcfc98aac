"""Several processes find the same as one process, and Ctrl-C doesn't discard their findings."""

import pickle
import sys
from subprocess import PIPE, Popen
from typing import Any

import pytest

from netrev.explore import workers
from netrev.explore.script import script_of
from netrev.explore.search import Search
from netrev.explore.sentences import summary
from netrev.explore.workers import Share, run_all
from netrev.system.interrupts import SearchInterruptedError
from tests.support.stubs import raising

from .test_exploring import EXAMPLES, answered

pytestmark = pytest.mark.long
MOST = 240


class SearchByProcesses:
    """A search by several processes."""

    def __init__(self) -> None:
        self.recording = answered(EXAMPLES / "races/http-watchdog.jsonl")
        self.script = script_of(self.recording)

    def played(self, count: int, tell: Any = lambda: None) -> Search:
        """This many schedules, run by this many processes."""
        exploring = Search(self.script, self.recording.lines.words)
        with pytest.MonkeyPatch.context() as patch:
            patch.setattr(workers, "WORTH_IT", 0)
            run_all(exploring, Share(self.script, self.recording.lines, MOST, 0, count), tell)
        return exploring


@pytest.fixture
def search() -> SearchByProcesses:
    return SearchByProcesses()


def test_several_find_what_one_finds(search: SearchByProcesses) -> None:
    one, several = search.played(1), search.played(3)
    assert (several.tried, several.impossible, several.seed) == (MOST, one.impossible, one.seed)
    assert several.times == one.times
    assert list(several.found) == list(one.found)
    for key, finding in one.found.items():
        assert several.found[key].schedule == finding.schedule
        assert several.found[key].run.steps == finding.run.steps
    assert len(one.found) > 1


def test_a_process_that_is_killed_takes_nothing_away(
    monkeypatch: pytest.MonkeyPatch, search: SearchByProcesses
) -> None:
    one, working = search.played(1), workers.Worker
    for which in range(3):
        made: list[workers.Worker] = []

        def begun() -> workers.Worker:
            made.append(working())
            return made[-1]

        def kill() -> None:
            made[which].process.kill()

        with monkeypatch.context() as patch:
            patch.setattr(workers, "Worker", begun)
            patch.setattr(workers, "SECONDS", 0.01)
            several = search.played(3, kill)
        assert not made[which].is_done, which
        assert (several.tried, several.impossible, several.seed) == (MOST, one.impossible, one.seed), which
        assert (several.times, list(several.found)) == (one.times, list(one.found)), which
        assert "1 of the processes that played them ended early" in summary(several, 1.0, False), which


def test_a_process_whose_words_are_cut_off_takes_nothing_away(
    monkeypatch: pytest.MonkeyPatch, search: SearchByProcesses
) -> None:
    for message in (b"", b"\0\0\0", (10**6).to_bytes(8, "big") + b"half of it"):
        code = f"import sys; sys.stdin.buffer.read(); sys.stdout.buffer.write({message!r})"
        with monkeypatch.context() as patch:
            patch.setattr(workers, "CODE", code)
            several = search.played(2)
        assert (several.tried, several.taken_over) == (MOST, 2)


def test_a_process_to_which_nobody_listens_says_nothing(search: SearchByProcesses) -> None:
    for given in (b"", pickle.dumps(Share(search.script, search.recording.lines, 200, 0, 1))):
        with Popen([sys.executable, "-c", workers.CODE], stdin=PIPE, stdout=PIPE, stderr=PIPE) as process:
            assert process.stdin and process.stdout and process.stderr
            process.stdout.close()
            process.stdin.write(given)
            process.stdin.close()
            assert (process.stderr.read(), process.wait()) == (b"", 1)


def test_ctrl_c_keeps_what_was_found(search: SearchByProcesses) -> None:
    exploring = Search(search.script, search.recording.lines.words)

    def tell() -> None:
        if exploring.times:
            raise SearchInterruptedError

    with pytest.raises(SearchInterruptedError):
        run_all(exploring, Share(search.script, search.recording.lines, 100_000, 0, 2), tell)
    assert set(exploring.found) == set(exploring.times)
    assert 0 < exploring.tried
    assert exploring.tried < 100_000


def test_few_schedules_are_played_here(monkeypatch: pytest.MonkeyPatch, search: SearchByProcesses) -> None:
    exploring = Search(search.script, search.recording.lines.words)
    monkeypatch.setattr(workers, "Worker", raising(AssertionError("a process is started")))
    run_all(exploring, Share(search.script, search.recording.lines, 50, 0, 4), lambda: None)
    assert exploring.tried == 50
