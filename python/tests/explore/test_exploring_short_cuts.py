"""Copies of the recorded run change nothing: the findings are the same as when each schedule runs from its first step
to its last."""

from pathlib import Path
from typing import Any

import pytest

from dev.fuzz.generators.injections import Traffic
from netrev.explore.numbered_state import ImpossibleScheduleError
from netrev.explore.scheduler import Scheduler
from netrev.explore.schedules import Delay, Schedule, schedules
from netrev.explore.script import script_of
from netrev.explore.search import Run, Search
from netrev.recording.recording import Recording

from .test_exploring import EXAMPLES, answered, with_answers

pytestmark = pytest.mark.long
REAL = sorted((EXAMPLES / "real").glob("*.jsonl"))
RACES = sorted((EXAMPLES / "races").glob("*.jsonl"))
MOST, AT_ONCE = 200, 9  # the greatest number of schedules; every ninth is run
TRAFFIC, LENGTH = (720, 726), 400  # seeds, and the length of their recordings


class PlainSearch(Search):
    """A search that runs each schedule from its beginning to its end."""

    def run_schedule(self, delays: tuple[Delay, ...]) -> Run | None:
        scheduler = Scheduler(self.script, delays)
        scheduler.finish(self._most)
        state = scheduler.state
        return Run(scheduler.steps, state.machine.world(), scheduler.places, state.sockets, scheduler.has_news)


def outcome(exploring: Search, schedule: Schedule) -> Any:
    """The result of a schedule: its findings and its run, or None if the run is given up."""
    keys = exploring.try_schedule(schedule)
    try:
        return keys, exploring.run_schedule(schedule.delays)
    except ImpossibleScheduleError as impossible:
        return keys, str(impossible)


class ShortCuts:
    """Compares a search with one that takes no short cuts, and counts the short cuts."""

    def __init__(self) -> None:
        self.came_back = self.had_rest = 0

    def compare(self, recording: Recording) -> None:
        """Explores a recording in both ways."""
        script = script_of(recording)
        short = Search(script, recording.lines.words)
        plain = PlainSearch(script, recording.lines.words)
        assert short.recorded == plain.recorded
        for schedule in list(schedules(short.delays, MOST))[::AT_ONCE]:
            self.compare_ends(short, plain, schedule)
        for name in ("found", "times", "known", "tried", "impossible", "seed", "delays"):
            assert getattr(short, name) == getattr(plain, name), name
        assert list(short.found) == list(plain.found)

    def compare_ends(self, short: Search, plain: Search, schedule: Schedule) -> None:
        with_the_rest, calls = short._with_the_rest, []

        def counted(*arguments: Any) -> Any:
            calls.append(arguments)
            return with_the_rest(*arguments)

        with pytest.MonkeyPatch.context() as patch:
            patch.setattr(short, "_with_the_rest", counted)
            keys, played = outcome(short, schedule)
        self.had_rest += bool(calls)
        plain_keys, plain_played = outcome(plain, schedule)
        assert keys == plain_keys, schedule
        if played is not None:
            assert played == plain_played, schedule
        else:
            self.came_back += 1
            assert plain_played.has_news <= plain.recorded.has_news
            statuses, recorded = plain_played.world.goroutines, plain.recorded.world.goroutines
            assert [status[0] for status in statuses] == [item[0] for item in recorded]
            assert plain_played.places == plain.recorded.places

    def in_all(self, paths: list[Path]) -> None:
        assert len(paths) > 5
        for path in paths:
            self.compare(answered(path))
        assert self.came_back > len(paths)


@pytest.fixture
def comparison() -> ShortCuts:
    return ShortCuts()


def test_in_recordings_of_real_programs(comparison: ShortCuts) -> None:
    comparison.in_all(REAL)


def test_in_races(comparison: ShortCuts) -> None:
    comparison.in_all(RACES)
    assert comparison.had_rest > 5


def test_in_random_traffic(comparison: ShortCuts) -> None:
    for seed in TRAFFIC:
        comparison.compare(with_answers(Recording(Traffic(seed, None, LENGTH).run().text())))
    assert comparison.came_back > 5
