"""Logs of random programs become recordings that the model accepts, in which each socket and descriptor ends as in Go,
with the log's bytes and each goroutine's steps. `make fuzz-around` tries other programs, also with netrev."""

import pytest

from dev.fuzz.generators.random_logs import RandomProgram, program_of, replayed, wrong
from netrev_go.log.point_answers import UnconvertibleError
from netrev_go.log.points import Log, PointKind
from netrev_go.steps.recording_builder import make

from .test_go_converting import DESCRIPTOR, WORD, Points

KEPT = (
    "85-programs-1718",
    "85-programs-4489",
    "87-programs-59424",
    "87-programs-59842",
    "87-programs-62078",
    "87-programs-63649",
)  # seeds whose recordings were once refused, or ended differently


@pytest.mark.parametrize("seed", [*map(str, range(60)), *KEPT])
def test_a_log_becomes_a_recording_that_has_all_of_it(seed: str) -> None:
    assert wrong(seed) == ""


def test_random_programs_do_all_that_is_recorded() -> None:
    programs = [program_of(str(seed)) for seed in range(60)]
    kinds = {point.kind for program in programs for point in program.runtime.points}
    assert kinds >= {
        kind
        for kind in PointKind
        if PointKind.INIT <= kind <= PointKind.CLOSE_WRITE or PointKind.NOTED <= kind < PointKind.NOTED_NAMED
    }
    assert sum(map(uses_again, programs)) > 5 and sum(map(fires_late, programs)) > 3


def uses_again(program: RandomProgram) -> bool:
    """Whether a descriptor later belongs to another socket."""
    return len(program.runtime.descriptors) < sum(fd.pd is not None for fd in program.all)


def fires_late(program: RandomProgram) -> bool:
    """Whether the function of a timer ran after the timer was stopped or reset."""
    return any(point.kind == PointKind.FIRE and point.b & 4 for point in program.runtime.points)


def said_of(log: Points) -> str:
    """The fault in the recording of a log."""
    return replayed(make(Log(log.points)))[2]


@pytest.mark.parametrize("sizes", [(5_000,) * 3, (1, 4_095, 4_096, 1), (65_536, 65_536, 1), (200_000, 1, 200_000)])
def test_writes_go_on_past_the_capacity(sizes: tuple[int, ...]) -> None:
    log = Points().opened()
    for size in sizes:
        log.add(PointKind.WRITE, 1, WORD, size, size, 0)
    assert said_of(log) == ""


OTHER_WORD, OTHER = WORD + 20, DESCRIPTOR + 300


def two_timers(*fired: tuple[int, int], now: int = 105) -> Points:
    """Deadlines of two descriptors pass at once, at 105; then these timers go off."""
    log = Points().opened().opened(OTHER_WORD, OTHER)
    for descriptor in (DESCRIPTOR, OTHER):
        log.add(PointKind.SET_DEADLINE, 1, descriptor, 114, 5, time=100)
    for descriptor, bits in fired:
        log.add(PointKind.FIRE, 0, descriptor, 1, bits, time=now)
    return log


@pytest.mark.parametrize("fired", [((DESCRIPTOR, 1), (OTHER, 1)), ((OTHER, 1), (DESCRIPTOR, 1)), ((OTHER, 1),)])
def test_timers_that_are_due_at_once_go_off_in_any_order(fired: tuple[tuple[int, int], ...]) -> None:
    assert said_of(two_timers(*fired)) == ""


def test_a_timer_is_due_at_its_time_and_not_before() -> None:
    with pytest.raises(UnconvertibleError):
        said_of(two_timers((OTHER, 1), now=104))
