"""Ctrl-C is pressed once or twice, or netrev is killed, at every point of all communication. nrdb then continues with
its normal output or ends, and never prints anything else."""

import pytest

from netrev.connection.netrev import NetrevEndedError
from netrev.connection.scout import Scout
from netrev.system.interrupts import Interrupts
from tests.support.interrupted_sessions import EXAMPLE, TEXT, Disturbances, Weather
from tests.support.model_sessions import Modelled, recording_at

MODEL = recording_at(EXAMPLE)
COMMANDS = (
    "history lock 0 all",
    "history info 0 2",
    "until gor 0 *",
    "reverse-until lock 0 *",
    "until lock 0 * and gor 0 idle",
    "next 0",
    "info goroutines all",
    "info sockets all",
    "info descriptors all",
    "info timers",
    "info holders 0",
    "reverse-continue",
    "goto 3",
)


def once(weather: Weather[Modelled], netrev: Modelled) -> None:
    """Presses Ctrl-C."""
    weather.interrupts.press()


def twice(weather: Weather[Modelled], netrev: Modelled) -> None:
    """Presses Ctrl-C twice, with nothing in between."""
    weather.interrupts.press()
    weather.interrupts.press()


def twice_apart(weather: Weather[Modelled], netrev: Modelled) -> None:
    """Presses Ctrl-C, and presses it again a line later."""
    weather.interrupts.press()
    weather.left, weather.action = 0, once


def killed(weather: Weather[Modelled], netrev: Modelled) -> None:
    """Kills netrev during a query."""
    netrev.has_ended = True


def killed_twice(weather: Weather[Modelled], netrev: Modelled) -> None:
    """Kills netrev during a query, and soon afterwards kills the next netrev during a query."""
    netrev.has_ended = True
    weather.left, weather.action = 1, killed


class EveryPoint(Disturbances[Modelled]):
    def opened(self, weather: Weather[Modelled]) -> Modelled:
        return Modelled(MODEL, weather.interrupts, weather.happens)


@pytest.fixture
def disturbances(monkeypatch: pytest.MonkeyPatch) -> EveryPoint:
    return EveryPoint(monkeypatch)


def test_what_is_told_is_right_and_so_is_what_comes_then(disturbances: EveryPoint) -> None:
    given_up = disturbances.check(COMMANDS, (once, twice, twice_apart, killed, killed_twice))
    assert given_up > 100


def test_a_scout_that_is_gone_is_begun_anew(disturbances: EveryPoint) -> None:
    def found(weather: Weather[Modelled]) -> list[list[str]]:
        scout = Scout(lambda: disturbances.opened(weather))
        return [scout.values(position, ["lock 0", "gor 0"]) for position in (TEXT.length, 0, 3)]

    weather: Weather[Modelled] = Weather(Interrupts())
    right = found(weather)
    assert weather.count > 5
    for point in range(weather.count):
        disturbed: Weather[Modelled] = Weather(Interrupts())
        disturbed.left, disturbed.action = point, killed
        assert found(disturbed) == right, point


def test_what_nobody_read_is_not_the_reply_to_another_line() -> None:
    points = 0

    def fails(_netrev: Modelled) -> None:
        nonlocal points
        points += 1
        if points == 3:  # before the second of the replies
            raise MemoryError

    netrev = Modelled(MODEL, Interrupts(), fails)
    with pytest.raises(MemoryError):
        netrev.ask_all(["info position", "print clock", "print timers"])
    with pytest.raises(NetrevEndedError):
        netrev.ask("info breakpoints")
    assert netrev.has_ended
