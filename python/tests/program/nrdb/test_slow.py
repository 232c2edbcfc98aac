"""While nrdb waits for a slow netrev, Ctrl-C is pressed once or twice, or netrev is killed. The tests do this at each
point in a conversation with the built program, with the session's netrev and with the one that the scout uses."""

import pytest

from dev.fuzz.sessions.interrupts import confined, heard, pressed, settle
from dev.fuzz.sessions.slow import Slow
from tests.program.support.sharing import NETREV
from tests.support.interrupted_sessions import EXAMPLE, Disturbances, Events, Played, Weather

COMMANDS = ("history lock 0 all", "until gor 0 *", "reverse-continue", "goto 3")


def slow_and_interrupted(_weather: Weather[Slow], netrev: Slow) -> None:
    """Ctrl-C is pressed while netrev is slow."""
    netrev.while_stopped(pressed)


def slow_and_given_up(_weather: Weather[Slow], netrev: Slow) -> None:
    """Ctrl-C is pressed twice while netrev is slow."""
    netrev.while_stopped(pressed, pressed)


def slow_and_killed(_weather: Weather[Slow], netrev: Slow) -> None:
    """netrev is slow, and then it is killed."""
    netrev.while_stopped(netrev.kill)


class EveryPoint(Disturbances[Slow]):
    def opened(self, weather: Weather[Slow]) -> Slow:
        return Slow(NETREV, str(EXAMPLE), weather.interrupts, weather.happens)

    def told_by(self, runs: Played, command: str) -> Events:
        return heard(lambda: runs.run(command))

    def settle(self) -> None:
        settle()


@pytest.fixture
def disturbances(monkeypatch: pytest.MonkeyPatch) -> EveryPoint:
    return EveryPoint(monkeypatch)


def test_a_slow_netrev_is_told_right(disturbances: EveryPoint) -> None:
    with confined():
        given_up = disturbances.check(COMMANDS, (slow_and_interrupted, slow_and_given_up, slow_and_killed))
    assert given_up > 20  # (on a busy machine, two Ctrl-C may arrive as one)
