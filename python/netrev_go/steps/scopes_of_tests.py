"""The sockets and goroutines of a test in a log. The sockets are the test's own, its subtests', and other sockets that
were used while it ran; the goroutines exclude other tests' goroutines."""

from __future__ import annotations

from collections.abc import Iterable, Mapping

from netrev_go.log.goroutines import Goroutines
from netrev_go.log.points import Log, PointKind
from netrev_go.log.sockets import LoggedSocket, Owned
from netrev_go.log.tests_in_log import Ran

MADE = 1  # in a READY point: the goroutine started another one, instead of waking it


class Makers:
    """Which goroutine started each goroutine, and thus to which test a goroutine belongs."""

    def __init__(self, made_by: Mapping[int, int], tests: Iterable[Ran]) -> None:
        self.made_by = made_by
        self.tests = {test.goroutine: test for test in tests}

    def test_of(self, goroutine: int) -> Ran | None:
        """The innermost test that the goroutine belongs to; None if no test started it, or if its start isn't in the
        log."""
        passed = set()
        while goroutine not in self.tests:
            if goroutine not in self.made_by or goroutine in passed:  # (passed: only in a damaged log)
                return None
            passed.add(goroutine)
            goroutine = self.made_by[goroutine]
        return self.tests[goroutine]


def sockets_of(test: Ran, log: Log, found: Owned, tests: list[Ran]) -> list[LoggedSocket]:
    """The sockets of one test."""
    made_by = {point.a: point.goroutine for point in log.points if point.kind == PointKind.READY and point.b == MADE}
    makers = Makers(made_by, tests)
    opened = {socket: makers.test_of(socket.opener) for socket in found.sockets}
    end = test.ended if test.ended is not None else log.points[-1].number + 1 if log.points else 0
    used = {socket for point, socket in found.points if test.began <= point.number < end}

    def is_of(socket: LoggedSocket) -> bool:
        owner = opened[socket]
        if owner is not None and (owner is test or owner.is_below(test)):
            return True
        return socket in used and (owner is None or test.is_below(owner))

    return [socket for socket in found.sockets if is_of(socket)]


def goroutines_of(test: Ran, found: Goroutines, tests: list[Ran], numbers: Mapping[int, int]) -> Goroutines:
    """The actions of goroutines while one test ran, without the goroutines of other tests, which may keep running after
    their test has ended. The goroutines with numbers in the recording are kept."""
    makers = Makers({goroutine: born.maker for goroutine, born in found.born.items()}, tests)

    def is_of_another(goroutine: int) -> bool:
        owner = makers.test_of(goroutine)
        is_related = owner is None or owner is test or owner.is_below(test) or test.is_below(owner)
        return not is_related and goroutine not in numbers

    during = found.during(test.began_at, test.ended_at)
    others = {goroutine for goroutine in during.goroutines() if is_of_another(goroutine)}
    return during.without(others)
