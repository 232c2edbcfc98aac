"""The rules of `info suspects` at their boundaries: for each limit, the greatest allowed value and one more. Other
tests make the same steps with another goroutine, on another descriptor, with a deadline, or in another use of a
descriptor."""

from typing import Any, NamedTuple

import pytest

from netrev.findings.suspects.ranking import suspects_of
from netrev.findings.suspects.rules_of_calls.left_open import SINCE
from netrev.findings.suspects.suspect import HANGS, STILL_THERE, TIMED_OUT, Suspect, Weight
from netrev.run.changes import changes_of
from tests.failed_calls.test_causes import (
    CLOSES,
    GETS,
    LATE,
    PARTLY,
    SETS,
    TWO_ENDS,
    UNLOCKS,
    asks,
    rules_of,
    with_lines,
)

from .test_suspects import (  # fmt: skip
    BACK,
    BOTH,
    COMES,
    LOOKS,
    OPEN,
    PAIRS,
    PARK,
    PASSES,
    PAST,
    QUEUED,
    READ,
    USED_AGAIN,
    Steps,
    recording_of,
    shown,
)

SECOND: Steps = [["sockopen", 16, 16], ["pollopen", 0, 1]]
READS: Steps = [["sysread", 1, 0, 1]]
HOLDS: Steps = [["incref", 1, 0]]
ENDS: Steps = [["pollreset", 1, 0, "w"]]


def ticks(count: int, clock: int = 0) -> Steps:
    return [["tick", clock]] * count


def pauses(g: int, length: int, count: int) -> Steps:
    """`count` pauses of `length` steps, each of which ends with a read."""
    return [*ticks(length - 1), ["sysread", g, 0, 1]] * count


def owes(ended: int, length: int) -> Steps:
    """Releases that goroutine 0 owed for `length` steps."""
    takes: Steps = [["rwlock", 0, 0, "r"], ["rwlock", 1, 0, "r"], ["rwunlock", 0, 0, "r"]]
    gets: Steps = [["acquire", 1], ["rwlock", 1, 0, "r"], ["rwunlock", 1, 0, "r"]]
    return [*takes, *ticks(length - 1), ["release", 0], *gets] * ended


def by(g: int, steps: Steps) -> Steps:
    """These steps, made by another goroutine."""
    return [[kind, g, *rest] for kind, _, *rest in steps]


def sets(g: int, mode: str, time: int, d: int = 0) -> list[Any]:
    return ["setdeadline", g, d, mode, time]


LEAKED, LOCK, RELEASE, EVICT = "leaked reference", "lock held", "missed release", "close without evict"
NO_EVENT, STALE, LOST = "no event", "stale event", "lost wake-up"
BEHIND, TAKEN_BACK, WRITE = "deadline left behind", "deadline taken back too soon", "write after CloseWrite"
ERROR = "error event on a reused descriptor"

# Longest pauses and holds: the first row of each pair is exactly what is allowed, and the second is one step longer.
LIMITS: dict[str, tuple[Steps, str]] = {
    "a pause of 10": (HOLDS + ticks(10), ""), "a pause of 11": (HOLDS + ticks(11), LEAKED),
    "twice the longest of three": (HOLDS + pauses(1, 6, 3) + ticks(12), ""),
    "more than twice the longest of three": (HOLDS + pauses(1, 6, 3) + ticks(13), LEAKED),
    "two pauses that ended say nothing": (HOLDS + pauses(1, 6, 2) + ticks(10), ""),
    "two pauses that ended say nothing, one more": (HOLDS + pauses(1, 6, 2) + ticks(11), LEAKED),
    "the pauses of another goroutine": (
        [["incref", 0, 0], *pauses(0, 6, 3), ["decref", 0, 0], *HOLDS, *ticks(12)], "",
    ),
    "the pauses of another goroutine, one more": (
        [["incref", 0, 0], *pauses(0, 6, 3), ["decref", 0, 0], *HOLDS, *ticks(13)], LEAKED,
    ),
    "the pauses of a goroutine without a reference": (pauses(0, 6, 3) + HOLDS + ticks(10), ""),
    "the pauses of a goroutine without a reference, one more": (pauses(0, 6, 3) + HOLDS + ticks(11), LEAKED),
    "a hold of 40": (HOLDS + READS * 40, ""), "a hold of 41": (HOLDS + READS * 41, LEAKED),
    "twice the longest hold": (
        [["incref", 0, 0], *by(0, READS * 24), ["decref", 0, 0], *HOLDS, *READS * 50], "",
    ),
    "more than twice the longest hold": (
        [["incref", 0, 0], *by(0, READS * 24), ["decref", 0, 0], *HOLDS, *READS * 51], LEAKED,
    ),
    "a long hold of another kind": (
        [["rwlock", 0, 0, "r"], *by(0, READS * 24), ["rwunlock", 0, 0, "r"], *HOLDS, *READS * 40], "",
    ),
    "a long hold of another kind, one more": (
        [["rwlock", 0, 0, "r"], *by(0, READS * 24), ["rwunlock", 0, 0, "r"], *HOLDS, *READS * 41], LEAKED,
    ),
    "a lock whose holder goes on": ([["rwlock", 1, 0, "r"], *READS * 60], ""),
    "a holder that is gone": (HOLDS + [["exit", 1]], LEAKED),
    "a goroutine that is gone and gave it back": (HOLDS + [["decref", 1, 0], ["exit", 1]], ""),
    "a close that has paused for 10": ([["increfclose", 1, 0], *ticks(10)], ""),
    "a close that has paused for 11": ([["increfclose", 1, 0], *ticks(11)], EVICT),
    "a close that goes on for 40": ([["increfclose", 1, 0], *READS * 40], ""),
    "a close that goes on for 41": ([["increfclose", 1, 0], *READS * 41], EVICT),
    "a close that has evicted": ([["increfclose", 1, 0], ["evict", 1, 0], *READS * 39], ""),
    "a close that has evicted, one more": ([["increfclose", 1, 0], ["evict", 1, 0], *READS * 40], LEAKED),
    "a close whose goroutine is gone": ([["increfclose", 1, 0], ["exit", 1]], LEAKED),
    "a lock's holder that has paused for 10": (QUEUED + ticks(8), ""),
    "a lock's holder that has paused for 11": (QUEUED + ticks(9), LOCK),
    "a lock's holder that is gone": (QUEUED + [["exit", 0]], LOCK),
    "a lock's holder that is parked": (QUEUED[:1] + by(0, PARK) + QUEUED[1:] + ticks(60), ""),
    "a lock of the other side": ([["rwlock", 0, 0, "w"], *QUEUED, *by(0, READS), *ticks(8)], ""),
    "a release that is owed for 10": (QUEUED + [["rwunlock", 0, 0, "r"], *ticks(10)], ""),
    "a release that is owed for 11": (QUEUED + [["rwunlock", 0, 0, "r"], *ticks(11)], RELEASE),
    "twice the longest release of three": (owes(3, 8) + owes(1, 1)[:3] + ticks(16), ""),
    "more than twice the longest release of three": (owes(3, 8) + owes(1, 1)[:3] + ticks(17), RELEASE),
    "two releases say nothing": (owes(2, 8) + owes(1, 1)[:3] + ticks(10), ""),
    "two releases say nothing, one more": (owes(2, 8) + owes(1, 1)[:3] + ticks(11), RELEASE),
}  # fmt: skip


@pytest.mark.parametrize("steps, rule", LIMITS.values(), ids=LIMITS)
def test_a_limit_is_what_it_allows(steps: Steps, rule: str) -> None:
    assert [suspect.rule for suspect in shown(recording_of(OPEN + steps))] == ([rule] if rule else [])


# Steps that are nearly a bug: by another goroutine, at another descriptor or side, in another order, or in an earlier
# use of the descriptor.
PAST_OF_BOTH: Steps = [["incref", 0, 0], sets(0, "rw", -1)]
NEAR: dict[str, tuple[Steps, str]] = {
    "an event of the other side": (READ + PARK + COMES[:1] + [["pollevent", 0, 1, "w", 0]], NO_EVENT),
    "an event of another descriptor": (SECOND + READ + PARK + COMES[:1] + [["pollevent", 1, 1, "r", 0]], NO_EVENT),
    "an event": (READ + PARK + COMES, ""),
    "the peer's close without an event": (READ + PARK + [["peerclose", 0]], NO_EVENT),
    "the peer's close with one": (READ + PARK + [["peerclose", 0], *COMES[1:]], ""),
    "bytes at another socket": (SECOND + READ + PARK + [["arrive", 1, "00"]], ""),
    "a stale event before what came": (READ + PARK + [["pollevent", 0, 7, "r", 0], *COMES[:1]], NO_EVENT),
    "a stale event after what came": (READ + PARK + [*COMES[:1], ["pollevent", 0, 7, "r", 0]], STALE),
    "a stale event of another descriptor": (
        SECOND + READ + PARK + [*COMES[:1], ["pollevent", 1, 7, "r", 0]], NO_EVENT,
    ),
    "a wait for writing": ([["waitbegin", 1, 0, "w"], *PARK[1:]] + COMES[:1], ""),
    "an event that another goroutine threw away": (COMES + [["pollreset", 0, 0, "r"], *PARK], LOST),
    "an event that is thrown away, and a read": (COMES + READ + PARK, ""),
    "a deadline of one side, set twice": ([sets(0, "r", 5), sets(0, "r", 6), sets(0, "w", 60), *PASSES[1:]], BEHIND),
    "a deadline of one side, set once": ([sets(0, "r", 5), sets(0, "w", 60), *PASSES[1:]], ""),
    "the other side set by another goroutine": (
        [sets(0, "r", 5), sets(0, "r", 6), sets(1, "w", 60), *PASSES[1:]], "",
    ),
    "set twice by two goroutines": ([sets(1, "r", 5), sets(0, "r", 6), sets(0, "w", 60), *PASSES[1:]], ""),
    "the other side set before too": (
        [sets(0, "w", 50), sets(0, "r", 5), sets(0, "r", 6), sets(0, "w", 60), *PASSES[1:]], "",
    ),
    "the other side set before alone": ([sets(0, "w", 60), sets(0, "r", 5), sets(0, "r", 6), *PASSES[1:]], ""),
    "the other side of another descriptor": (
        [*SECOND, sets(0, "r", 5), sets(0, "r", 6), sets(0, "w", 60, 1), *PASSES[1:]], "",
    ),
    "set once in this use of the descriptor": (
        [sets(0, "r", 500), *USED_AGAIN, sets(0, "r", 6), sets(0, "w", 60), *PASSES[1:]], "",
    ),
    "both sides moved after both": ([*BOTH, sets(0, "w", 6), *PASSES[1:]], ""),
    "a deadline in the past that is set anew": (READ + PARK + PAST + [sets(0, "r", -2), *BACK[1:], *LOOKS], ""),
    "a deadline that is taken back by another goroutine": (
        [["spawn"], *READ, *PARK, *PAST, sets(2, "r", 0), *LOOKS], TAKEN_BACK,
    ),
    "a deadline that is moved": (READ + PARK + PAST + [sets(0, "r", 50), *LOOKS], TAKEN_BACK),
    "the other side's that is taken back": (READ + PARK + [*PAST_OF_BOTH, sets(0, "w", 0), *LOOKS], ""),
    "one that is taken back between the swap and the check": (
        READ + PARK + PAST + LOOKS[:1] + BACK[:1] + LOOKS[1:], TAKEN_BACK,
    ),
    "one that is taken back after the check": (READ + PARK + PAST + LOOKS + BACK, ""),
    "a write at another socket": (SECOND + [["closewrite", 0, 0], ["syswrite", 1, 1, "00"]], ""),
    "a write by the same goroutine": ([["closewrite", 1, 0], ["syswrite", 1, 0, "00"]], WRITE),
    "an error event of the first use": ([["pollevent", 0, 1, "rw", 1]], ""),
    "an error event before the use": ([["pollevent", 0, 1, "rw", 1], *USED_AGAIN], ""),
    "an error event of this use": (USED_AGAIN + [["pollevent", 0, 2, "w", 1]], ERROR),
}  # fmt: skip


@pytest.mark.parametrize("steps, rule", NEAR.values(), ids=NEAR)
def test_what_is_nearly_a_bug_is_none(steps: Steps, rule: str) -> None:
    assert [suspect.rule for suspect in shown(recording_of(OPEN + steps))] == ([rule] if rule else [])


class Row(NamedTuple):
    """Steps with only one suspect, which has this weight and this text."""

    steps: Steps
    weight: int
    says: str


TIMES_OUT: Steps = [["tick", 9], ["pop"], ["pop"], ["fire", 0], ["fire", 0]]
WAITS: Steps = COMES[1:] + PARK[:2] + PARK
CLOSE_OWES: Steps = [
    ["spawn"], ["spawn"], ["rwlock", 0, 0, "r"], ["rwlock", 0, 0, "w"], ["rwlock", 1, 0, "r"], ["acquire", 1],
    ["rwlock", 2, 0, "w"], ["acquire", 2], ["increfclose", 3, 0],
]  # fmt: skip
WEIGHTS: dict[str, Row] = {
    "what came three steps ago": Row(READ + PARK + COMES[:1] + ticks(3), Weight.SHOWN, "2 bytes unread since step 11"),
    "what came four steps ago": Row(READ + PARK + COMES[:1] + ticks(4), Weight.LIKELY, "2 bytes unread since step 11"),
    "a deadline that no call ended by": Row(
        BOTH + PASSES, Weight.POSSIBLE, "is of step 5, which set both; step 6 by goroutine 0 took back the read deadline alone"
    ),
    "a deadline that a call ended by": Row(
        BOTH + PASSES + ENDS, Weight.POSSIBLE + TIMED_OUT, "; step 11 by goroutine 1 ends with that timeout"
    ),
    "a deadline that was moved": Row(
        BOTH[:2] + [sets(0, "r", 90)] + PASSES, Weight.POSSIBLE, "step 6 by goroutine 0 moved the read deadline alone"
    ),
    "a timeout of another descriptor": Row(
        SECOND + BOTH + [sets(0, "r", 5, 1), *TIMES_OUT, ["pollreset", 1, 1, "r"]], Weight.POSSIBLE, "took back"
    ),
    "a timeout of the other side": Row(
        BOTH[:2] + [sets(0, "r", 4), *TIMES_OUT, ["pollreset", 1, 0, "r"]], Weight.POSSIBLE, "moved"
    ),
    "a wake-up that is lost without a deadline": Row(
        WAITS, Weight.DOUBTFUL + HANGS, "hangs: parked since step 10 without a deadline"
    ),
    "one with the other side's deadline": Row(
        [sets(0, "w", 50), *WAITS], Weight.DOUBTFUL + HANGS, "hangs: parked since step 11 without a deadline"
    ),
    "one with a deadline": Row(
        [sets(0, "r", 50), *WAITS], Weight.DOUBTFUL + STILL_THERE, "goroutine 1 is parked there since step 11"
    ),
    "one with a deadline, and bytes are unread": Row(
        [sets(0, "r", 50), *COMES, *PARK[:2], *PARK], Weight.POSSIBLE + HANGS, "hangs: parked since step 12, 2 bytes unread"
    ),
    "a release that somebody sleeps for": Row(
        QUEUED + [["rwunlock", 0, 0, "r"], *ticks(11)], Weight.CERTAIN, "1 goroutine asleep in the queue: 1"
    ),
    "a release that nobody sleeps for": Row(
        QUEUED[:2] + [["rwunlock", 0, 0, "r"], *ticks(11)], Weight.POSSIBLE, "owes 1 release on socket 0 since step 6"
    ),
    "releases of both sides": Row(
        CLOSE_OWES + ticks(10) + by(0, READS), Weight.CERTAIN, "owes 2 releases on socket 0 since step 12, a pause of 11 steps; 2 goroutines asleep"
    ),
    "a write and one more": Row(
        [["closewrite", 0, 0], *[["syswrite", 1, 0, "00"]] * 2], Weight.LIKELY, "closed its write side at step 4; 1 more like it"
    ),
    "a reference of an open socket": Row(HOLDS + ticks(11), Weight.LIKELY, "since step 4 (incref) and has done nothing since step 4"),
    "a reference of a closed socket": Row(
        HOLDS + [*USED_AGAIN[:3], *ticks(11)], Weight.STRONG, "; goroutine 0 closed it at step 5, and it can't be freed"
    ),
    "a reference whose holder is gone": Row(HOLDS + [["exit", 1]], Weight.STRONG, "since step 4 (incref) and is gone"),
    "one of a closed socket whose holder is gone": Row(
        HOLDS + [["exit", 1], *USED_AGAIN[:3]], Weight.CERTAIN, "and is gone; goroutine 0 closed it at step 6"
    ),
}  # fmt: skip


@pytest.mark.parametrize("steps, weight, says", WEIGHTS.values(), ids=WEIGHTS)
def test_a_weight_says_what_came_of_it(steps: Steps, weight: int, says: str) -> None:
    found: list[Suspect] = suspects_of(recording_of(OPEN + steps)).suspects
    assert [(suspect.weight, says in suspect.sentence()) for suspect in found] == [(weight, True)], [
        suspect.sentence() for suspect in found
    ]
    assert ("ends with that timeout" in found[0].sentence()) == ("ends with that timeout" in says)


class Whole(NamedTuple):
    """All parts of a suspect except its sentence. Evidence is written `position cell = value`."""

    step: int
    weight: int
    subject: tuple[object, ...]
    evidence: list[str]
    looks: list[str]
    steps: list[int]


WHOLE: dict[str, Whole] = {
    LOST: Whole(7, 90, (1, 0, 0), ["6 rg 0 = ready", "7 rg 0 = nil"], ["goto 6", "history rg 0"], [5, 7, 8]),
    NO_EVENT: Whole(11, 60, (1, 0, 0), ["23 gor 1 = parked 0 r", "23 in 0 = 2"], ["goto 11", "history rg 0"], [11, 10]),
    STALE: Whole(
        12, 95, (1, 0, 0), ["12 gor 1 = parked 0 r", "12 fdseq 0 = 1"], ["goto 12", "history fdseq 0"], [11, 12]
    ),
    TAKEN_BACK: Whole(
        13, 90, (1, 0, 0), ["12 gor 1 = swapping 0 r", "12 rd 0 = None"], ["goto 12", "history info 0"], [12, 13]
    ),
    BEHIND: Whole(10, 40, (None, 0, 0), ["10 wd 0 = -1", "9 wd 0 = 5"], ["goto 10", "history wd 0"], [5, 6, 10]),
    RELEASE: Whole(7, 95, (0, None, 0), ["19 gor 0 = owing 0 1 0"], ["goto 7", "history gor 0"], [7]),
    LEAKED: Whole(4, 60, (1, None, 0), ["16 gor 1 = idle", "16 lock 0 = 8"], ["goto 16", "info holders 0"], [4]),
    LOCK: Whole(
        4, 95, (0, None, 0), ["18 gor 0 = idle", "18 gor 1 = queued 0 r"], ["goto 18", "info holders 0"], [4, 6]
    ),
    EVICT: Whole(4, 85, (0, None, 0), ["16 gor 0 = idle", "16 lock 0 = 9"], ["goto 16", "info holders 0"], [4, 4]),
    WRITE: Whole(5, 60, (1, None, 0), ["3 shut 0 = 0", "4 shut 0 = 1"], ["goto 4", "history shut 0"], [4, 5]),
    ERROR: Whole(10, 30, (None, 0, 1), ["10 fdseq 0 = 2"], ["goto 9", "history info 0", "history fdseq 0"], [9, 10]),
}


@pytest.mark.parametrize("rule", PAIRS)
def test_a_suspect_says_where_to_look(rule: str) -> None:
    recording = recording_of(PAIRS[rule].bad)
    (suspect,) = suspects_of(recording).suspects
    evidence = [f"{position} {cell} = {value}" for position, cell, value in suspect.evidence]
    assert WHOLE[rule] == (suspect.step, suspect.weight, suspect.subject[1:], evidence, suspect.looks, suspect.steps)
    assert all(
        changes_of(recording).value(cell, at) == value for at, cell, value in suspect.evidence if value is not None
    )


# ---- the rules of calls

AGAIN, OPEN_END, READERS, THROWN = "timeout again and again", "left open", "two readers", "bytes thrown away"
LATE_WRITE: Steps = [["rwlock", 1, 0, "w"], ["pollreset", 1, 0, "w"], ["rwunlock", 1, 0, "w"]]
SETS_ANEW: Steps = [["incref", 0, 0], sets(0, "r", 5), ["decref", 0, 0], ["tick", 14], ["pop"], ["fire", 0]]
DUE: Steps = [["tick", 9], ["pop"], ["fire", 0]]
LATE_BY_OTHER: Steps = by(0, LATE)
TIMED: Steps = SETS + DUE
OF_CALLS: dict[str, tuple[Steps, list[str]]] = {
    "19 timeouts": (OPEN + TIMED + LATE * 19, []), "20 timeouts": (OPEN + TIMED + LATE * 20, [AGAIN]),
    "45 timeouts": (OPEN + TIMED + LATE * 45, [AGAIN]),
    "20 timeouts of two goroutines": (OPEN + TIMED + LATE * 19 + LATE_BY_OTHER, []),
    "20 timeouts with another goroutine's between": (OPEN + TIMED + LATE * 19 + LATE_BY_OTHER + LATE, []),
    "20 timeouts by two deadlines": (OPEN + TIMED + LATE * 10 + SETS_ANEW + LATE * 10, []),
    "20 timeouts by the second deadline": (OPEN + TIMED + LATE * 10 + SETS_ANEW + LATE * 20, [AGAIN]),
    "20 timeouts of writing": (
        OPEN + [["incref", 0, 0], sets(0, "w", 5), ["decref", 0, 0]] + DUE + LATE_WRITE * 20, [AGAIN],
    ),
    "19 timeouts of writing": (
        OPEN + [["incref", 0, 0], sets(0, "w", 5), ["decref", 0, 0]] + DUE + LATE_WRITE * 19, [],
    ),
    "19 timeouts of each side": (
        OPEN + [["incref", 0, 0], sets(0, "rw", 5), ["decref", 0, 0]] + DUE + (LATE + LATE_WRITE) * 19, [],
    ),
    "bytes asked for anew": (PARTLY + asks(16), [THROWN]), "the rest asked for": (PARTLY + asks(14), []),
    "other bytes asked for": (PARTLY + asks(15), []),
    "bytes asked for anew by another goroutine": (PARTLY + [asks(16)[0], *by(0, asks(16)[1:])], []),
}  # fmt: skip


@pytest.mark.parametrize("steps, rules", OF_CALLS.values(), ids=OF_CALLS)
def test_a_rule_of_calls_at_its_boundary(steps: Steps, rules: list[str]) -> None:
    assert rules_of(with_lines(steps)) == rules


@pytest.mark.parametrize("count", range(SINCE - 4, SINCE + 4))
def test_an_end_is_left_open_for_50_steps(count: int) -> None:
    """The 50 steps are counted from the step that began to close the other end."""
    steps = TWO_ENDS + GETS + UNLOCKS + CLOSES + ticks(count)
    closed = steps.index(CLOSES[0]) + 1
    assert rules_of(with_lines(steps)) == ([OPEN_END] if len(steps) - closed >= SINCE else [])
