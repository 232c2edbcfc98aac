"""The naive implementation of `netrev suspects` (netrev/model/suspects.py), tested by a table of small recordings: each
row is at the boundary of a definition."""

import random

import pytest

from dev.fuzz.generators.random_steps import Author
from netrev.machine.machine import StepRefusedError, World
from netrev.machine.observer import Observer
from netrev.machine.steps import apply
from netrev.model.suspects import (
    ASLEEP,
    HELD_REFERENCE,
    HUNTS,
    LOST_WAKE_UP,
    PASSED_DEADLINE,
    TAKEN_BACK,
    TIMEOUT,
    suspects,
)
from netrev.text.contents import Contents, Limits, Step
from netrev.text.writer import write_plain

THEMES = (
    "waitbegin pollevent pollreset", "waitbegin pollevent sysread syswrite", "waitbegin pollevent arrive peerclose",
    "waitbegin syswrite drain closewrite", "waitbegin pollevent pollreset evict pollclose pollopen",
    "incref rwlock increfclose", "incref rwlock increfclose decref rwunlock exit spawn", "setdeadline tick pop fire",
    "setdeadline tick pop fire evict pollclose pollopen",
)  # fmt: skip
LIMITS = Limits(gor=4, sock=2, desc=2, buf=16)
Steps = list[Step]
Rows = dict[str, tuple[Steps, list[str]]]  # by name: steps, and the lines of one hunt

OPEN: Steps = [("sockopen", 4, 4), ("pollopen", 0, 0)]  # steps 1 and 2
EVENT: Steps = [("pollevent", 0, 1, "r", 0)]
RESET: Steps = [("pollreset", 0, 0, "r")]
TRY: Steps = [("sysread", 0, 0, 4)]
CLOSE: Steps = [("evict", 0, 0), ("pollclose", 0, 0)]
EVENT_ANEW: Steps = [("pollevent", 0, 2, "r", 0)]  # in the descriptor's second use


def park(g: int = 0, side: str = "r", d: int = 0) -> Steps:
    return [("waitbegin", g, d, side), ("blockarm", g), ("blockcheck", g), ("parkcommit", g)]


LOST: Rows = {
    "an event is thrown away by pollreset": (
        OPEN + EVENT + RESET + park(), ["at 8 lost-wakeup gor 0 desc 0 r event 3 taken 4 by 0"],
    ),
    "an event is thrown away, and a try is answered EAGAIN after it": (OPEN + EVENT + RESET + TRY + park(), []),
    "a try is answered EAGAIN after the event, before that is thrown away": (OPEN + EVENT + TRY + RESET + park(), []),
    "the try comes before the event": (
        OPEN + TRY + EVENT + RESET + park(), ["at 9 lost-wakeup gor 0 desc 0 r event 4 taken 5 by 0"],
    ),
    "the try reads a byte": (
        OPEN + [("arrive", 0, b"a")] + EVENT + RESET + TRY + park(),
        ["at 10 lost-wakeup gor 0 desc 0 r event 4 taken 5 by 0"],
    ),
    "the try reads the end": (
        OPEN + [("peerclose", 0)] + EVENT + RESET + TRY + park(),
        ["at 10 lost-wakeup gor 0 desc 0 r event 4 taken 5 by 0"],
    ),
    "the try is of another socket": (
        OPEN + [("sockopen", 4, 4)] + EVENT + RESET + [("sysread", 0, 1, 4)] + park(),
        ["at 10 lost-wakeup gor 0 desc 0 r event 4 taken 5 by 0"],
    ),
    "the try is of the other side": (
        OPEN + EVENT + RESET + [("syswrite", 0, 0, b"abcd"), ("syswrite", 0, 0, b"e")] + park(),
        ["at 10 lost-wakeup gor 0 desc 0 r event 3 taken 4 by 0"],
    ),
    "the try is another goroutine's": (
        OPEN + [("spawn",)] + EVENT + RESET + [("sysread", 1, 0, 4)] + park(), [],
    ),
    "the event comes while it is parked": (OPEN + park() + EVENT, []),
    "the event comes while it is parked, it is woken and parks again": (
        OPEN + park() + EVENT + [("blockswap", 0)] + park(),
        ["at 12 lost-wakeup gor 0 desc 0 r event 7 taken 8 by 0"],
    ),
    "no event": (OPEN + RESET + park(), []), "it isn't parked yet": (OPEN + EVENT + RESET + park()[:3], []),
    "blockarm takes the readiness": (
        OPEN + EVENT + park()[:2] + park(), ["at 9 lost-wakeup gor 0 desc 0 r event 3 taken 5 by 0"],
    ),
    "another goroutine takes the readiness": (
        OPEN + [("spawn",)] + EVENT + [("pollreset", 1, 0, "r")] + park(),
        ["at 9 lost-wakeup gor 0 desc 0 r event 4 taken 5 by 1"],
    ),
    "two events, each thrown away": (
        OPEN + EVENT + RESET + EVENT + RESET + park(), ["at 10 lost-wakeup gor 0 desc 0 r event 5 taken 6 by 0"],
    ),
    "two events, and the try is between them": (
        OPEN + EVENT + TRY + EVENT + RESET + park(), ["at 10 lost-wakeup gor 0 desc 0 r event 5 taken 6 by 0"],
    ),
    "two events are thrown away at once": (
        OPEN + EVENT + EVENT + RESET + park(), ["at 9 lost-wakeup gor 0 desc 0 r event 4 taken 5 by 0"],
    ),
    "an event of the other side": (OPEN + [("pollevent", 0, 1, "w", 0)] + RESET + park(), []),
    "a stale event": (OPEN + [("pollevent", 0, 2, "r", 0)] + RESET + park(), []),
    "a stale event after the one that is thrown away": (
        OPEN + EVENT + RESET + [("pollevent", 0, 2, "r", 0)] + park(),
        ["at 9 lost-wakeup gor 0 desc 0 r event 3 taken 4 by 0"],
    ),
    "an event of both sides, both are thrown away, and both are parked": (
        OPEN
        + [("spawn",), ("pollevent", 0, 1, "rw", 0), ("pollreset", 0, 0, "r"), ("pollreset", 1, 0, "w")]
        + park()
        + park(1, "w"),
        [
            "at 14 lost-wakeup gor 0 desc 0 r event 4 taken 5 by 0",
            "at 14 lost-wakeup gor 1 desc 0 w event 4 taken 6 by 1",
        ],
    ),
    "an event of both sides, and only the read is answered EAGAIN": (
        OPEN
        + [("spawn",), ("pollevent", 0, 1, "rw", 0), ("pollreset", 0, 0, "r"), ("pollreset", 1, 0, "w")]
        + TRY
        + park()
        + park(1, "w"), ["at 15 lost-wakeup gor 1 desc 0 w event 4 taken 6 by 1"],
    ),
    "an event for writing, and the write is answered EAGAIN": (
        OPEN
        + [("syswrite", 0, 0, b"abcd"), ("pollevent", 0, 1, "w", 0), ("pollreset", 0, 0, "w"), ("syswrite", 0, 0, b"e")]
        + park(0, "w"), [],
    ),
    "the descriptor is opened anew, and pollopen takes the readiness": (
        OPEN + EVENT + CLOSE + [("pollopen", 0, 0)] + park(), [],
    ),
    "the descriptor is opened anew after the readiness was thrown away": (
        OPEN + EVENT + RESET + CLOSE + [("pollopen", 0, 0)] + park(), [],
    ),
    "the event comes after the descriptor was opened anew": (
        OPEN + CLOSE + [("pollopen", 0, 0)] + EVENT_ANEW + RESET + park(),
        ["at 11 lost-wakeup gor 0 desc 0 r event 6 taken 7 by 0"],
    ),
    "the socket of a reused descriptor is the one that it was opened for last": (
        OPEN + CLOSE + [("sockopen", 4, 4), ("pollopen", 0, 1)] + EVENT_ANEW + RESET + [("sysread", 0, 1, 4)] + park(),
        [],
    ),
    "a try of the socket that a reused descriptor had before": (
        OPEN + CLOSE + [("sockopen", 4, 4), ("pollopen", 0, 1)] + EVENT_ANEW + RESET + TRY + park(),
        ["at 13 lost-wakeup gor 0 desc 0 r event 7 taken 8 by 0"],
    ),
    "two descriptors, in their order": (
        OPEN
        + [("spawn",), ("sockopen", 4, 4), ("pollopen", 0, 1)]
        + [("pollevent", 1, 1, "r", 0), ("pollreset", 0, 1, "r")]
        + park(0, "r", 1)
        + EVENT
        + [("pollreset", 1, 0, "r")]
        + park(1),
        [
            "at 17 lost-wakeup gor 1 desc 0 r event 12 taken 13 by 1",
            "at 17 lost-wakeup gor 0 desc 1 r event 6 taken 7 by 0",
        ],
    ),
}  # fmt: skip

FILL: Steps = [("syswrite", 0, 0, b"abcd")]
BYTE: Steps = [("arrive", 0, b"a")]
REUSED: Steps = [*CLOSE, ("sockopen", 4, 4), ("pollopen", 0, 1)]  # the descriptor is reused for the next socket
SLEEPS: Rows = {
    "no byte came": (OPEN + park(), []),
    "a byte came before it parked": (OPEN + BYTE + park(), ["at 7 asleep gor 0 desc 0 r because bytes"]),
    "a byte came after it parked": (OPEN + park() + BYTE, ["at 7 asleep gor 0 desc 0 r because bytes"]),
    "the byte was read": (OPEN + BYTE + TRY + park(), []),
    "one of two bytes was read": (
        OPEN + [("arrive", 0, b"ab"), ("sysread", 0, 0, 1)] + park(), ["at 8 asleep gor 0 desc 0 r because bytes"],
    ),
    "an event came for the byte, and woke it": (OPEN + park() + BYTE + EVENT, []),
    "an event came for the byte, and was thrown away": (
        OPEN + BYTE + EVENT + RESET + park(), ["at 9 asleep gor 0 desc 0 r because bytes"],
    ),
    "it isn't parked yet": (OPEN + BYTE + park()[:3], []),
    "the bytes are of another socket": (OPEN + [("sockopen", 4, 4), ("arrive", 1, b"a")] + park(), []),
    "the peer closed before it parked": (
        OPEN + [("peerclose", 0)] + park(), ["at 7 asleep gor 0 desc 0 r because end"],
    ),
    "the peer closed after it parked": (
        OPEN + park() + [("peerclose", 0)], ["at 7 asleep gor 0 desc 0 r because end"],
    ),
    "the peer of another socket closed": (OPEN + [("sockopen", 4, 4), ("peerclose", 1)] + park(), []),
    "a byte came, and the peer closed": (
        OPEN + BYTE + [("peerclose", 0)] + park(), ["at 8 asleep gor 0 desc 0 r because bytes"],
    ),
    "the buffer is full": (OPEN + FILL + park(0, "w"), []),
    "there is room for one byte": (
        OPEN + [("syswrite", 0, 0, b"abc")] + park(0, "w"), ["at 7 asleep gor 0 desc 0 w because room"],
    ),
    "the buffer was full, and the peer took a byte": (
        OPEN + FILL + park(0, "w") + [("drain", 0, 1)], ["at 8 asleep gor 0 desc 0 w because room"],
    ),
    "the room is that to write": (
        [("sockopen", 4, 2), ("pollopen", 0, 0), ("syswrite", 0, 0, b"ab")] + park(0, "w"), [],
    ),
    "the room isn't that to read": (
        [("sockopen", 2, 4), ("pollopen", 0, 0), ("syswrite", 0, 0, b"ab")] + park(0, "w"),
        ["at 7 asleep gor 0 desc 0 w because room"],
    ),
    "the peer closed, and the buffer is full": (OPEN + FILL + [("peerclose", 0)] + park(0, "w"), []),
    "the write side is shut": (
        OPEN + FILL + [("closewrite", 0, 0)] + park(0, "w"), ["at 8 asleep gor 0 desc 0 w because shut"],
    ),
    "the write side is shut, and there is room": (
        OPEN + [("closewrite", 0, 0)] + park(0, "w"), ["at 7 asleep gor 0 desc 0 w because shut"],
    ),
    "the write side is shut, and it reads": (OPEN + [("closewrite", 0, 0)] + park(), []),
    "an event reported an error, and named the other side": (
        OPEN + BYTE + park() + [("pollevent", 0, 1, "w", 1)], ["at 8 asleep gor 0 desc 0 r because error"],
    ),
    "an error is no reason to write": (OPEN + FILL + park(0, "w") + [("pollevent", 0, 1, "r", 1)], []),
    "the next event reported none": (
        OPEN + park() + [("pollevent", 0, 1, "w", 1), ("pollevent", 0, 1, "w", 0)], [],
    ),
    "a deadline passed, and woke it": (
        [("spawn",)] + OPEN + BYTE + park() + [("setdeadline", 1, 0, "r", -1)], [],
    ),
    "the descriptor was evicted, and it is woken": ([("spawn",)] + OPEN + BYTE + park() + [("evict", 1, 0)], []),
    "the descriptor is opened anew, for a socket without bytes": (OPEN + BYTE + REUSED + park(), []),
    "the descriptor is opened anew, for a socket whose peer hasn't closed": (
        OPEN + [("peerclose", 0)] + REUSED + park(), [],
    ),
    "the descriptor is opened anew, and bytes came": (
        OPEN + REUSED + [("arrive", 1, b"a")] + park(), ["at 11 asleep gor 0 desc 0 r because bytes"],
    ),
    "the descriptor is opened anew, and bytes came for the socket before": (OPEN + REUSED + BYTE + park(), []),
    "the descriptor is opened anew, for a socket with less room": (
        OPEN + CLOSE + [("sockopen", 4, 2), ("pollopen", 0, 1), ("syswrite", 0, 1, b"ab")] + park(0, "w"), [],
    ),
    "the error is of the descriptor's use before": (
        OPEN + [("pollevent", 0, 1, "w", 1)] + REUSED + park(), [],
    ),
    "two sides of two descriptors, in their order": (
        OPEN
        + [("spawn",), ("spawn",), ("sockopen", 4, 4), ("pollopen", 0, 1), ("arrive", 1, b"a")]
        + park(2, "r", 1)
        + park(1, "w")
        + park()
        + BYTE,
        [
            "at 20 asleep gor 0 desc 0 r because bytes", "at 20 asleep gor 1 desc 0 w because room",
            "at 20 asleep gor 2 desc 1 r because bytes",
        ],
    ),
}  # fmt: skip

SHUT: Steps = [("increfclose", 0, 0)]
TAKEN: Steps = [("spawn",), *OPEN, ("incref", 1, 0)]  # steps 1 to 4
HELD: Rows = {
    "another goroutine's reference of a closed socket, whose closer gave up its own": (
        TAKEN + SHUT + [("decref", 0, 0)], ["at 6 held-reference sock 0 gor 1 count 1 since 4"],
    ),
    "the socket isn't closed": (TAKEN, []),
    "the closer holds its own": (
        TAKEN + SHUT,
        [
            "at 5 held-reference sock 0 gor 0 count 1 since 5", "at 5 held-reference sock 0 gor 1 count 1 since 4",
        ],
    ),
    "given back before the close": (
        TAKEN + [("decref", 1, 0)] + SHUT, ["at 6 held-reference sock 0 gor 0 count 1 since 6"],
    ),
    "closed and freed": (TAKEN + SHUT + [("decref", 1, 0), ("decref", 0, 0)], []),
    "a reference that is refused isn't taken": (
        TAKEN + SHUT + [("incref", 1, 0), ("increfclose", 1, 0), ("decref", 0, 0)],
        ["at 8 held-reference sock 0 gor 1 count 1 since 4"],
    ),
    "two references, by a lock and without": (
        TAKEN + [("rwlock", 1, 0, "r")] + SHUT + [("decref", 0, 0)],
        ["at 7 held-reference sock 0 gor 1 count 2 since 5"],
    ),
    "a lock that was given back, and since when the last was taken": (
        TAKEN + [("rwlock", 1, 0, "r"), ("rwunlock", 1, 0, "r")] + SHUT + [("decref", 0, 0)],
        ["at 8 held-reference sock 0 gor 1 count 1 since 5"],
    ),
    "a lock that another has is waited for and not taken": (
        TAKEN
        + [
            ("rwlock", 1, 0, "r"), ("rwlock", 0, 0, "r"), ("spawn",), ("increfclose", 2, 0), ("release", 2),
            ("decref", 2, 0),
        ],
        ["at 10 held-reference sock 0 gor 1 count 2 since 5"],
    ),
    "a holder that is gone": (
        TAKEN + [("exit", 1)] + SHUT + [("decref", 0, 0)], ["at 7 held-reference sock 0 gor 1 count 1 since 4 gone"],
    ),
    "given back by another goroutine": (
        TAKEN + SHUT + [("decref", 0, 0), ("decref", 0, 0)], [],
    ),
    "given back by another goroutine, which holds none itself": (
        TAKEN + [("spawn",), ("incref", 1, 0), ("decref", 2, 0)] + SHUT + [("decref", 0, 0)],
        ["at 9 held-reference sock 0 gor 1 count 2 since 6"],
    ),
    "in the order of the goroutines' numbers": (
        [("spawn",), ("spawn",), *OPEN, ("incref", 2, 0), ("incref", 1, 0), ("incref", 2, 0)] + SHUT,
        [
            "at 8 held-reference sock 0 gor 0 count 1 since 8", "at 8 held-reference sock 0 gor 1 count 1 since 6",
            "at 8 held-reference sock 0 gor 2 count 2 since 7",
        ],
    ),
    "two sockets, of which the second one is closed first": (
        [*OPEN, ("sockopen", 4, 4), ("increfclose", 0, 1), ("increfclose", 0, 0)],
        [
            "at 5 held-reference sock 0 gor 0 count 1 since 5", "at 5 held-reference sock 1 gor 0 count 1 since 4",
        ],
    ),
}  # fmt: skip

PASS: Steps = [("tick", 9), ("pop",), ("fire", 0)]


def due(g: int, mode: str, time: int) -> Step:
    return ("setdeadline", g, 0, mode, time)


PASSED: Rows = {
    "a deadline for reading": (
        OPEN + [due(0, "r", 5)] + PASS, ["at 6 passed-deadline desc 0 r set 3 by 0 r"],
    ),
    "set for both and none moved: one timer serves both sides": (
        OPEN + [due(0, "rw", 5)] + PASS,
        ["at 6 passed-deadline desc 0 r set 3 by 0 rw", "at 6 passed-deadline desc 0 w set 3 by 0 rw"],
    ),
    "set for both, and the reading's is moved to a later time": (
        [("spawn",)] + OPEN + [due(0, "rw", 5), due(1, "r", 50)] + PASS,
        ["at 8 passed-deadline desc 0 w set 4 by 0 rw moved 5 by 1"],
    ),
    "set for both, and the reading's is taken back": (
        OPEN + [due(0, "rw", 5), due(0, "r", 0)] + PASS, ["at 7 passed-deadline desc 0 w set 3 by 0 rw moved 4 by 0"],
    ),
    "set for both, and the reading's is moved twice: the first of these": (
        [("spawn",)] + OPEN + [due(0, "rw", 5), due(1, "r", 50), due(0, "r", 60)] + PASS,
        ["at 9 passed-deadline desc 0 w set 4 by 0 rw moved 5 by 1"],
    ),
    "the reading's is moved before both are set": (
        OPEN + [due(0, "r", 50), due(0, "rw", 5)] + PASS,
        ["at 7 passed-deadline desc 0 r set 4 by 0 rw", "at 7 passed-deadline desc 0 w set 4 by 0 rw"],
    ),
    "the other side's is moved after it passed": (
        OPEN + [due(0, "w", 5)] + PASS + [due(0, "r", 50)], ["at 6 passed-deadline desc 0 w set 3 by 0 w"],
    ),
    "each side is set alone, to the same time: one timer serves both": (
        OPEN + [due(0, "r", 5), due(0, "w", 5)] + PASS,
        [
            "at 7 passed-deadline desc 0 r set 3 by 0 r moved 4 by 0", "at 7 passed-deadline desc 0 w set 4 by 0 w",
        ],
    ),
    "a replaced deadline, whose timer went off before and fires stale": (
        OPEN + [due(0, "r", 5)] + PASS[:2] + [due(0, "r", 50)] + PASS[2:], [],
    ),
    "a replaced deadline, and the new one passes": (
        OPEN + [due(0, "r", 5)] + PASS[:2] + [due(0, "r", 1), ("fire", 0), ("tick", 10), ("pop",), ("fire", 0)],
        ["at 10 passed-deadline desc 0 r set 6 by 0 r"],
    ),
    "a deadline in the past passes by no firing": (OPEN + [due(0, "r", -1)], []),
    "the timer went off and its function hasn't run": (OPEN + [due(0, "r", 5)] + PASS[:2], []),
    "the descriptor was closed before its firing": (OPEN + [due(0, "r", 5)] + PASS[:2] + CLOSE[:1] + PASS[2:], []),
    "the descriptor is opened anew": (
        OPEN + [due(0, "rw", 90)] + CLOSE + [("pollopen", 0, 0), due(0, "r", 5)] + PASS,
        ["at 10 passed-deadline desc 0 r set 7 by 0 r"],
    ),
    "two that pass, in the order of their firings": (
        OPEN + [due(0, "w", 5), due(0, "r", 6), ("tick", 9), ("pop",), ("pop",), ("fire", 1), ("fire", 0)],
        [
            "at 8 passed-deadline desc 0 r set 4 by 0 r", "at 9 passed-deadline desc 0 w set 3 by 0 w moved 4 by 0",
        ],
    ),
}  # fmt: skip

WAKE: Steps = [("blockswap", 0), ("waitcheck", 0)]
ENDED: Rows = {
    "a reset finds a deadline that was set in the past": (
        OPEN + [due(0, "r", -1)] + RESET, ["at 4 timeout gor 0 desc 0 r set 3 by 0 r"],
    ),
    "the beginning of a wait finds it": (
        [("spawn",)] + OPEN + [due(0, "rw", -1), ("waitbegin", 1, 0, "w")],
        ["at 5 timeout gor 1 desc 0 w set 4 by 0 rw"],
    ),
    "a check before parking ends no call": (
        [("spawn",)] + OPEN + park()[:2] + [due(1, "r", -1), ("blockcheck", 0)], [],
    ),
    "the check after waking does": (
        [("spawn",)] + OPEN + park() + [due(1, "r", -1)] + WAKE, ["at 10 timeout gor 0 desc 0 r set 8 by 1 r"],
    ),
    "a check that finds nothing": (OPEN + RESET, []),
    "a check of a closing descriptor": (OPEN + [due(0, "r", -1)] + CLOSE[:1] + RESET, []),
    "a check that finds an error": (OPEN + [("pollevent", 0, 1, "w", 1)] + RESET, []),
    "two calls end with one deadline": (
        OPEN + [due(0, "r", -1)] + RESET + RESET,
        ["at 4 timeout gor 0 desc 0 r set 3 by 0 r", "at 5 timeout gor 0 desc 0 r set 3 by 0 r"],
    ),
    "the other side's was moved": (
        OPEN + [due(0, "rw", -1), due(0, "w", 50)] + RESET,
        ["at 5 timeout gor 0 desc 0 r set 3 by 0 rw moved 4 by 0"],
    ),
    "the deadline was set twice: the last time": (
        OPEN + [due(0, "r", -1), due(0, "r", -2)] + RESET, ["at 5 timeout gor 0 desc 0 r set 4 by 0 r"],
    ),
}  # fmt: skip
PARKED: Steps = [("spawn",)] + OPEN + [due(1, "r", 5)] + park() + PASS  # step 11 wakes goroutine 0
BACK: Rows = {
    "before the goroutine took up its word": (
        PARKED + [due(1, "r", 90)], ["at 12 taken-back gor 0 desc 0 r set 4 by 1 r"],
    ),
    "before it checked why": (
        PARKED + WAKE[:1] + [due(1, "r", 90)], ["at 13 taken-back gor 0 desc 0 r set 4 by 1 r"],
    ),
    "taken back to none": (PARKED + [due(1, "rw", 0)], ["at 12 taken-back gor 0 desc 0 r set 4 by 1 r"]),
    "twice: the first time": (
        PARKED + [due(1, "r", 90), due(1, "r", 95)], ["at 12 taken-back gor 0 desc 0 r set 4 by 1 r"],
    ),
    "of the other side": (PARKED + [due(1, "w", 90)], []),
    "of another goroutine's side": (PARKED + [("pollopen", 1, 0), ("setdeadline", 1, 1, "r", 90)], []),
    "nobody was parked": ([("spawn",)] + OPEN + [due(1, "r", 5)] + PASS + [due(1, "r", 90)], []),
    "it parks after the deadline passed and was set anew": (
        OPEN + [due(0, "r", 5)] + PASS + [due(0, "r", 90), due(0, "r", 95)], [],
    ),
}  # fmt: skip

ALL: dict[str, Rows] = {
    LOST_WAKE_UP: LOST, ASLEEP: SLEEPS, HELD_REFERENCE: HELD, PASSED_DEADLINE: PASSED, TIMEOUT: ENDED,
    TAKEN_BACK: BACK,
}  # fmt: skip
# The rows of the first hunt may also have lines of the second: a deadline passes before it is taken back, and a
# goroutine that missed a wake-up sleeps although bytes may have arrived.
TOGETHER = {(TAKEN_BACK, PASSED_DEADLINE), (LOST_WAKE_UP, ASLEEP), (ASLEEP, LOST_WAKE_UP)}
ROWS = [pytest.param(hunt, *row, id=f"{hunt}: {name}") for hunt, rows in ALL.items() for name, row in rows.items()]


def text_of(steps: Steps) -> bytes:
    """A recording of these steps, all of which must apply, with the machine's answers."""
    world, answers = World(LIMITS), []
    for step in steps:
        world, answer = apply(world, step)
        answers.append(answer)
    return write_plain(Contents(2, LIMITS, steps, answers))


def random_recording(dice: random.Random) -> Contents:
    """A random recording, which often ends when a goroutine is parked."""
    recording, worlds = Author(dice, themes=THEMES).recording(dice.choice([12, 40, 80, 120]))
    parked = [position for position, world in enumerate(worlds) if world.waiters]
    if not parked or dice.random() > 0.7:
        return recording
    end = dice.choice(parked)
    return recording._replace(steps=recording.steps[:end], answers=recording.answers[:end])


def random_waits(dice: random.Random) -> Contents:
    """A random recording with few goroutines, which wait on one descriptor while its deadlines are set and pass."""
    world, steps, answers = World(LIMITS), [*OPEN, ("spawn",), ("spawn",)], []
    for step in steps:
        world, answer = apply(world, step)
        answers.append(answer)
    while len(steps) < 80:
        step = random_step(dice, world)
        try:
            world, answer = apply(world, step)
        except StepRefusedError:
            continue
        steps.append(step)
        answers.append(answer)
    return Contents(2, LIMITS, steps, answers)


NEXT = {
    "entering": "blockarm",
    "armed": "blockcheck",
    "parking": "parkcommit",
    "swapping": "blockswap",
    "checking": "waitcheck",
}


def random_step(dice: random.Random, world: World) -> Step:
    """The next step of a goroutine's wait, or a step of a deadline or of the network. Such a step needn't apply."""
    g, side = dice.randrange(3), dice.choice("rw")
    kind = NEXT.get(world.goroutines[g][0])
    if dice.random() < 0.4:
        return (kind, g) if kind else ("waitbegin", g, 0, side)
    steps: list[Step] = [
        due(g, dice.choice(["r", "w", "rw"]), dice.choice([-1, 0, 1, 1, 1, 9])),
        ("tick", world.clock + dice.randrange(3)),
        ("pop",),
        ("fire", 0),
    ]
    event = ("pollevent", 0, 1, side, dice.randrange(2))
    others: list[Step] = [event, ("arrive", 0, b"a"), ("sysread", g, 0, 4), ("pollreset", g, 0, side)]
    return dice.choice([*steps, *steps, *steps, *others])


@pytest.mark.parametrize("hunt, steps, lines", ROWS)
def test_row(hunt: str, steps: Steps, lines: list[str]) -> None:
    """Checks the lines of a row's hunt. Other hunts must have no lines, unless TOGETHER pairs them with this hunt."""
    end = f"ok {len(steps)} steps"
    assert suspects(text_of(steps), Observer(), [hunt]) == ([*lines, end], True)
    others = [other for other in HUNTS if other != hunt and (hunt, other) not in TOGETHER]
    assert suspects(text_of(steps), Observer(), others) == ([end], True)


def test_the_hunts_come_in_their_order() -> None:
    steps = [
        ("spawn",), *OPEN, due(0, "w", 5), *PASS, *EVENT, *RESET, *park(), ("sockopen", 4, 4), ("increfclose", 1, 1),
    ]  # fmt: skip
    lines, _ = suspects(text_of(steps), Observer(), HUNTS)
    assert [line.split()[2] for line in lines[:-1]] == [PASSED_DEADLINE, LOST_WAKE_UP, HELD_REFERENCE]


@pytest.mark.parametrize(
    "text, fault",
    [
        (b"", "line 1: fault 101 header"),
        (text_of(TAKEN + SHUT) + b'["decref",3,0,"notlast"]\n', "step 6: fault 107 reason 1"),
        (text_of(TAKEN + SHUT) + b'["decref",1,0,"last"]\n', "step 6: fault 109 answer"),
    ],
)
def test_a_fault_is_the_only_line(text: bytes, fault: str) -> None:
    assert suspects(text, Observer()) == ([fault], False)
