"""The text about a failed call: the step that caused the failure, and whether it came before the call began or
during the call."""

import pytest

from netrev.findings.causes.failed_calls import causes_of
from tests.suspects.test_suspects import OPEN, PARK, READ, Steps, recording_of

CLOSES: Steps = [["increfclose", 0, 0], ["evict", 0, 0], ["decref", 0, 0]]
LOCKS: Steps = [["rwlock", 1, 0, "w"], ["pollreset", 1, 0, "w"]]
FAILS: Steps = [["syswrite", 1, 0, "00"], ["rwunlock", 1, 0, "w"]]
WAKES: Steps = [["blockswap", 1], ["waitcheck", 1], ["rwunlock", 1, 0, "r"]]
DESTROYS: Steps = [["pollclose", 1, 0]]
LATE: Steps = [["rwlock", 1, 0, "r"], ["pollreset", 1, 0, "r"], ["rwunlock", 1, 0, "r"]]
GETS: Steps = [["arrive", 0, "00"], *READ, ["rwunlock", 1, 0, "r"]]
PASSES: Steps = [["tick", 90], ["pop"], ["fire", 0]]
UNDER_WAY, BEFORE = ", while the call was under way.", ", before the call began."


def deadline(time: int, side: str = "r") -> Steps:
    return [["incref", 0, 0], ["setdeadline", 0, 0, side, time], ["decref", 0, 0]]


USED_AGAIN: Steps = [*CLOSES, ["pollclose", 0, 0], ["sockopen", 16, 16], ["pollopen", 0, 1]]
ON_THE_SECOND: Steps = [["rwlock", 1, 1, "r"], ["pollreset", 1, 0, "r"], ["rwunlock", 1, 1, "r"]]
SAID: dict[str, tuple[Steps, tuple[str, ...]]] = {
    "closed while it waited": (
        READ + PARK + CLOSES + WAKES + DESTROYS, ("It was closed", "(goroutine 0, step 11)", UNDER_WAY),
    ),
    "closed before it began": (CLOSES + [["rwlock", 1, 0, "r"]], ("It was closed", "(goroutine 0, step 4)", BEFORE)),
    "closed between its lock and its wait": (
        READ[:1] + CLOSES + READ[1:2] + [["rwunlock", 1, 0, "r"], *DESTROYS],
        ("It was closed", "(goroutine 0, step 5)", UNDER_WAY),
    ),
    "shut before it began": (
        [["closewrite", 0, 0], *LOCKS, *FAILS], ("Its write side was closed", "(goroutine 0, step 4)", BEFORE),
    ),
    "shut while it was under way": (
        [*LOCKS, ["closewrite", 0, 0], *FAILS], ("Its write side was closed", "(goroutine 0, step 6)", UNDER_WAY),
    ),
    "in the past before it began": (
        deadline(-1) + LATE, ("A deadline in the past was set", "step 5), before it began."),
    ),
    "in the past while it waited": (
        READ + PARK + deadline(-1) + WAKES,
        ("A deadline in the past was set", "(goroutine 0, step 12), while it waited."),
    ),
    "set while it waited": (
        READ + PARK + deadline(30) + PASSES + WAKES,
        ("Its deadline was set", "(goroutine 0, step 12), while it waited, 30 ns ahead."),
    ),
    "set before it began": (
        deadline(30) + READ + PARK + PASSES + WAKES, ("Its deadline was set", "(goroutine 0, step 5), 30 ns ahead."),
    ),
    "set anew": (
        deadline(30) + deadline(40) + READ + PARK + PASSES + WAKES,
        ("Its deadline was set", "(goroutine 0, step 8), 40 ns ahead."),
    ),
    "with the other side's": (
        deadline(30) + deadline(20, side="w") + READ + PARK + [*PASSES[:1], ["pop"], *PASSES[1:], ["fire", 0]] + WAKES,
        ("Its deadline was set", "(goroutine 0, step 5), 30 ns ahead."),
    ),
    "after one that went well": (
        deadline(30) + GETS + READ + PARK + PASSES + WAKES,
        ("30 ns ahead; 1 Read went well under it, and nobody has moved it since.",),
    ),
    "after two that went well": (
        deadline(30) + GETS + GETS + READ + PARK + PASSES + WAKES,
        ("30 ns ahead; 2 Reads went well under it, and nobody has moved it since.",),
    ),
    "after one that went well before it was set": (
        GETS + deadline(30) + READ + PARK + PASSES + WAKES, ("(goroutine 0, step 10), 30 ns ahead.",),
    ),
    "after a Write that went well": (
        deadline(30) + LOCKS + FAILS + READ + PARK + PASSES + WAKES, ("(goroutine 0, step 5), 30 ns ahead.",),
    ),
}  # fmt: skip


@pytest.mark.parametrize("steps, parts", SAID.values(), ids=SAID)
def test_a_failed_call_says_what_brought_it_about_and_when(steps: Steps, parts: tuple[str, ...]) -> None:
    (cause,) = causes_of(recording_of(OPEN + steps), len(OPEN + steps))
    assert all(part in cause.says[1] for part in parts) and cause.says[1].endswith(parts[-1]), cause.says


def test_those_that_timed_out_by_it_before_are_counted() -> None:
    steps = OPEN + deadline(30) + READ + PARK + PASSES + WAKES + LATE
    first, second = causes_of(recording_of(steps), len(steps))
    assert "timed out by it" not in first.says[1]
    assert second.says[1].endswith("30 ns ahead; 1 Read had timed out by it before, and nobody has moved it since.")


def test_a_close_is_of_the_use_of_the_descriptor() -> None:
    steps = OPEN + USED_AGAIN + [["setdeadline", 0, 0, "r", -1], *ON_THE_SECOND]
    (cause,) = causes_of(recording_of(steps), len(steps))
    assert "A deadline in the past was set" in cause.says[1] and "closed" not in " ".join(cause.says)


def test_a_call_that_has_not_failed_yet_is_not_told() -> None:
    steps = OPEN + READ + PARK + CLOSES + WAKES + DESTROYS
    recording = recording_of(steps)
    assert [len(causes_of(recording, position)) for position in (len(steps) - 1, len(steps))] == [0, 1]
