"""The rules of `info suspects`: each rule finds its bug in a small recording, and finds nothing in a similar correct
recording; the bugs of the examples and bugs planted at random are listed first; traffic without a bug has no
suspect."""

import json
from typing import Any, NamedTuple

import pytest

from dev.fuzz.generators.injections import Bug, BugCount, counted
from netrev.findings.suspects.ranking import suspects_of
from netrev.findings.suspects.rule_loader import RULES, RULES_OF_CALLS
from netrev.findings.suspects.run import Run
from netrev.findings.suspects.suspect import Suspect
from netrev.machine.machine import World
from netrev.machine.steps import apply
from netrev.recording.recording import Recording
from netrev.run.notes import Notes
from netrev.text.contents import Limits
from tests.support.examples import ALL, EXAMPLES, REFUSED

LIMITS = Limits(gor=4, sock=3, desc=3, buf=16)
Steps = list[list[Any]]

OPEN: Steps = [["spawn"], ["sockopen", 16, 16], ["pollopen", 0, 0]]
READ: Steps = [["rwlock", 1, 0, "r"], ["pollreset", 1, 0, "r"], ["sysread", 1, 0, 16]]
PARK: Steps = [["waitbegin", 1, 0, "r"], ["blockarm", 1], ["blockcheck", 1], ["parkcommit", 1]]
COMES: Steps = [["arrive", 0, "6869"], ["pollevent", 0, 1, "r", 0]]
WHILE: Steps = [["tick", time] for time in range(1, 13)]
QUEUED: Steps = [["rwlock", 0, 0, "r"], ["rwlock", 1, 0, "r"], ["acquire", 1]]
BOTH: Steps = [["incref", 0, 0], ["setdeadline", 0, 0, "rw", 5], ["setdeadline", 0, 0, "r", 0]]
PASSES: Steps = [["decref", 0, 0], ["tick", 9], ["pop"], ["fire", 0]]
PAST: Steps = [["incref", 0, 0], ["setdeadline", 0, 0, "r", -1]]
BACK: Steps = [["setdeadline", 0, 0, "r", 0], ["decref", 0, 0]]
LOOKS: Steps = [["blockswap", 1], ["waitcheck", 1]]
USED_AGAIN: Steps = [
    ["increfclose", 0, 0], ["evict", 0, 0], ["decref", 0, 0], ["pollclose", 0, 0], ["sockopen", 16, 16],
    ["pollopen", 0, 1],
]  # fmt: skip


class Pair(NamedTuple):
    """A recording with a bug, and a similar recording without the bug."""

    bad: Steps
    good: Steps


PAIRS = {
    "lost wake-up": Pair(
        OPEN + COMES + READ[:2] + PARK, OPEN + COMES + READ[:2] + [["sysread", 1, 0, 16]] + PARK,
    ),
    "no event": Pair(OPEN + READ + PARK + COMES[:1] + WHILE, OPEN + READ + PARK + COMES + WHILE),
    "stale event": Pair(
        OPEN + READ + PARK + COMES[:1] + [["pollevent", 0, 7, "r", 0]],
        OPEN + READ + PARK + [["pollevent", 0, 7, "r", 0]] + COMES,
    ),
    "deadline taken back too soon": Pair(
        OPEN + READ + PARK + PAST + BACK + LOOKS + PARK[1:], OPEN + READ + PARK + PAST + LOOKS + BACK,
    ),
    "deadline left behind": Pair(OPEN + BOTH + PASSES, OPEN + BOTH + [["setdeadline", 0, 0, "w", 0]] + PASSES[:2]),
    "missed release": Pair(
        OPEN + QUEUED + [["rwunlock", 0, 0, "r"]] + WHILE,
        OPEN + QUEUED + [["rwunlock", 0, 0, "r"], ["release", 0]] + WHILE,
    ),
    "leaked reference": Pair(
        OPEN + [["incref", 1, 0]] + WHILE, OPEN + [["incref", 1, 0]] + WHILE[:6] + [["decref", 1, 0]] + WHILE[6:],
    ),
    "lock held": Pair(
        OPEN + QUEUED + WHILE, OPEN + QUEUED + WHILE[:9] + [["sysread", 0, 0, 16]] + WHILE[9:],
    ),
    "close without evict": Pair(
        OPEN + [["increfclose", 0, 0]] + WHILE,
        OPEN + [["increfclose", 0, 0], ["evict", 0, 0], ["decref", 0, 0]] + WHILE,
    ),
    "write after CloseWrite": Pair(
        OPEN + [["closewrite", 0, 0], ["syswrite", 1, 0, "6869"]],
        OPEN + [["syswrite", 1, 0, "6869"], ["closewrite", 0, 0]],
    ),
    "error event on a reused descriptor": Pair(
        OPEN + USED_AGAIN + [["pollevent", 0, 2, "rw", 1]],
        OPEN + USED_AGAIN + [["pollevent", 0, 2, "rw", 0], ["pollevent", 0, 1, "rw", 1]],
    ),
}  # fmt: skip


def recording_of(steps: Steps) -> Recording:
    """A recording of these steps with the model's answers; all of them must apply."""
    world = World(LIMITS)
    lines: list[Any] = [{"netrev": 2, **LIMITS._asdict()}]
    for kind, *rest in steps:
        of_bytes = kind in ("arrive", "syswrite")
        arguments = [*rest[:-1], bytes.fromhex(rest[-1])] if of_bytes else rest
        world, answer = apply(world, (kind, *arguments))
        lines.append([kind, *rest, answer if len(answer) > 1 else answer[0]])
    return Recording("".join(f"{json.dumps(line)}\n" for line in lines).encode())


def shown(recording: Recording) -> list[Suspect]:
    """The visible suspects of a recording."""
    return [suspect for suspect in suspects_of(recording).suspects if suspect.is_shown]


def test_each_finds_its_bug_and_not_one_that_nearly_is() -> None:
    assert set(PAIRS) == {rule.name for rule in RULES}
    for rule, pair in PAIRS.items():
        assert [suspect.rule for suspect in shown(recording_of(pair.bad))] == [rule], rule
        assert [suspect.sentence() for suspect in shown(recording_of(pair.good))] == [], rule


@pytest.mark.parametrize("rule", RULES)
def test_each_finds_its_bug_by_itself(rule: Any) -> None:
    found = list(rule.suspects(Run(Notes(recording_of(PAIRS[rule.name].bad)))))
    assert {suspect.rule for suspect in found} == {rule.name}
    near = rule.suspects(Run(Notes(recording_of(PAIRS[rule.name].good))))
    assert [suspect.sentence() for suspect in near if suspect.is_shown] == []


def test_a_deadline_from_before_the_recording_is_left_behind_if_the_other_side_alone_is_set() -> None:
    before: Steps = [["setdeadline", 0, 0, "r", 4], ["setdeadline", 0, 0, "w", 5]]
    moves: Steps = [["setdeadline", 0, 0, "r", 60], ["setdeadline", 0, 0, "r", 70]]
    passes: Steps = [["tick", 9], ["pop"], ["fire", 0]]
    prelude = len(OPEN + before)
    for name, steps, begins, expected in (
        ("left behind", moves, prelude, ["deadline left behind"]),
        ("in one recording", moves, 0, []),
        ("moved once", moves[:1], prelude, []),
        ("moved too", [*moves, ["setdeadline", 0, 0, "w", 5]], prelude, []),
    ):
        recording = recording_of(OPEN + before + steps + passes)
        recording.lines.prelude = begins
        assert [suspect.rule for suspect in shown(recording)] == expected, name


def test_an_error_event_whose_tag_go_compared_is_of_this_use() -> None:
    for has_tags, expected in ((False, ["error event on a reused descriptor"]), (True, [])):
        recording = recording_of(PAIRS["error event on a reused descriptor"].bad)
        recording.lines.has_tags = has_tags
        assert [suspect.rule for suspect in shown(recording)] == expected


def test_the_page_has_the_definition_of_each() -> None:
    page = (EXAMPLES.parent / "docs" / "reference" / "NRDB.md").read_text(encoding="utf-8")
    table = page.partition("| Rule | Definition |\n|---|---|\n")[2].partition("\n\n")[0].splitlines()
    rows = [f"| {rule.name} | {rule.definition} |" for rule in (*RULES, *RULES_OF_CALLS)]
    assert sorted(table) == sorted(rows)


def test_the_bug_of_each_example_is_named_first() -> None:
    for example in ALL:
        if example.name not in REFUSED:  # (there is nothing to examine)
            found = [suspect.rule for suspect in shown(Recording.read(str(example.path)))]
            assert found[:1] == ([example.suspect] if example.suspect else []), example.name


def test_planted_bugs_are_named_first_and_good_traffic_has_no_suspect() -> None:
    assert counted(None, range(100, 106)) == BugCount()
    total = BugCount()
    for bug in Bug:
        count = counted(bug, range(100, 103))
        assert (count.named, count.besides) == (count.first, 0), bug.value
        total += count
    assert total.shows >= 18
    assert total.first >= total.shows - 1
