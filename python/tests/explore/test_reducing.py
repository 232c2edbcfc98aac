"""Reducing without netrev: replayed units give the recording's own steps; when a unit is removed, the units that need
it are removed too; and new numbers are assigned."""

import random
from pathlib import Path
from typing import Any

import pytest

from netrev.recording.recording import Recording
from netrev.recording.where import SourceLines
from netrev.reduce.events import Events
from netrev.reduce.replay import ReplayPlayer
from netrev.reduce.shrinking import Shrinking
from netrev.reduce.targets import CellTarget, HangTarget
from netrev.reduce.units import Unit, units_of
from netrev.reduce.writing import where_text, write_recording
from netrev.session.session import UsageError
from netrev.text.contents import Limits
from netrev.text.writer import line_of
from nrdb.prompt.completion import candidates
from tests.suspects.test_suspects import (
    BACK,
    COMES,
    LOOKS,
    OPEN,
    PARK,
    PASSES,
    PAST,
    READ,
    USED_AGAIN,
    Steps,
    recording_of,
)

from .test_exploring import with_answers

EXAMPLES = Path(__file__).resolve().parents[3] / "examples"
CALL: Steps = [["rwlock", 1, 0, "r"], ["pollreset", 1, 0, "r"], ["sysread", 1, 0, 16], ["rwunlock", 1, 0, "r"]]


def player_of(recording: Recording) -> tuple[ReplayPlayer, list[Unit], Events]:
    """A player of a recording with answers, with its units and events."""
    events = Events(recording)
    units = units_of(events)
    limits = Limits(*(recording.limits[key] for key in Limits._fields))
    return ReplayPlayer(events, units, limits, lambda: None), units, events


def told(player: ReplayPlayer) -> list[str]:
    """The replayed steps."""
    return [line_of(step, None) for step, _ in player.steps]


def kinds(steps: Steps) -> list[list[str]]:
    """The kinds of the steps of each unit."""
    _, units, events = player_of(recording_of(steps))
    return [[events.all[place].kind for place in unit.events] for unit in units]


def test_a_call_is_from_rest_to_rest() -> None:
    assert kinds(OPEN + CALL)[-1] == ["rwlock", "pollreset", "sysread", "rwunlock"]


def test_a_timer_that_goes_off_twice_before_it_is_run_is_two() -> None:
    late: Steps = [["tick", 17], ["pop"]]
    twice: Steps = [["setdeadline", 0, 0, "w", 3], *late, ["setdeadline", 0, 0, "w", 3], ["tick", 40], ["pop"]]
    for runs, wanted in (([0, 0], [[6, 10], [9, 11]]), ([1, 0], [[6, 11], [9, 10]])):
        _, units, events = player_of(recording_of(OPEN + twice + [["fire", place] for place in runs]))
        found = [[events.all[place].number for place in unit.events] for unit in units]
        assert [item for item in found if len(item) > 1] == wanted


def test_a_reference_that_is_kept_is_no_call_for_ever() -> None:
    assert kinds(OPEN + [["incref", 1, 0]] + CALL)[-2:] == [["incref"], [step[0] for step in CALL]]


def test_bytes_go_with_their_event_and_the_freeing_with_its_close() -> None:
    assert kinds(OPEN + COMES)[-1] == ["arrive", "pollevent"]
    assert ["increfclose", "evict", "decref", "pollclose"] in kinds(OPEN + USED_AGAIN)


def test_each_step_is_in_one_unit() -> None:
    for path in sorted(EXAMPLES.glob("real/*.jsonl")):
        _, units, events = player_of(Recording.read(str(path)))
        places = sorted(place for unit in units for place in unit.events)
        assert places == list(range(len(events.all)))


def test_all_units_are_the_recording() -> None:
    recordings = [Recording.read(str(path)) for path in sorted(EXAMPLES.glob("real/*.jsonl"))]
    recordings += [recording_of(OPEN + READ + PARK + PAST + BACK + LOOKS), recording_of(OPEN + USED_AGAIN)]
    for recording in recordings:
        player, units, _ = player_of(recording)
        assert player.settle(range(len(units))) == set(range(len(units)))
        steps: list[Any] = [values[:-1] for values in recording.arrays()]
        assert [[part.hex() if isinstance(part, bytes) else part for part in step] for step, _ in player.steps] == steps


def test_numbers_are_made_anew() -> None:
    player, units, events = player_of(recording_of(OPEN + USED_AGAIN + [["pollevent", 0, 2, "rw", 1], ["spawn"]]))
    kept = {at for at, unit in enumerate(units) if events.all[unit.events[0]].kind != "increfclose"}
    first = {at for at in kept if events.all[units[at].events[0]].number in (2, 3)}
    player.settle(kept - first)
    assert told(player) == [
        '["spawn"]',
        '["sockopen",16,16]',
        '["pollopen",0,0]',
        '["pollevent",0,1,"rw",1]',
        '["spawn"]',
    ]


def test_what_no_longer_goes_is_left_out() -> None:
    player, units, events = player_of(recording_of(OPEN + READ + PARK + COMES + LOOKS[:1] + PAST[:1]))
    without = {at for at, unit in enumerate(units) if events.all[unit.events[0]].kind != "arrive"}
    left = player.settle(without)
    assert len(left) < len(without)  # (the read that waited is left out too)
    assert "blockswap" not in [step[0] for step, _ in player.steps]


def test_goes_back_to_the_same_state() -> None:
    recording = Recording.read(str(EXAMPLES / "real/hijacked.jsonl"))
    player, units, _ = player_of(recording)
    for skipped in (90, 60, 40, 11, 62, 2):
        kept = set(range(len(units))) - {skipped}
        fresh, _, _ = player_of(recording)
        assert player.settle(kept) == fresh.settle(kept)
        assert told(player) == told(fresh)
        assert (player.world, player.numbers) == (fresh.world, fresh.numbers)


def test_a_cell_of_a_timer_keeps_the_deadline() -> None:
    traffic = OPEN + CALL + CALL + [["spawn"], ["sockopen", 16, 16], ["tick", 3]]
    recording = recording_of(traffic + [["setdeadline", 0, 0, "r", 5], ["incref", 0, 0]] + PASSES + CALL)
    player, units, events = player_of(recording)
    target = CellTarget(events, "rd 0", "-1", recording.length)
    Shrinking(player, events, units, target).run()
    kinds = [step[0] for step, _ in player.steps]
    assert kinds == ["sockopen", "pollopen", "setdeadline", "tick", "pop", "fire"]


def test_a_cell_is_completed_behind_the_file() -> None:
    for command in ("reduce", "report"):
        assert "lock" in candidates([command, "x.jsonl"], lambda of: ["7"])
        assert candidates([command, "x.jsonl", "gor"], lambda of: ["7"]) == ["7"]
        assert "parked" in candidates([command, "x.jsonl", "gor", "7"], lambda of: ["7"])
        assert candidates([command], lambda of: ["7"]) == []


def test_lines_are_those_of_the_steps_that_are_kept() -> None:
    recording = Recording.read(str(EXAMPLES / "real/past.jsonl"))
    numbers = [5, 9, 30, 31, recording.length]
    lines = SourceLines(where_text(recording.lines, numbers), len(numbers))
    assert [lines.of(at) for at in range(1, 6)] == [recording.lines.of(number) for number in numbers]
    assert any(lines.words(at) for at in range(1, 6))


def test_lines_of_another_recording_go(folder: Path) -> None:
    lines = Recording.read(str(EXAMPLES / "real/past.jsonl")).lines
    path, beside = f"{folder}/x.jsonl", folder / "x.where"
    write_recording(path, "", b"steps", where_text(lines, [5, 9]))
    assert (Path(path).read_bytes(), SourceLines.beside(path, 2).of(2)) == (b"steps", lines.of(9))
    write_recording(path, "", b"steps", where_text(SourceLines(), [1]))
    assert not beside.exists()
    beside.write_text("mine")
    for text in ("", where_text(lines, [5, 9])):
        with pytest.raises(
            UsageError, match="x.where: this file isn't from netrev, so the recording needs another name"
        ):
            write_recording(path, "", b"other steps", text)
    assert (beside.read_text(), Path(path).read_bytes()) == ("mine", b"steps")


def reopened(socket: int) -> Steps:
    """The use of descriptor 0 for a socket ends, and the next socket uses it."""
    closes: Steps = [["increfclose", 0, socket], ["evict", 0, 0], ["decref", 0, socket], ["pollclose", 0, 0]]
    return [*closes, ["sockopen", 16, 16], ["pollopen", 0, socket + 1]]


@pytest.mark.parametrize(("tag", "left"), [(3, 1), (4, 2), (7, 5), (2, 0), (1, 2), (0, 0)])
def test_an_events_tag_stays_as_far_from_its_descriptors(tag: int, left: int) -> None:
    """A tag that would be less than 0 stays as recorded. If the descriptor has that tag, the event gets the next
    one."""
    recording = recording_of(OPEN + reopened(0) + reopened(1) + [["pollevent", 0, tag, "rw", 1]])
    player, units, events = player_of(recording)
    last = {at for at, unit in enumerate(units) if events.all[unit.events[0]].number in (14, 15, 16)}
    assert player.settle(last) == last
    assert told(player) == ['["sockopen",16,16]', '["pollopen",0,0]', f'["pollevent",0,{left},"rw",1]']


def settled(recording: Recording, kept: set[int]) -> tuple[set[int], list[str]]:
    """The units that are left, and their steps: after each step that doesn't apply, the rest begins anew."""
    while True:
        player, units, _ = player_of(recording)
        for place in sorted(place for unit in kept for place in units[unit].events):
            if not player._step(place):
                kept = kept - player.needs.with_needing([player.owner[place]])
                break
        else:
            return kept, told(player)


@pytest.mark.parametrize("name", ["real/hijacked", "real/half", "real/lost", "stale-deadline"])
def test_units_are_dropped_until_all_apply(monkeypatch: pytest.MonkeyPatch, name: str) -> None:
    recording = with_answers(Recording.read(str(EXAMPLES / f"{name}.jsonl")))
    player, units, _ = player_of(recording)
    dice, dropped = random.Random(name), 0
    for _ in range(8):
        kept = set(range(len(units))) - set(dice.sample(range(len(units)), dice.choice((1, 2, 5))))
        wanted = settled(recording, kept)
        assert (player.settle(kept), told(player)) == wanted
        dropped += len(kept) - len(wanted[0])
    assert dropped > 3


@pytest.mark.parametrize(("numbers", "times"), [([1, 2, 3], [10, 12, 15]), ([2, 5, 6], [12, 27, 38]), ([6], [38])])
def test_steps_keep_their_times(monkeypatch: pytest.MonkeyPatch, numbers: list[int], times: list[int]) -> None:
    lines = Recording.read(str(EXAMPLES / "real/past.jsonl")).lines
    monkeypatch.setattr(lines, "times", [10, 12, 15, 20, 27, 38])
    assert list(SourceLines(where_text(lines, numbers), len(numbers)).times) == times


def test_ctrl_c_is_looked_for_while_steps_are_replayed() -> None:
    events = Events(recording_of(OPEN + [["tick", at] for at in range(1, 2_500)]))
    looks: list[int] = []
    player = ReplayPlayer(events, units_of(events), Limits(4, 3, 3, 16), lambda: looks.append(player.played))
    player.settle(range(len(player.units)))
    assert looks == [1_000, 2_000]
    player.settle(range(3, len(player.units)))  # (steps that are replayed again count too)
    assert looks == [1_000, 2_000, 3_000, 4_000, 5_000] and player.played == 2_502 + 2_499


def test_targets_know_their_socket() -> None:
    events = Events(recording_of(OPEN + [["sockopen", 16, 16], ["pollopen", 0, 1]] + CALL))
    assert HangTarget(events, 1, [6], 9).socket == 0
    assert HangTarget(events, 1, [1, 5], 9).socket == 1
    assert HangTarget(events, 1, [1], 9).socket is None
