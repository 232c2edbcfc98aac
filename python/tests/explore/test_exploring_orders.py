"""Each schedule respects the program's orders and what the network may answer. A hang is a finding only if the call's
deadline was set. In a schedule, a deadline may pass even if no goroutine sees it pass in the recording."""

from itertools import islice

from netrev.explore.hangs import ended_by, moved_by
from netrev.explore.scheduler import Scheduler
from netrev.explore.schedules import Delay, single_delays
from netrev.explore.script import Script, script_of
from netrev.explore.search import HANG
from netrev.explore.sentences import IF_RAW, LEFT_UNKNOWN, UNLESS, FindingSentences
from netrev.findings.suspects.ranking import suspects_of
from netrev.recording.where import SourceLines
from netrev.run.index import run_of
from tests.suspects.test_suspects import OPEN, recording_of

from .test_exploring import EXAMPLES, GOOD, answered, explored

Pairs = list[tuple[int, int]]
BEGUN, ENDED, SET, TAKES_BACK = 4, 16, 11, 17  # steps of GOOD: the read's first and last, the other calls' first
RACES = sorted((EXAMPLES / "races").glob("*.jsonl"))
TAKEN = {"deadline taken back too soon", HANG}
SORTS: dict[str, set[str]] = {
    "taken-back": TAKEN,
    "http-watchdog": TAKEN,
    "tls-handshake": TAKEN,
    "rpc-keepalive": TAKEN,
    "early-cancel": {HANG},
    "http-idle": {HANG},
    "left-behind": {"deadline left behind"},
    "http-hijack": {"deadline left behind"},
    "rpc-call": {"deadline left behind"},
    "behind-shut": {"write after CloseWrite"},
    "tls-shut": {"write after CloseWrite"},
    "lost-wake-up": {"lost wake-up"},
}
LATE = OPEN + [["incref", 0, 0], ["setdeadline", 0, 0, "rw", 50], ["decref", 0, 0]]
LATE += [["incref", 0, 0], ["setdeadline", 0, 0, "r", 900], ["decref", 0, 0]]
LATE += [["rwlock", 1, 0, "w"], ["pollreset", 1, 0, "w"], ["syswrite", 1, 0, "00"], ["rwunlock", 1, 0, "w"]]


def script_with(orders: Pairs | None) -> Script:
    """The script of a program that enforces these orders and in which a deadline ends a read."""
    recording = recording_of(GOOD)
    recording.lines.orders = orders
    return script_of(recording)


def test_what_the_program_orders_is_no_finding() -> None:
    found = explored(script_with(None), 400).found
    assert {key[0] for key in found} == {"deadline taken back too soon", HANG}
    assert explored(script_with([(ENDED, TAKES_BACK)]), 400).found == {}


def test_what_it_orders_otherwise_takes_nothing_away() -> None:
    found = explored(script_with([(BEGUN, SET)]), 400).found
    assert {key[0] for key in found} == {"deadline taken back too soon", HANG}


def test_in_each_schedule_each_order_is_kept() -> None:
    for path in RACES:
        recording, script = answered(path), script_of(answered(path))
        assert recording.lines.orders
        for delay in islice(single_delays(script), 0, None, 10):
            assert broken(script, delay, recording.lines.orders or []) == [], (path.stem, delay)


def test_what_the_network_does_comes_behind_what_it_may_come_of() -> None:
    script = script_of(answered(EXAMPLES / "races" / "http-idle.jsonl"))
    for delay in islice(single_delays(script), 0, None, 10):
        player = Scheduler(script, (delay,))
        player.finish(2_000)
        at = {made.number: at for at, made in enumerate(player.steps) if made.number}
        late = [cause.number for cause in script.triggers if cause.number not in at]
        for item in (item for row in script.network.values() for item in row if item.event.number in at):
            before = {cause.number for cause in script.triggers if cause.number < item.event.number} - set(late)
            assert all(at[number] < at[item.event.number] for number in before), (delay, item)


def test_each_race_is_found_in_a_good_recording() -> None:
    assert {path.stem for path in RACES} == set(SORTS)
    for path in RACES:
        recording = answered(path)
        assert [suspect for suspect in suspects_of(recording).suspects if suspect.is_shown] == [], path.stem
        found = explored(script_of(recording), 90).found
        assert {key[0] for key in found} == SORTS[path.stem], path.stem


def test_who_is_made_waits_for_its_maker_alone() -> None:
    steps = [*OPEN[1:], ["incref", 0, 0], ["decref", 0, 0], OPEN[0], ["rwlock", 1, 0, "r"], ["rwunlock", 1, 0, "r"]]
    known: tuple[tuple[Pairs | None, bool], ...] = ((None, True), ([], False), ([(4, 6)], False))
    for orders, is_held in known:
        recording = recording_of(steps)
        recording.lines.orders = orders
        player = Scheduler(script_of(recording), (Delay(3, 7),))
        player.finish(100)
        made = [made.number for made in player.steps]
        assert (made.index(3) < made.index(5)) == is_held
        assert (made.index(4) < made.index(6)) == (orders != [])


def broken(script: Script, delay: Delay, orders: Pairs) -> Pairs:
    """The orders that a schedule violates, because their second step comes before their first step."""
    player = Scheduler(script, (delay,))
    player.finish(2_000)
    at = {made.number: at for at, made in enumerate(player.steps) if made.number}
    return [(one, other) for one, other in orders if one in at and other in at and at[other] < at[one]]


def test_what_a_function_of_the_programs_tries_is_left_open() -> None:
    recording = answered(EXAMPLES / "races/lost-wake-up.jsonl")
    for is_known in (True, False):
        recording.lines = recording.lines if is_known else SourceLines()
        exploring = explored(script_of(recording), 50)
        text = [
            FindingSentences(recording, run_of(recording), exploring.script).unless(f) for f in exploring.found.values()
        ]
        assert text == ([f"{UNLESS}{LEFT_UNKNOWN}; {IF_RAW}"] if is_known else [])


def test_the_deadline_that_ended_a_call_and_the_one_that_moved_it() -> None:
    exploring = explored(script_with(None), 400)
    finding = next(finding for key, finding in exploring.found.items() if key[0] == HANG)
    place, steps = finding.run.places[1], finding.run.steps
    assert ended_by(exploring.script, 1, place) == SET + 1
    set_at, moved_at = moved_by(exploring.script, 1, place, steps)
    assert [steps[at - 1].step[-1] for at in (set_at, moved_at)] == [-1, 0]


def test_who_waits_for_another_that_hangs_is_no_finding() -> None:
    never = script_with([(ENDED, SET)])  # (an impossible order, as if the deadline weren't set)
    assert [key for key in explored(never, 200).found if key[0] == HANG] == []


def test_a_deadline_can_pass_that_did_not() -> None:
    exploring = explored(script_of(recording_of(LATE)), 40)
    assert [key[0] for key in exploring.found] == ["deadline left behind"]
    (finding,) = exploring.found.values()
    assert finding.schedule.delays == (Delay(len(LATE) - 2, len(LATE) + 1),)
    assert [made.step[0] for made in finding.run.steps if not made.number] == ["tick", "pop", "fire"]


def test_one_that_was_moved_for_both_sides_does_not_count() -> None:
    both = [[*step[:3], "rw", 900] if step[0] == "setdeadline" else step for step in LATE]
    assert explored(script_of(recording_of(both)), 40).found == {}
