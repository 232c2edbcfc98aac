"""Exploring without netrev: a schedule without delays repeats the recording step by step; a race that doesn't occur in
a good run is found, and none is found in a correct program; and the text about findings."""

import json
from itertools import islice
from pathlib import Path
from typing import Any

import pytest

from dev.fuzz.generators.injections import Traffic
from netrev.explore import commands
from netrev.explore.numbered_state import ImpossibleScheduleError
from netrev.explore.scheduler import Scheduler
from netrev.explore.schedules import Delay, Schedule, drawn, schedules, single_delays, touched
from netrev.explore.script import Script, script_of, with_early_arrivals
from netrev.explore.search import HANG, Search
from netrev.explore.sentences import LEFT_UNKNOWN, UNKNOWN, UNLESS, FindingSentences, summary
from netrev.findings.suspects.ranking import suspects_of
from netrev.machine.machine import World
from netrev.machine.steps import apply
from netrev.recording.recording import Recording
from netrev.run.changes import PlayedSteps, changes_of
from netrev.run.flow import OperationType
from netrev.run.index import run_of
from netrev.session.session import UsageError
from netrev.system.interrupts import SearchInterruptedError
from netrev.text.contents import Limits
from netrev.text.vocabulary import KINDS
from netrev.text.writer import line_of
from tests.support.stubs import stub
from tests.suspects.test_suspects import COMES, LOOKS, OPEN, PARK, READ, recording_of

EXAMPLES = Path(__file__).resolve().parents[3] / "examples"
REFUSED = ("other-answer", "early-arrival")  # netrev rejects these, so they aren't runs of the machine
ENDS = [["rwunlock", 1, 0, "r"]]
# a deadline in the past ends a read, and is removed when the read has ended
SETS = [["incref", 0, 0], ["setdeadline", 0, 0, "r", -1], ["decref", 0, 0]]
TAKES_BACK = [["incref", 0, 0], ["setdeadline", 0, 0, "r", 0], ["decref", 0, 0]]
GOOD = OPEN + READ + PARK + SETS + LOOKS + ENDS + TAKES_BACK
SEEDS = [19, 20, 24, 26, 33]  # the seeds among the first forty that find it
NOBODYS = ("spawn", "sockopen", "arrive", "drain", "peerclose", "pollevent", "tick", "pop", "fire")
TRAFFIC, LENGTH = range(720, 724), 800  # seeds of good runs, and their length
HEALTHY = ("answers", "first", "temporary-break", "shut-write-side", "real/half", "real/leak")


def examples() -> list[Path]:
    """All recordings that netrev accepts."""
    found = [path for folder in ("", "hunts", "real", "races") for path in sorted((EXAMPLES / folder).glob("*.jsonl"))]
    return [path for path in found if path.stem not in REFUSED]


def answered(path: Path) -> Recording:
    """The recording of a file, with the model's answers."""
    return with_answers(Recording.read(str(path)))


def with_answers(recording: Recording) -> Recording:
    """A recording with the model's answers."""
    world = World(Limits(*(recording.limits[key] for key in Limits._fields)))
    lines = [json.dumps({**recording.limits, "netrev": 2})]
    for kind, *rest in recording.arrays():
        forms = KINDS[kind].arguments
        arguments = [bytes.fromhex(one) if form == "bytes" else one for form, one in zip(forms, rest)]
        world, answer = apply(world, (kind, *arguments))
        lines.append(line_of((kind, *arguments), answer))
    made = Recording("".join(f"{line}\n" for line in lines).encode())
    made.lines = recording.lines
    return made


def script_at(name: str) -> Script:
    return script_of(answered(EXAMPLES / f"{name}.jsonl"))


def explored(script: Script, most: int) -> Search:
    """The result of this many schedules."""
    exploring = Search(script, lambda number: "")
    exploring.run(most, lambda: None)
    return exploring


def test_without_a_delay_each_recording_is_played_to_the_very_same_steps() -> None:
    assert len(examples()) > 15
    for path in examples():
        recording = answered(path)
        player = Scheduler(script_of(recording))
        player.finish(2 * recording.length + 100)
        lines = [json.loads(line_of(made.step, made.answer)) for made in player.steps]
        assert lines[: recording.length] == list(recording.arrays()), path.stem
        numbers = [made.number for made in player.steps]
        assert numbers[: recording.length] == list(range(1, recording.length + 1)), path.stem


@pytest.mark.parametrize("seed", TRAFFIC)
def test_so_is_random_traffic(seed: Any) -> None:
    steps = Traffic(seed, None, LENGTH).run().text()
    recording = with_answers(Recording(steps))
    player = Scheduler(script_of(recording))
    player.finish(2 * recording.length)
    lines = [json.loads(line_of(made.step, made.answer)) for made in player.steps]
    assert lines[: recording.length] == list(recording.arrays())


def test_what_is_refused_is_no_run_of_the_machine() -> None:
    for path in (EXAMPLES / "other-answer.jsonl", EXAMPLES / "hunts" / "early-arrival.jsonl"):
        recording = Recording.read(str(path))
        assert list(answered(path).arrays()) != list(recording.arrays())


def test_a_call_is_a_row_of_operations() -> None:
    script = script_of(recording_of(GOOD))
    reader = [operation.sort for operation in script.goroutines[1]]
    assert reader == [OperationType.LOCK, OperationType.RESET, OperationType.READ, OperationType.UNLOCK]
    assert [operation.on_failure for operation in script.goroutines[1][1:3]] == [3, 3]
    assert [goroutine.sort for goroutine in script.goroutines[0][:2]] == [OperationType.MAKE, OperationType.OPEN]


def test_a_call_that_found_its_deadline_passed_would_have_read() -> None:
    steps = OPEN + READ + ENDS + SETS + READ[:2] + ENDS
    assert [operation.sort for operation in script_of(recording_of(steps)).goroutines[1]][4:] == [
        OperationType.LOCK,
        OperationType.RESET,
        OperationType.READ,
        OperationType.UNLOCK,
    ]


def test_bytes_that_a_recorder_has_put_before_the_read_come_with_their_event() -> None:
    steps = OPEN + READ + PARK + [COMES[1], ["blockswap", 1], COMES[0], ["sysread", 1, 0, 16]] + ENDS
    rows = with_early_arrivals(script_of(recording_of(steps))).network[0]
    assert [item.event.kind for item in rows] == ["arrive", "pollevent"]
    early = script_of(recording_of(OPEN + READ + PARK + COMES))
    assert with_early_arrivals(early).network == early.network


def test_who_stands_still_does_so_until_a_step_of_others_about_the_same_thing() -> None:
    script = script_at("real/hijacked")
    who = {step.number: step.actor for steps in touched(script).values() for step in steps}
    things: dict[int, set[Any]] = {}
    for thing, steps in touched(script).items():
        for step in steps:
            things.setdefault(step.number, set()).add(thing)
    delays = single_delays(script)
    assert len(set(delays)) == len(delays)
    for delay in delays:
        assert delay.before < delay.until
        if delay.until > script.length:
            continue  # (until a deadline has passed)
        assert things[delay.before] & things[delay.until]
        assert who[delay.before] != who[delay.until]


def test_single_delays_come_first_and_a_seed_draws_the_same_again() -> None:
    delays = single_delays(script_of(recording_of(GOOD)))
    made = list(schedules(delays, len(delays) + 20))
    assert [delay.delays for delay in made[: len(delays)]] == [(delay,) for delay in delays]
    seeds = [delay.seed for delay in made[len(delays) :]]
    assert seeds == sorted(set(seeds))
    assert [delay.delays for delay in made[len(delays) :]] == [drawn(delays, sorted(delays), seed) for seed in seeds]
    assert len({item.delays for item in made}) == len(delays) + 20
    assert all(1 <= len(item.delays) <= 3 for item in made)


def test_nothing_that_may_answer_a_write_comes_before_it() -> None:
    script = script_at("real/half")
    write = next(
        number
        for number in [cause.number for cause in script.triggers if not cause.goroutine]
        if script.answers[number - 1] == ("put", 3)
    )
    player = Scheduler(script, (Delay(write, write + 12),))
    player.finish(1_000)
    order = [made.step[0] for made in player.steps if made.step[0] == "syswrite" or made.step[:2] == ("arrive", 3)]
    assert order[:2] == ["syswrite", "syswrite"]


def test_each_makes_its_own_steps_in_their_order_and_behind_its_go_statement() -> None:
    script = script_at("real/hijacked")
    for delay in islice(single_delays(script), 0, None, 10):
        player = Scheduler(script, (delay,))
        player.finish(1_000)
        by_whom: dict[int, list[int]] = {}
        for made in player.steps:
            if made.number and made.step[0] not in NOBODYS:
                by_whom.setdefault(made.step[1], []).append(made.number)
        for numbers in by_whom.values():
            assert numbers == sorted(numbers)
        order = [made.number for made in player.steps]
        for spawn in (made.number for made in player.steps if made.step[0] == "spawn"):
            before = {number for number in order if 0 < number < spawn} - set(order[: order.index(spawn)])
            assert delay.before not in before


def test_a_schedule_that_goes_on_from_a_copy_is_the_same_as_from_the_beginning() -> None:
    for name in ("races/early-cancel", "races/http-watchdog"):
        exploring = Search(script_at(name), lambda number: "")
        for delay in exploring.delays[::3]:
            player = Scheduler(exploring.script, (delay,))
            player.finish(1_000)
            if played := exploring.run_schedule((delay,)):
                assert [made.step for made in played.steps] == [made.step for made in player.steps]
            else:
                assert player.state.machine.world().goroutines == exploring.recorded.world.goroutines


def test_the_changes_of_a_schedule_are_those_of_its_steps() -> None:
    compared = 0
    for name in ("races/early-cancel", "races/http-idle", "real/hung"):
        exploring = Search(script_at(name), lambda number: "")
        runs = [exploring.recorded, *(exploring.run_schedule((delay,)) for delay in exploring.delays[::7])]
        for run in runs:
            if run and run.changes is not None:
                steps = [made.step for made in run.steps]
                given, made_again = (changes_of(PlayedSteps(steps, changes)) for changes in (run.changes, None))
                assert given.pieces() == made_again.pieces()
                compared += 1
    assert compared > 10


def test_a_step_that_cannot_be_is_no_schedule() -> None:
    script = script_of(recording_of(GOOD))
    script.limits = script.limits._replace(sock=0)
    with pytest.raises(ImpossibleScheduleError):
        Scheduler(script).finish(100)


def test_a_race_is_found_in_a_good_recording() -> None:
    assert suspects_of(recording_of(GOOD)).suspects == []
    exploring = explored(script_of(recording_of(GOOD)), 40)
    finding = exploring.found["deadline taken back too soon", 1, 0]
    again = suspects_of(PlayedSteps(made.step for made in finding.run.steps)).suspects
    assert (again[0].rule, again[0].goroutine) == ("deadline taken back too soon", 1)
    assert len(finding.schedule.delays) == 1
    assert finding.run.world.goroutines[1] == ("parked", 0, "r")


def test_a_seed_finds_it_again() -> None:
    exploring = Search(script_of(recording_of(GOOD)), lambda number: "")
    in_order = sorted(exploring.delays)
    found = []
    for seed in range(1, 41):
        exploring.found.clear()
        exploring.try_schedule(Schedule(drawn(exploring.delays, in_order, seed), seed))
        if any(key[0] == "deadline taken back too soon" for key in exploring.found):
            found.append(seed)
    assert found == SEEDS


def test_a_finding_is_left_with_the_delays_that_it_needs() -> None:
    exploring = explored(script_of(recording_of(GOOD)), 40)
    finding = exploring.found["deadline taken back too soon", 1, 0]
    more = finding.schedule._replace(delays=(Delay(4, 11), *finding.schedule.delays))
    least = exploring.simplest(finding._replace(schedule=more))
    assert (least.key, least.schedule.delays) == (finding.key, finding.schedule.delays)


def test_a_read_that_ended_by_its_deadline_hangs_where_it_comes_later() -> None:
    exploring = explored(script_of(recording_of(OPEN + SETS + READ[:2] + ENDS + TAKES_BACK)), 40)
    assert [key[0] for key in exploring.found] == [HANG]


@pytest.mark.parametrize("name", HEALTHY)
def test_healthy_recordings_have_none(name: str) -> None:
    exploring = explored(script_at(name), 300)
    assert (exploring.tried > 5, exploring.found) == (True, {})


@pytest.mark.parametrize("name", ["real/past", "past-deadline", "lost-wakeup"])
def test_what_the_recorded_run_has_itself_is_none(name: str) -> None:
    exploring = explored(script_at(name), 200)
    assert exploring.known != set()
    assert [key for key in exploring.found if key in exploring.known] == []


class SearchWithSentences:
    """A search in a good recording, and its sentences."""

    def __init__(self) -> None:
        self.recording = recording_of(GOOD)
        self.exploring = explored(script_of(self.recording), 40)
        self.telling = FindingSentences(self.recording, run_of(self.recording), self.exploring.script)


@pytest.fixture
def search() -> SearchWithSentences:
    return SearchWithSentences()


def test_a_finding_says_who_stands_still_until_when_and_that_it_is_possible(search: SearchWithSentences) -> None:
    finding = search.exploring.found["deadline taken back too soon", 1, 0]
    lines = search.telling.finding(1, finding, 3, "x-other-1.jsonl")
    assert lines[1:] == [
        "   goroutine 1, in Read on socket 0, pauses before waitcheck (step 15) until goroutine 0 has made "
        "setdeadline in SetReadDeadline on socket 0 (step 18)",
        "   so ended 3 schedules",
        f"   {UNLESS}{UNKNOWN}",
    ]
    assert lines[0].startswith("1. deadline taken back too soon, in x-other-1.jsonl: the read deadline of ")


def test_each_finding_ends_with_that_it_is_possible(search: SearchWithSentences) -> None:
    assert len(search.exploring.found) > 1
    for finding in search.exploring.found.values():
        assert search.telling.finding(1, finding, 1, "x.jsonl")[-1] == f"   {UNLESS}{UNKNOWN}"


def test_the_summary_says_how_many_and_by_which_seeds(search: SearchWithSentences) -> None:
    delays = len(search.exploring.delays)
    text = summary(search.exploring, 1.25, True)
    assert text.startswith("stopped: 40 schedules near the recorded one in 1.2 s ("), text
    assert f"(one delay: {delays} of {delays}; two and three: seeds 1 to {search.exploring.seed})" in text
    assert text.endswith("; 2 findings"), text


def test_a_recording_that_is_too_long_is_refused() -> None:
    session = stub(text=lambda: stub(length=100_001))
    with pytest.raises(UsageError, match="explore takes at most 100000 steps"):
        commands.explored(session)


def test_ctrl_c_keeps_what_was_found(monkeypatch: pytest.MonkeyPatch, search: SearchWithSentences) -> None:
    stops: Any = [*(None for _ in range(38)), SearchInterruptedError]
    checks = iter(stops)

    def check() -> None:
        if error := next(checks):
            raise error

    session = stub(text=lambda: search.recording, program="netrev", interrupts=stub(check=check))
    monkeypatch.setattr(commands, "answered_recording", lambda *_: search.recording)
    monkeypatch.setattr(commands.FindingFiles, "write", lambda _, at, finding, times: [f"{at}. {finding.key[0]}"])
    text = commands.explored(session, 1_000)
    assert text.text.startswith("stopped: 39 schedules"), text.text
    assert text.found == len(text.text.splitlines()) - 1
    assert text.found > 0
