"""The list of `netrev suspects` in `info suspects`: how nrdb reads it, how the rules use it, and that the rules find
the same without the list. The list comes from the naive implementation (netrev/model/suspects.py)."""

import random
from collections.abc import Iterable
from pathlib import Path

import pytest

from dev.fuzz.generators.injections import Bug, Traffic
from netrev.findings.suspects.computed_facts import by_the_notes
from netrev.findings.suspects.ranking import suspects_of
from netrev.findings.suspects.suspect import Suspect
from netrev.machine.observer import Observer
from netrev.model.suspects import HUNTS, suspects
from netrev.recording.notes import By
from netrev.recording.recording import Recording
from netrev.recording.suspect_list import HeldReference, LostWakeUp, OfDeadline, SuspectEntries, SuspectList
from netrev.run.notes import Notes
from netrev.system.interrupts import Interrupts, SearchInterruptedError
from netrev.text.writer import write_plain
from tests.machine.test_suspect_lines import random_recording, random_waits
from tests.support.examples import ALL, REFUSED

from .test_suspects import BACK, BOTH, COMES, LOOKS, OPEN, PAIRS, PARK, PASSES, READ, WHILE, Steps, recording_of
from .test_suspects_in_calls import lines_of

LOST = "at 22 lost-wakeup gor 0 desc 0 r event 16 taken 18 by 0"
ASLEEP = "at 22 asleep gor 0 desc 0 r because bytes"
WRITER = "at 22 asleep gor 1 desc 0 w because room"
HELD = "at 19 held-reference sock 0 gor 2 count 1 since 5"
GONE = "at 19 held-reference sock 0 gor 3 count 2 since 6 gone"
PASSED = "at 9 passed-deadline desc 0 w set 3 by 0 rw moved 6 by 0"
ENDED = "at 11 timeout gor 2 desc 0 w set 3 by 0 rw moved 6 by 0"
TAKEN = "at 12 taken-back gor 2 desc 1 r set 4 by 1 r"


# ---- reading the list


@pytest.fixture
def netrev(tmp_path: Path) -> Path:
    return tmp_path / "netrev"


def list_of(netrev: Path, script: str, interrupts: Interrupts | None = None) -> SuspectList:
    """The list that this shell script prints."""
    netrev.write_text(f"#!/bin/sh\n{script}\n")
    netrev.chmod(0o755)
    return SuspectList(str(netrev), "some.jsonl", interrupts or Interrupts())


def test_lines_are_kept_as_they_are(netrev: Path) -> None:
    listed = list_of(
        netrev,
        "; ".join(f'echo "{line}"' for line in (PASSED, ENDED, TAKEN, LOST, ASLEEP, WRITER, HELD, GONE, "ok 22 steps")),
    )
    found = listed.of(22)
    assert found and found.lost_wake_ups == [LostWakeUp(LOST, 0, 0, "r", 16, 18, 0)]
    assert found.asleep == {(0, 0, "r"): ASLEEP, (1, 0, "w"): WRITER}
    held, gone = HeldReference(HELD, 0, 2, 1, 5, False), HeldReference(GONE, 0, 3, 2, 6, True)
    assert found.held_references == {(0, 2): held, (0, 3): gone}
    assert found.passed_deadlines == [OfDeadline(PASSED, 9, None, 0, "w", By(3, 0), "rw", By(6, 0))]
    assert found.timeouts == {11: OfDeadline(ENDED, 11, 2, 0, "w", By(3, 0), "rw", By(6, 0))}
    assert found.taken_back == {(12, 1, "r"): OfDeadline(TAKEN, 12, 2, 1, "r", By(4, 1), "r", None)}


def test_netrev_is_asked_for_this_file_and_once(netrev: Path, tmp_path: Path) -> None:
    listed = list_of(netrev, f'echo "$@" >> {tmp_path}/asked; echo ok 22 steps')
    listed.prepare()
    for _ in range(3):
        assert listed.of(22) is not None
    assert (tmp_path / "asked").read_text() == "suspects some.jsonl\n"


@pytest.mark.parametrize(
    "line",
    [
        *(f"{LOST} ", LOST.replace("r event", "x event"), "at 22 something-new gor 1", "", f"{HELD} here"),
        *(f"{ASLEEP} ", ASLEEP.replace("bytes", "room"), WRITER.replace("room", "bytes"), WRITER.replace(" gor 1", "")),
        *(f"{PASSED} ", PASSED.replace("desc", "gor 1 desc"), ENDED.replace("gor 2 ", ""), f"{TAKEN} moved 5"),
    ],
)
def test_a_line_of_no_known_form_says_nothing(netrev: Path, line: str) -> None:
    found = list_of(netrev, f'echo "{line}"; echo ok 22 steps').of(22)
    assert found and not any(vars(found).values())


@pytest.mark.parametrize(
    "script",
    [
        "echo usage: netrev run FILE >&2; exit 2", "echo step 11: fault 109 answer; exit 1",
        f'echo "{LOST}"; echo ok 22 steps; exit 3', f'echo "{LOST}"; echo ok 22 steps; kill -9 $$', f'echo "{LOST}"',
        f'echo "{LOST}"; echo ok 23 steps', "exit 0",
    ],
    ids=["an older netrev", "a fault", "a failure", "killed", "no last line", "another length", "nothing"],
)  # fmt: skip
def test_there_is_no_list(netrev: Path, script: str) -> None:
    assert list_of(netrev, script).of(22) is None


def test_there_is_no_list_without_netrev(tmp_path: Path) -> None:
    assert SuspectList(str(tmp_path / "none"), "some.jsonl", Interrupts()).of(22) is None


def test_an_interrupted_wait_can_be_begun_anew(netrev: Path, tmp_path: Path) -> None:
    interrupts = Interrupts()
    script = f'echo "{LOST}"; while ! [ -e {tmp_path}/go ]; do sleep 0.05; done; echo ok 22 steps'
    listed = list_of(netrev, script, interrupts)
    with interrupts.held():
        interrupts.press()
        with pytest.raises(SearchInterruptedError):
            listed.of(22)
    (tmp_path / "go").touch()
    found = listed.of(22)
    assert found and len(found.lost_wake_ups) == 1


def test_a_netrev_that_still_runs_is_ended(netrev: Path) -> None:
    listed = list_of(netrev, "exec sleep 60")
    listed.drop()  # (nothing was started)
    listed.prepare()
    listed.drop()
    assert listed.of(22) is None


# ---- using the list in the rules


class Reading(SuspectList):
    """The list of a recording according to the naive implementation."""

    def __init__(self, recording: Recording) -> None:
        super().__init__("", "", Interrupts())
        (*self.lines, _), _ = suspects(recording.data, Observer(), HUNTS)

    def prepare(self) -> None:
        pass

    def of(self, length: int) -> SuspectEntries:
        return SuspectEntries(self.lines)


def found(recording: Recording, is_listed: bool = True) -> list[Suspect]:
    """The suspects that are shown, with the list or without it."""
    recording.suspects = Reading(recording) if is_listed else None
    return [suspect for suspect in suspects_of(recording).suspects if suspect.is_shown]


def told(suspects: list[Suspect]) -> list[tuple[object, ...]]:
    """The text of suspects, without netrev's lines."""
    return [
        (suspect.weight, suspect.sentence(), suspect.looks, suspect.steps, suspect.evidence, *suspect.subject)
        for suspect in suspects
    ]


SHUT: Steps = [["incref", 1, 0], ["increfclose", 0, 0], ["evict", 0, 0], ["decref", 0, 0]]
WRITES: Steps = [[*step[:3], "w"] if step[0] == "waitbegin" else step for step in PARK]
ENDS: Steps = [["pollreset", 1, 0, "w"]]
SETS: Steps = [["incref", 0, 0], ["setdeadline", 0, 0, "r", 5]]
LISTED = {
    "lost wake-up": (
        PAIRS["lost wake-up"].bad,
        ["at 11 lost-wakeup gor 1 desc 0 r event 5 taken 7 by 1", "at 11 asleep gor 1 desc 0 r because bytes"],
    ),
    "no event": (PAIRS["no event"].bad, ["at 23 asleep gor 1 desc 0 r because bytes"]),
    "stale event": (PAIRS["stale event"].bad, ["at 12 asleep gor 1 desc 0 r because bytes"]),
    "leaked reference": (OPEN + SHUT + WHILE, ["at 19 held-reference sock 0 gor 1 count 1 since 4"]),
    "deadline left behind": (
        OPEN + BOTH + PASSES + ENDS,
        [
            "at 10 passed-deadline desc 0 w set 5 by 0 rw moved 6 by 0",
            "at 11 timeout gor 1 desc 0 w set 5 by 0 rw moved 6 by 0",
        ],
    ),
    "deadline taken back too soon": (
        OPEN + SETS + PARK + PASSES[1:] + BACK + LOOKS + PARK[1:],
        ["at 13 taken-back gor 1 desc 0 r set 5 by 0 r"],
    ),
    "close without evict": (
        PAIRS["close without evict"].bad,
        ["at 16 held-reference sock 0 gor 0 count 1 since 4"],
    ),
}


@pytest.mark.parametrize("rule", LISTED)
def test_a_suspect_has_netrev_s_lines(rule: str) -> None:
    recording, lines = recording_of(LISTED[rule][0]), LISTED[rule][1]
    assert [(suspect.rule, suspect.listed) for suspect in found(recording)] == [(rule, lines)]
    assert told(found(recording)) == told(found(recording, is_listed=False))


def test_the_list_says_what_set_a_deadline_and_what_moved_since() -> None:
    """The rule takes these facts from the list and not from the notes: with another list it says something else."""
    recording = recording_of(OPEN + BOTH + PASSES + ENDS)
    recording.suspects = reading = Reading(recording)
    reading.lines = [line.replace("set 5 by 0 rw moved 6 by 0", "set 5 by 3 rw moved 6 by 2") for line in reading.lines]
    (suspect,) = suspects_of(recording).suspects
    assert "step 6 by goroutine 2 took back" in suspect.sentence() and suspect.listed == reading.lines


def test_a_deadline_that_was_set_in_the_past_and_taken_back_is_found_and_not_listed() -> None:
    recording = recording_of(PAIRS["deadline taken back too soon"].bad)
    assert [(suspect.rule, suspect.listed) for suspect in found(recording)] == [("deadline taken back too soon", [])]


def test_a_reference_of_an_open_socket_has_no_line() -> None:
    assert [suspect.listed for suspect in found(recording_of(PAIRS["leaked reference"].bad))] == [[]]


NOT_THROWN_AWAY = {
    "blockarm takes the readiness": (
        OPEN + COMES[1:] + PARK[:2] + PARK,
        ["at 10 lost-wakeup gor 1 desc 0 r event 4 taken 6 by 1"],
    ),
    "blockswap takes the readiness": (
        OPEN + PARK + COMES[1:] + [["blockswap", 1]] + PARK,
        ["at 13 lost-wakeup gor 1 desc 0 r event 8 taken 9 by 1"],
    ),
    "a wait for writing": (
        OPEN + [["pollevent", 0, 1, "w", 0], ["pollreset", 1, 0, "w"]] + WRITES,
        ["at 9 lost-wakeup gor 1 desc 0 w event 4 taken 5 by 1", "at 9 asleep gor 1 desc 0 w because room"],
    ),
}


@pytest.mark.parametrize("steps, lines", NOT_THROWN_AWAY.values(), ids=NOT_THROWN_AWAY)
def test_a_lost_wake_up_is_found_that_no_pollreset_threw_away(steps: Steps, lines: list[str]) -> None:
    assert told(found(recording_of(steps))) == told(found(recording_of(steps), is_listed=False))
    (suspect,) = found(recording_of(steps))
    assert (suspect.rule, suspect.listed) == ("lost wake-up", lines)
    assert f"taken {suspect.step} " in lines[0] and suspect.sentence().count("hangs: parked since step") == 1


@pytest.mark.parametrize("name, is_shown", [("RawRead", False), ("Accept", False), ("Read", True)])
def test_it_is_not_shown_in_a_call_whose_tries_no_step_shows(name: str, is_shown: bool) -> None:
    own: Steps = PARK[:2] + PARK
    recording = recording_of(OPEN + COMES[1:] + own)
    recording.lines = lines_of(OPEN + COMES[1:] + own, [f"(*FD).{name}"], "main.main")
    assert bool(found(recording)) == is_shown


@pytest.mark.parametrize("name, is_shown", [("RawRead", True), ("Accept", False), ("Read", True)])
def test_it_is_shown_where_bytes_are_unread_but_not_in_accept(name: str, is_shown: bool) -> None:
    own: Steps = PARK[:2] + PARK
    recording = recording_of(OPEN + COMES + own)
    recording.lines = lines_of(OPEN + COMES + own, [f"(*FD).{name}"], "main.main")
    assert bool(found(recording)) == is_shown


def test_a_goroutine_that_has_read_since_is_doubtful() -> None:
    """A read that gets fewer bytes than it asks for isn't an EAGAIN, so netrev lists the wait after it; but nothing is
    unread."""
    steps = PAIRS["lost wake-up"].good
    assert len(Reading(recording_of(steps)).lines) == 1 and found(recording_of(steps)) == []
    assert [suspect.rule for suspect in found(recording_of([*steps[:3], ["arrive", 0, "00" * 16], *steps[4:]]))] == []
    more = [*steps[:3], ["arrive", 0, "00" * 16], *steps[4:7], ["sysread", 1, 0, 15], *steps[8:]]
    assert [(suspect.rule, suspect.step) for suspect in found(recording_of(more))] == [("lost wake-up", 7)]


def test_none_is_lost_behind_a_try_of_another_goroutine() -> None:
    steps = OPEN + COMES[1:] + [["sysread", 0, 0, 16], ["pollreset", 1, 0, "r"]] + PARK
    assert Reading(recording_of(steps)).lines == []
    assert found(recording_of(steps)) == found(recording_of(steps), is_listed=False) == []


def test_bytes_that_came_after_the_event_have_none_of_their_own() -> None:
    """The lost wake-up isn't the event that the goroutine is missing: no event came for these bytes."""
    steps = OPEN + COMES[1:] + PARK[:2] + PARK + COMES[:1] + WHILE
    assert [suspect.rule for suspect in found(recording_of(steps))] == ["no event", "lost wake-up"]


@pytest.mark.parametrize(
    "example", [suspect for suspect in ALL if suspect.name not in REFUSED], ids=lambda suspect: suspect.name
)
def test_examples_have_the_same_suspects(example: "object") -> None:
    recording = Recording.read(str(example.path))  # type: ignore[attr-defined]
    assert told(found(recording)) == told(found(recording, is_listed=False))


@pytest.mark.parametrize("bug", [None, *Bug], ids=lambda bug: bug.value if bug else "nothing")
def test_planted_bugs_have_the_same_suspects(bug: Bug | None) -> None:
    for seed in (100, 101):
        recording = Recording(Traffic(seed, bug, 1_000).run().text())
        assert told(found(recording)) == told(found(recording, is_listed=False))


def test_random_recordings_have_the_same_facts_by_the_notes() -> None:
    """The rules find the same facts from nrdb's notes as from netrev's list. Searches and older netrevs have only the
    notes."""
    lost = passed = ended = back = 0
    for seed in range(200):
        dice = random.Random(f"suspects {seed}")
        recording = Recording(write_plain(random_waits(dice) if seed % 3 == 0 else random_recording(dice)))
        by_notes, listed = by_the_notes(Notes(recording)), Reading(recording).of(0)
        assert without_lines(by_notes.lost_wake_ups) == without_lines(listed.lost_wake_ups), seed
        assert without_lines(by_notes.passed_deadlines) == without_lines(listed.passed_deadlines), seed
        assert without_lines(by_notes.timeouts.values()) == without_lines(listed.timeouts.values()), seed
        assert told(found(recording)) == told(found(recording, is_listed=False)), seed
        lost, passed = lost + len(listed.lost_wake_ups), passed + len(listed.passed_deadlines)
        ended, back = ended + len(listed.timeouts), back + len(listed.taken_back)
    assert min(lost, passed, ended, back) > 10


def without_lines(facts: Iterable[LostWakeUp | OfDeadline]) -> list[str]:
    """Facts without netrev's lines, sorted."""
    return sorted(repr(suspect._replace(line="")) for suspect in facts)


def test_a_close_that_goes_on_has_a_line_and_is_no_suspect() -> None:
    """The list doesn't contain only bugs: it also has the state in which a recording ends."""
    recording = recording_of(OPEN + SHUT[:2])
    assert len(Reading(recording).lines) == 2 and found(recording) == []
