"""Tests boundary cases of nrdb: pauses, uses of descriptors, sizes, hints, rules, the command line, and calls inside
calls."""

import argparse
import os
import sys
from collections import defaultdict
from types import ModuleType
from types import SimpleNamespace as Made
from typing import Any, cast

import pytest

from netrev.findings.suspects.rule_loader import RULES, RULES_OF_CALLS, _rule_of
from netrev.messages import texts
from netrev.recording.call import Call, Outcome
from netrev.recording.notes import GoroutineStatus, Pauses, Setting, Use
from netrev.recording.recording import NotARecordingError, check_size
from netrev.run import calls
from netrev.run.calls import Book
from netrev.session import text_hints
from netrev.views import goroutines
from nrdb import cli

Patch = pytest.MonkeyPatch


@pytest.mark.parametrize(
    "pauses, enough", [([], -1), ([5], -1), ([5, 9], -1), ([5, 9, 7], 9), ([9, 5, 7, 12], 12), ([0, 0, 0], 0)]
)
def test_a_pause_counts_once_three_pauses_have_ended(pauses: list[int], enough: int) -> None:
    noted = Pauses()
    for steps in pauses:
        noted.ends(steps)
    assert (noted.enough, noted.count, noted.longest) == (enough, len(pauses), max(pauses, default=0))


@pytest.mark.parametrize(
    "text, number, side, states",
    [("idle", -1, "", "idle"), ("acquiring 3 r", 3, "r", "acquiring"), ("queued 4 w", 4, "w", "asleep"), ("parked 0 r", 0, "r", "asleep")],
)  # fmt: skip
def test_the_parts_of_a_status(text: str, number: int, side: str, states: str) -> None:
    status = GoroutineStatus(text, Pauses())
    assert (status.number, status.side, str(status)) == (number, side, text)
    is_in = {"idle": status.is_idle, "acquiring": status.is_acquiring, "asleep": status.is_asleep}
    assert [name for name, is_true in is_in.items() if is_true] == [states]


def test_a_use_of_a_descriptor_lasts_and_has_no_events_at_first() -> None:
    use = Use(1, 4, 20, 7)
    assert (use.descriptor, use.socket, use.opened, use.closed, use.tag) == (1, 4, 20, 0, 7)
    assert [use.last_event(side) for side in "rw"] == [0, 0]


@pytest.mark.parametrize(
    "side, step, found", [("r", 4, 5), ("r", 5, 9), ("w", 4, 7), ("w", 7, 9), ("r", 9, None), ("w", 9, None)]
)
def test_the_next_setting_of_a_side(side: str, step: int, found: int | None) -> None:
    use = Use(1, 4, 1, 7)
    for number, mode in ((3, "rw"), (5, "r"), (7, "w"), (9, "rw")):
        use.settings.append(Setting(number, *cast(Any, [0] * (len(Setting._fields) - 1)))._replace(mode=mode))
    later = use.setting_after(side, step)
    assert (later and later.step) == found


@pytest.mark.parametrize("more, is_too_large", [(-1, False), (0, False), (1, True)])
def test_a_file_may_be_as_large_as_memory(more: int, is_too_large: bool) -> None:
    memory = os.sysconf("SC_PHYS_PAGES") * os.sysconf("SC_PAGE_SIZE")
    if is_too_large:
        with pytest.raises(NotARecordingError):
            check_size("a.jsonl", memory + more)
    else:
        check_size("a.jsonl", memory + more)


@pytest.mark.parametrize(
    "text, is_last, hint",
    [
        ('["tick",1', True, texts.LAST_LINE_IS_CUT), ('["tick",1', False, texts.JSON_ERROR.format(number=10)),
        ('["tick",1] x', True, texts.JSON_ERROR.format(number=12)), ("", True, texts.EMPTY), ("", False, texts.NO_HEADER),
        ("// a step", True, texts.COMMENTS), ('["tick",1],', True, texts.COMMA_AT_END), ('["tick",1,]', False, texts.COMMA_AT_BRACKET),
        ("['tick',1]", False, texts.QUOTES), ('3: ["tick",1]', True, texts.BEFORE_BRACKET.format(text="3:")),
    ],
)  # fmt: skip
def test_hints_for_lines_that_are_not_json(text: str, is_last: bool, hint: str) -> None:
    recording = Made(is_last=lambda number: is_last, header_line=1)
    assert text_hints.json_hint(cast(Any, recording), 7, text) == hint


def test_a_rule_has_its_name_and_definition_from_its_module() -> None:
    module = ModuleType("held_too_long", "Held too long: a lock\n    that is held.\n")
    module.rule = lambda run: iter(())  # type: ignore[attr-defined]
    assert _rule_of(module)[:2] == ("held too long", "a lock that is held.")
    for rule in (*RULES, *RULES_OF_CALLS):
        assert rule.name and rule.definition.endswith("."), rule


WANTED: dict[str, Any] = {
    "batch": False, "suspects": False, "explore": None, "web": None, "timeline": None, "trace": None, "reduce": None,
}  # fmt: skip


@pytest.mark.parametrize(
    "change, is_terminal, has_prompt",
    [
        ({}, True, True), ({}, False, False), ({"batch": True}, True, False), ({"suspects": True}, True, False), ({"explore": 9}, True, False),
        ({"web": 0}, True, False), ({"timeline": "a"}, True, False), ({"trace": "a"}, True, False),
        ({"reduce": "a"}, True, False),
    ],
)  # fmt: skip
def test_who_has_a_prompt(change: dict[str, Any], is_terminal: bool, has_prompt: bool, monkeypatch: Patch) -> None:
    monkeypatch.setattr(sys, "stdin", Made(isatty=lambda: is_terminal))
    assert cli.has_prompt(argparse.Namespace(**(WANTED | change))) is has_prompt


def test_the_words_after_the_program_s_name_are_read(monkeypatch: Patch) -> None:
    read: list[list[str]] = []

    def parsed(words: list[str]) -> argparse.Namespace:
        read.append(words)
        raise SystemExit(0)

    monkeypatch.setattr(cli, "parsed", parsed)
    monkeypatch.setattr(sys, "argv", ["nrdb", "a.jsonl", "--batch"])
    for words in (None, ["b.jsonl"]):
        with pytest.raises(SystemExit):
            cli.main(words)
    assert read == [["a.jsonl", "--batch"], ["b.jsonl"]]


@pytest.mark.parametrize(
    "web, ended, runs, errors, status",
    [
        (None, 0, 0, 0, 0), (None, 3, 0, 0, 3), (None, 3, 4, 0, 3), (None, 0, 4, 0, 4), (None, 0, 0, 1, 3), (None, 0, 4, 1, 4), (0, 3, 0, 0, 0),
        (0, 3, 4, 0, 4),
    ],
)  # fmt: skip
def test_the_exit_status_is_netrev_s_own_except_after_a_page(
    web: int | None, ended: int, runs: int, errors: int, status: int, monkeypatch: Patch
) -> None:
    session = Made(
        ask=lambda line: "at 0 of 9 forward", begin=lambda first: None, recording=None, scout=None, recorded=None,
        errors=errors,
    )  # fmt: skip
    monkeypatch.setattr(cli, "session_of", lambda *words: session)
    monkeypatch.setattr(cli, "has_prompt", lambda wanted: False)
    monkeypatch.setattr(cli, "played", lambda item, wanted: runs)
    wanted = argparse.Namespace(web=web)
    assert cli.begun(wanted, cast(Any, Made(close=lambda: ended)), cast(Any, None), cast(Any, None)) == status


IDLE = cast(Any, Made(status=Made(is_idle=True)))


def test_an_error_of_the_system_belongs_to_the_innermost_call_alone() -> None:
    outer, inner = Call(1, "Close", 3, 0, 5), Call(1, "Read", 3, 0, 6, is_ending=True)
    book = cast(Any, Made(error="ECONNRESET"))
    open_calls = [outer, inner]
    for step in (9, 10):
        Book.settle(book, step, IDLE, open_calls)
    assert (inner.outcome, inner.error, inner.last) == (Outcome.SYSTEM_ERROR, "ECONNRESET", 9)
    assert (outer.outcome, outer.error, outer.last) == (Outcome.DONE, "", 0)
    assert open_calls == [outer] and book.error == ""


@pytest.mark.parametrize(
    "names, code, ended",
    [([], 0, "WaitRead"), (["Read"], 0, ""), (["Read", "WaitWrite"], 2, "WaitWrite"), (["Close", "Read"], 1, "")],
)
def test_a_check_outside_a_call_is_a_call_of_its_own(names: list[str], code: int, ended: str) -> None:
    settled: list[str] = []
    open_calls = [Call(1, name, 3, 0, step) for step, name in enumerate(names, 5)]
    timeout = Made(due=Made(setting=Made(step=2)), passing=Made(step=4))
    notes = Made(
        goroutine=lambda g: IDLE, use_of={0: Made(socket=3)}, code=code, timeouts=[timeout], closer={3: Made(step=7)},
        shut={},
    )  # fmt: skip
    book = Made(
        open=defaultdict(list, {1: open_calls}),
        calls=[],
        settle=lambda step, goroutine, item: settled.append(item[-1].name),
    )
    calls.checks(cast(Any, book), cast(Any, notes), 1, 0, "r")(8)
    assert settled == ([ended] if ended else [])
    innermost = open_calls[-1]
    assert innermost.outcome is {0: Outcome.DONE, 1: Outcome.CLOSED, 2: Outcome.TIMED_OUT}[code]
    assert (innermost.cause, innermost.passed) == {0: (0, 0), 1: (7, 0), 2: (2, 4)}[code]
    assert all(call.outcome is Outcome.DONE for call in open_calls[:-1])
    assert [call.first for call in book.calls] == ([] if names else [8])


def test_a_failed_check_ends_the_innermost_call(monkeypatch: Patch) -> None:
    failed: list[tuple[str, Outcome]] = []
    monkeypatch.setattr(calls, "fail", lambda notes, call, outcome: failed.append((call.name, outcome)))
    open_calls = [Call(1, "Close", 3, 0, 5), Call(1, "Read", 3, 0, 6)]
    book = Made(open={1: open_calls}, settle=lambda step, goroutine, item: None)
    calls.checks_again(cast(Any, book), cast(Any, Made(goroutine=lambda g: IDLE, code=2)), 1)(9)
    assert failed == [("Read", calls.CODES[2])]


@pytest.mark.parametrize(
    "numbers, text",
    [
        ([], ""), ([4], "4"), ([5, 4], "4 to 5"), ([1, 3, 4, 5, 9], "1, 3 to 5, 9"), (list(range(0, 16, 2)), "0, 2, 4, 6, 8, 10, 12, 14"),
        (list(range(0, 18, 2)), "0, 2, 4, 6, 8, 10, 12, 14 .."),
    ],
)  # fmt: skip
def test_goroutines_in_a_row_are_a_range_and_eight_ranges_are_shown(numbers: list[int], text: str) -> None:
    assert goroutines._runs(numbers) == text
