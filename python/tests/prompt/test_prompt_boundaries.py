"""What the words of a line mean at the prompt: cells, values and positions, the lines of `list`, completions, and the
positions of a page and of its marks."""

import io
from contextlib import nullcontext
from pathlib import Path
from typing import Any, cast

import pytest

from netrev.connection.output import Table
from netrev.messages import searches
from netrev.recording.recording import Recording
from netrev.session.session import Session, UsageError
from netrev.text.vocabulary import ObjectKind
from netrev.timeline import page, page_data
from netrev.timeline.cell_runs import Window
from netrev.timeline.page_contents import MOST
from netrev.timeline.page_data import marks_of, ticks_of, times_of
from nrdb.prompt import terminal
from nrdb.prompt.answers import ROUND, answer_list, taken_cell, taken_conditions, taken_number, taken_position
from nrdb.prompt.completion import candidates
from nrdb.prompt.terminal import Terminal, repeats
from tests.support.stubs import stub
from tests.suspects.test_suspects import OPEN, READ, Steps, recording_of

from .test_program_places import session_of

TICKS: Steps = [["tick", 5_000], ["tick", 2_000_000], ["tick", 3_000_000_000]]


@pytest.fixture
def session() -> Session:
    return session_of(io.StringIO())


@pytest.mark.parametrize(
    ("line", "cell", "rest"),
    [
        ("clock", "clock", []), ("clock 7", "clock", ["7"]), ("lock 2", "lock 2", []), ("lock 2 8 x", "lock 2", ["8", "x"]), ("gor 0 idle", "gor 0", ["idle"]),
    ],
)  # fmt: skip
def test_the_cell_at_the_beginning_of_a_line(line: str, cell: str, rest: list[str]) -> None:
    assert taken_cell("until", line.split()) == (cell, rest)


@pytest.mark.parametrize(
    ("line", "says"),
    [("", "until CELL"), ("lock", "lock needs the number"), ("lock x", "lock needs the number"), ("gor -1", "gor needs the number"), ("nothing", "nothing isn't a cell"), ("2 lock", "2 isn't a cell")],
)  # fmt: skip
def test_a_line_without_a_cell(line: str, says: str) -> None:
    with pytest.raises(UsageError, match=says):
        taken_cell("until", line.split())


@pytest.mark.parametrize(
    ("line", "wanted"),
    [
        ("lock 0 8", {"lock 0": "8"}),
        ("lock 0 = 8", {"lock 0": "8"}),
        ("lock 0 == 8", {"lock 0": "8"}),
        ("gor 1 parked 0 r", {"gor 1": "parked 0 r"}),
        ("gor 1 parked* and rd 0 -1", {"gor 1": "parked*", "rd 0": "-1"}),
        ("gor 1 parked* && clock 7 and lock 0 8", {"gor 1": "parked*", "clock": "7", "lock 0": "8"}),
        ("lock 0 a and b", {"lock 0": "a and b"}),  # (part of a value in words)
        ("lock 0 8 and", {"lock 0": "8 and"}),
        ("lock 0 read lock held", {"lock 0": "read lock held"}),
        ("lock 0 held lock and clock 7", {"lock 0": "held lock", "clock": "7"}),
    ],
)
def test_the_conditions_of_a_line(line: str, wanted: dict[str, str]) -> None:
    assert taken_conditions("until", line.split()) == wanted


@pytest.mark.parametrize("line", ["lock 0", "lock 0 =", "lock 0 and clock 7", "clock 7 and lock 0", "clock 7 and lock"])
def test_a_condition_needs_a_value(line: str) -> None:
    with pytest.raises(UsageError):
        taken_conditions("until", line.split())


@pytest.mark.parametrize(
    ("line", "position"),
    [
        ("start", 0), ("end", 6), ("4", 4), ("0", 0), ("4999ns", 3), ("5000ns", 4), ("5us", 4), ("2ms", 5), ("1.999999ms", 4), ("2.5s", 5), ("3s", 6), ("9s", 6),
    ],
)  # fmt: skip
def test_positions_by_number_and_by_time(line: str, position: int) -> None:
    recording = recording_of(OPEN + TICKS)
    found = taken_position(stub(length=6, text=lambda: recording), line.split())
    assert found == position


@pytest.mark.parametrize("line", ["", "3 4", "start end", "x", "-1", "3m"])
def test_words_that_are_no_position(line: str) -> None:
    with pytest.raises(UsageError):
        taken_position(stub(length=6), line.split())
    if line != "start end":
        with pytest.raises(UsageError):
            taken_number("list", line.split())


@pytest.mark.parametrize("position", [0, 1, 20, -1])
def test_list_marks_the_next_step(monkeypatch: pytest.MonkeyPatch, session: Session, position: int) -> None:
    length = session.text().length
    at = position % (length + 1)
    session.go(at)
    lists: list[tuple[list[str], int]] = [([], at + 1), (["9"], 9), ([str(length)], length)]
    for words, middle in lists:
        printed: list[Table] = []
        with monkeypatch.context() as patch:
            patch.setattr(session.printer, "table", printed.append)
            answer_list(session, words)
        (table,) = printed
        steps = [row.values["step"] for row in table.rows]
        assert steps == [number for number in range(middle - ROUND, middle + ROUND + 1) if 0 < number <= length]
        assert [row.values["step"] for row in table.rows if row.values["next"]] == [
            step for step in steps if step == at + 1
        ]
        assert [row.text.startswith("=> ") for row in table.rows] == [row.values["next"] for row in table.rows]
        assert all(row.values["line"] == session.text().step(row.values["step"]).line for row in table.rows)
        assert bool(table.rest) == (at == length and middle + ROUND > at)


@pytest.mark.parametrize(
    ("words", "found"),
    [
        ("next", ["7"]), ("next 7", []), ("calls gor", ["7"]), ("calls gor 7", []), ("dump in", ["7"]), ("dump in 7", []), ("info holders", ["7"]),
        ("info holders 7", []), ("save", ["breakpoints"]), ("save breakpoints", []), ("delete", ["checkpoint"]), ("pagination on", []),
        ("set pagination on", []), ("print clock", []), ("print lock", ["7"]), ("condition 1 lock", ["7"]), ("until clock 7", ["and"]), ("until clock 7 8", []), ("until clock", []),
        ("until lock 7 8", ["and"]), ("until lock 7 8 and lock", ["7"]), ("until clock 7 and lock", ["7"]), ("nothing", []), ("print nothing", []),
    ],
)  # fmt: skip
def test_completions_of_a_line(words: str, found: list[str]) -> None:
    assert candidates(words.split(), lambda of: ["7"]) == found


def test_a_terminal_completes_the_word_before_the_cursor(monkeypatch: pytest.MonkeyPatch, session: Session) -> None:
    """readline asks for the candidates one by one, until none is left."""
    rows: list[tuple[str, list[str]]] = [
        ("reverse-st", ["reverse-stepi "]), ("info sus", ["suspects "]), ("print gor ", ["0 "]), ("zzz", []), ("info zzz", []), ("goto main.go:46", ["main.go:46 "]),
    ]  # fmt: skip
    for line, wanted in rows:
        begin = line.rfind(" ") + 1
        fake = stub(get_line_buffer=lambda: line, get_begidx=lambda: begin)
        with monkeypatch.context() as patch:
            patch.setattr(terminal, "readline", fake)
            complete = Terminal(session)._complete
            found = [complete(line[begin:], at) for at in range(len(wanted) + 1)]
        assert found == [*wanted, None], line


@pytest.mark.parametrize("fault", [None, OSError("full")])
def test_the_history_is_written_if_it_can_be(
    session: Session, fault: OSError | None, monkeypatch: pytest.MonkeyPatch
) -> None:
    monkeypatch.setenv("NETREV_HISTORY", "/nowhere/history")
    written = []

    def write(path: Path) -> None:
        written.append(path)
        if fault:
            raise fault

    monkeypatch.setattr(terminal, "readline", stub(write_history_file=write))
    Terminal(session)._save()
    assert written == [Path("/nowhere/history")]


@pytest.mark.parametrize(("line", "is_repeated"), [("stepi", True), ("si 3", True), ("rsi", True), ("info position", False), ("goto 3", False), ("re", False), ("nothing", False)])  # fmt: skip
def test_an_empty_line_repeats_a_step_alone(line: str, is_repeated: bool) -> None:
    assert repeats(line) == is_repeated


def test_an_empty_line_at_the_terminal(monkeypatch: pytest.MonkeyPatch, session: Session) -> None:
    lines = ["stepi 2", "", "", "goto 9", "", "rsi", " ", "info position"]
    at = Terminal(session)
    left, lines_run = iter(lines), list[str]()

    def typed(_: str = "") -> str:
        for line in left:
            return line
        raise EOFError

    def run(line: str) -> bool:
        lines_run.append(line)
        return True

    monkeypatch.setattr("builtins.input", typed)
    monkeypatch.setattr(session, "run", run)
    assert [at._turn() for _ in range(len(lines) + 1)] == [True] * len(lines) + [False]
    assert lines_run == ["stepi 2", "stepi 2", "stepi 2", "goto 9", "", "rsi", "rsi", "info position"]


@pytest.mark.parametrize(
    ("ticks", "most", "shown"),
    [([], 3, []), ([1], 3, [1]), ([1, 2, 3], 3, [1, 2, 3]), ([1, 2, 3, 4], 3, [1, 3, 4]), ([1, 2, 3, 4, 5], 3, [1, 3, 5]), ([1, 2, 3, 4, 5, 6, 7], 3, [1, 4, 7]), ([1, 2, 3, 4, 5, 6, 7, 8], 3, [1, 4, 7, 8])],
)  # fmt: skip
def test_the_clocks_steps_on_a_page(
    monkeypatch: pytest.MonkeyPatch, ticks: list[int], most: int, shown: list[int]
) -> None:
    changes = stub(changes_of=lambda cell: [(at, str(10 * at)) for at in ticks])
    monkeypatch.setattr(page_data, "MOST_TICKS", most)
    assert ticks_of(changes) == [[0, 0], *([at, 10 * at] for at in shown)]


# ---- pages


@pytest.mark.parametrize(
    ("first", "last", "says"),
    [
        (0, 0, ""), (0, 181, ""), (181, 181, ""), (3, 9, ""), (-1, 5, "0 to 181"), (9, 3, "0 to 181"), (0, 182, "0 to 181"), (182, 182, "0 to 181"),
    ],
)  # fmt: skip
def test_the_positions_of_a_page(
    monkeypatch: pytest.MonkeyPatch, session: Session, first: int, last: int, says: str
) -> None:
    assert session.text().length == 181
    data = {"first": first, "last": last, "cells": {}, "calls": {"count": 0}}
    windows = list[Window]()

    def collected(_: Session, window: Window, *__: object, **___: object) -> Any:
        windows.append(window)
        return data

    monkeypatch.setattr(page, "collected", collected)
    monkeypatch.setattr(page, "writing", lambda *_: nullcontext(io.StringIO()))
    if says:
        with pytest.raises(UsageError, match=searches.POSITIONS.format(last=181)):
            page.write_timeline(session, "x.html", first, last)
    else:
        page.write_timeline(session, "x.html", first, last)
        assert windows == [Window(first, last)]


@pytest.mark.parametrize(("first", "last", "is_full"), [(0, MOST, False), (3, MOST + 3, False), (3, MOST + 4, True)])
def test_a_page_shows_only_so_many_steps(monkeypatch: pytest.MonkeyPatch, first: int, last: int, is_full: bool) -> None:
    data = {"first": first, "last": last, "cells": {}, "calls": {"count": 0}}
    session = stub(text=lambda: stub(length=10 * MOST))
    monkeypatch.setattr(
        page.PageSources, "by", lambda *_: stub(tell=lambda _: None, path="x.jsonl", recording=stub(data=b""))
    )
    monkeypatch.setattr(page, "collected", lambda *_, **__: data)
    monkeypatch.setattr(page, "writing", lambda *_: nullcontext(io.StringIO()))
    if is_full:
        with pytest.raises(UsageError):
            page.write_timeline(session, "x.html", first, last)
    else:
        page.write_timeline(session, "x.html", first, last)


@pytest.mark.parametrize(
    ("listed", "hits"),
    [
        (("1", "break", "@5"), [4]), (("1", "break", "@4"), [3]), (("1", "break", "@3"), []), (("1", "break", "@7"), [6]), (("1", "break", "@8"), []),
        (("1", "tbreak", "tick"), [6]), (("1", "break", "rwlock"), [3]), (("1", "break", "sockopen"), []), (("1", "watch", "gor 1"), [4, 5]),
        (("1", "watch", "gor 0"), []),
    ],
)  # fmt: skip
def test_the_hits_of_a_mark_in_a_part(listed: Any, hits: list[int]) -> None:
    """Within positions 3 to 6: the steps before which a break stops, and the steps after which a watch stops."""
    recording = recording_of(OPEN + READ + [["tick", 7]])
    runs = cast(Any, {"gor 1": [(0, "absent"), (1, "idle"), (4, "a"), (5, "b"), (7, "c")]})
    (mark,) = marks_of([listed], recording, Window(3, 6), runs)
    assert mark == {"mark": 1, "what": " ".join(listed[1:]), "hits": hits}


@pytest.mark.parametrize(
    ("window", "most", "every", "ns"),
    [
        ((0, 6), 10, 1, [10, 0, 2, 3, 5, 7, 11]),
        ((2, 4), 10, 1, [12, 3, 5]),
        ((2, 4), 2, 1, [12, 3, 5]),
        ((2, 4), 1, 2, [12, 8]),
        ((0, 6), 3, 2, [10, 2, 8, 18]),
        ((0, 5), 3, 2, [10, 2, 8, 7]),
        ((3, 3), 3, 1, [15]),
    ],
)
def test_the_recorders_times_after_the_steps(window: tuple[int, int], most: int, every: int, ns: list[int]) -> None:
    recording = stub(lines=stub(times=[10, 12, 15, 20, 27, 38]))
    found = times_of(cast(Recording, recording), Window(*window), most)
    assert found == {"first": window[0], "last": window[1], "every": every, "ns": ns}
