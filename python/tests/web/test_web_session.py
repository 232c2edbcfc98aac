"""The session behind the page, with a model of netrev: who moved and where to, what the page refuses, and the messages
when netrev ends and when it is back."""

import json
import signal
import sys
from collections.abc import Callable
from concurrent.futures import Future
from contextlib import ExitStack
from pathlib import Path
from typing import Any

import pytest

from netrev.connection.netrev import Netrev
from netrev.connection.output import Printer
from netrev.connection.scout import Scout
from netrev.messages.browsers import NO_COMMANDS, NO_FILES, NO_QUIT
from netrev.recording.recording import Recording
from netrev.session.session import Session
from netrev.system.interrupts import Interrupts
from netrev.timeline.page_contents import MOST, STAGES
from nrdb.prompt.answers import ANSWERS
from nrdb.web.page_server import UnavailableError
from nrdb.web.page_session import MOST_WAITING, Running
from nrdb.web.painter import MOST_WAITING as MOST_PICTURES
from nrdb.web.painter import Painter
from nrdb.web.shared_session import OutputSender, Shared
from tests.support.model_sessions import Modelled, changes_at, recording_at

EXAMPLES = Path(__file__).resolve().parents[3] / "examples"
FIRST, OTHER = EXAMPLES / "first.jsonl", EXAMPLES / "lost-wakeup.jsonl"
MODEL, OTHER_MODEL = recording_at(FIRST), recording_at(OTHER)
TEXT = Recording.read(str(FIRST))
CHANGES = changes_at(FIRST)
PATIENCE = 60  # seconds


class Streams:
    """Browsers that store what they receive."""

    def __init__(self) -> None:
        self.events: list[dict[str, Any]] = []
        self.browsers = 1

    def tell(self, event: str, **values: Any) -> None:
        self.events.append({"event": event, **values})

    def listening(self) -> int:
        return self.browsers

    def take(self) -> list[dict[str, Any]]:
        """The events since the last call."""
        taken, self.events = self.events, []
        return taken


GONE = "netrev has ended: lines aren't answered until it is back"


class Page:
    """The session of the page, over a model of netrev."""

    def __init__(self, monkeypatch: pytest.MonkeyPatch) -> None:
        monkeypatch.setattr("nrdb.web.page_session.EVERY", 0.0)
        self.streams, self.interrupts = Streams(), Interrupts()
        self.netrev = self.modelled()
        scout = Scout(self.modelled)
        session = Session(
            self.netrev, TEXT, scout, OutputSender(self.streams), self.interrupts, ANSWERS, recorded=CHANGES
        )
        session.begin(session.ask("info position"))
        self.opened: Callable[[Printer], Netrev] = self.refused
        self.running = Running(Shared.over(session, self.streams), lambda p: self.opened(p), self.streams, None)  # type: ignore
        self.running._pause = 0.0
        self.look()
        self.streams.take()

    def modelled(self) -> Modelled:
        return Modelled(MODEL, self.interrupts, lambda _: None)

    def refused(self, _: Printer) -> Netrev:
        raise ConnectionRefusedError(111, "Connection refused")

    def types(self, line: str, user: str = "browser 1") -> list[dict[str, Any]]:
        """The events that a line causes."""
        self.running.post(user, line)
        self.running.turn()
        return self.streams.take()

    def says(self, line: str) -> list[str]:
        """The reply to a line."""
        return [text for event in self.types(line) if event["event"] == "said" for text in event["lines"]]

    def look(self) -> list[dict[str, Any]]:
        """The events that follow a check for moves by others."""
        self.running.turn()
        return self.streams.take()

    def elsewhere(self, line: bytes) -> None:
        """Moves the session from another front."""
        self.netrev._session.answer(line)

    def completions(self, line: str) -> list[str]:
        completing = self.running.complete(line)
        self.running.turn()
        completions: list[str] = json.loads(completing.result(0))
        return completions


@pytest.fixture
def web(monkeypatch: pytest.MonkeyPatch) -> Page:
    return Page(monkeypatch)


def test_a_line_is_told_with_who_moved_to_where(web: Page) -> None:
    events = web.types("stepi 6")
    assert events[0] == {"event": "line", "who": "browser 1", "line": "stepi 6"}
    assert events[1] == {"event": "said", "of": "reply", "lines": ["at 6"]}
    moved = {"event": "moved", "who": "browser 1", "line": "stepi 6", "from": 0, "to": 6}
    current_position = {"event": "stands", "position": 6, "steps": 10, "direction": "forward"}
    assert events[2:4] == [moved, current_position]
    assert events[4]["of"] == "place"
    assert events[-1] == {"event": "answered", "who": "browser 1", "line": "stepi 6"}


def test_each_part_of_a_line_is_a_move_of_its_own(web: Page) -> None:
    events = web.types("goto 3; reverse-stepi; until lock 0 18; print lock 0", "browser 7")
    moves = [tuple(event.values())[1:] for event in events if event["event"] == "moved"]
    assert moves == [
        ("browser 7", "goto 3", 0, 3),
        ("browser 7", "reverse-stepi", 3, 2),
        ("browser 7", "until lock 0 18", 2, 5),
    ]


def test_others_are_seen_where_they_left_the_session(web: Page) -> None:
    web.elsewhere(b"stepi 2")
    web.elsewhere(b"stepi 2")
    events = web.look()
    assert events[0] == {"event": "moved", "who": "another front", "line": None, "from": 0, "to": 4}
    assert events[1] == {"event": "stands", "position": 4, "steps": 10, "direction": "forward"}
    assert web.look() == []
    web.elsewhere(b"set exec-direction reverse")
    assert [event["direction"] for event in web.look()] == ["reverse"]


def test_others_are_seen_before_a_line_is_answered(web: Page) -> None:
    web.elsewhere(b"stepi 4")
    events = [event for event in web.types("stepi") if event["event"] == "moved"]
    assert [(event["who"], event["from"], event["to"]) for event in events][0] == ("another front", 0, 4)
    assert [(event["who"], event["from"], event["to"]) for event in events][1] == ("browser 1", 4, 5)


def test_marks_are_told_when_they_change(web: Page) -> None:
    events = web.types("watch lock 0; tbreak @7")
    marks = [{"mark": 1, "what": "watch lock 0"}, {"mark": 2, "what": "tbreak @7"}]
    assert {"event": "marks", "marks": marks} in events
    web.elsewhere(b"delete 1")
    assert web.look() == [{"event": "marks", "marks": marks[1:]}]


def test_nobody_listens(web: Page) -> None:
    web.streams.browsers = 0
    web.elsewhere(b"stepi 2")
    assert web.look() == []


def test_files_several_lines_and_the_end(web: Page) -> None:
    for line in (
        "source /etc/passwd",
        "timeline x.html",
        "trace x.json",
        "reduce x.jsonl",
        "report x.md",
        "rep x.md",
    ):
        assert web.says(line) == [f"| {NO_FILES}"], line
    web.types("break @3")
    assert web.says("commands 1") == [f"| {NO_COMMANDS}"]
    for line in ("quit", "q", "exit", "qui", "stepi; quit"):
        assert web.says(line)[-1] == f"| {NO_QUIT}"
    assert web.says("info position")[0] == "at 1 of 10 forward"


def test_a_line_that_is_none_of_nrdbs(web: Page) -> None:
    assert web.says("nonsense")[0] == "fault 201 unknown command"
    assert web.says("info holders") == [
        "| info holders S: which goroutines hold references of socket S, and since which step"
    ]
    assert web.says("") == []
    assert web.says("#comment") == []


def test_too_many_lines_wait(web: Page) -> None:
    for _ in range(MOST_WAITING):
        web.running.post("browser 1", "info position")
    with pytest.raises(UnavailableError, match=f"{MOST_WAITING} lines wait"):
        web.running.post("browser 2", "info position")
    web.running.turn()
    web.running.post("browser 2", "info position")


def test_words_cells_and_numbers(web: Page) -> None:
    assert web.completions("rest") == ["restart"]
    assert web.completions("info sus") == ["suspects"]
    assert web.completions("stepi 3; print lo") == ["lock"]
    assert web.completions("print gor ") == ["0"]
    web.types("stepi 6")
    assert web.completions("print gor ") == ["0", "1", "2"]
    assert web.completions("print gor 1 ") == ["idle", *web.completions("print gor 1 ")[1:]]
    assert web.completions("nonsense x") == []
    assert web.streams.take() == []


def test_netrev_is_gone(web: Page) -> None:
    web.netrev.has_ended = True
    assert web.completions("print gor ") == []
    assert [event["event"] for event in web.streams.take()] == ["netrev"]
    assert web.completions("print gor ") == []


@pytest.mark.parametrize("is_stopped, lines", [(False, [["at 1"]]), (True, [])])
def test_ctrl_c_during_a_line_ends_the_page(
    is_stopped: bool, lines: list[list[str]], monkeypatch: pytest.MonkeyPatch, web: Page
) -> None:
    ask = web.netrev.ask

    def pressed(line: str) -> Any:
        if line == "stepi":
            signal.raise_signal(signal.SIGINT)  # Ctrl-C in nrdb's terminal
            if is_stopped:
                web.interrupts.check()
        return ask(line)

    monkeypatch.setattr(web.netrev, "ask", pressed)
    web.running.post("browser 1", "stepi")
    with pytest.raises(KeyboardInterrupt):
        web.running.turn()
    assert [event["lines"] for event in web.streams.take() if event["event"] == "said"][:1] == lines


def test_it_is_said_and_lines_arent_answered(web: Page) -> None:
    web.running.post("browser 2", "print clock")  # accepted before the page knows that netrev has ended
    web.netrev.has_ended = True
    unanswered = {"event": "unanswered", "who": "browser 2", "line": "print clock", "why": GONE}
    assert web.look()[-2:] == [{"event": "netrev", "there": False, "says": GONE}, unanswered]
    with pytest.raises(UnavailableError, match="netrev has ended"):
        web.running.post("browser 1", "stepi")
    assert web.look() == []


def test_a_look_finds_it_gone(web: Page) -> None:
    web.netrev.has_ended = True
    assert web.look() == [{"event": "netrev", "there": False, "says": GONE}]


def test_it_goes_on_where_the_next_one_stands(web: Page) -> None:
    web.types("stepi 6")
    web.netrev.has_ended = True
    web.look()
    assert web.look() == []
    again = web.modelled()
    again._session.answer(b"stepi 2")
    again._session.answer(b"watch lock 0")
    web.opened = lambda _: again
    events = web.look()
    assert events[0] == {"event": "said", "of": "reply", "lines": ["at 2 of 10 forward"]}
    assert {"event": "stands", "position": 2, "steps": 10, "direction": "forward"} in events
    assert {"event": "marks", "marks": [{"mark": 1, "what": "watch lock 0"}]} in events
    assert (events[-1]["event"], events[-1]["there"]) == ("netrev", True)
    assert [event for event in events if event["event"] == "moved"] == []
    assert web.says("stepi")[0] == "at 3"


def test_another_recording_is_served_there(web: Page) -> None:
    web.netrev.has_ended = True
    web.look()
    web.opened = lambda _: Modelled(OTHER_MODEL, web.interrupts, lambda _: None)
    (result,) = web.look()
    assert "the recording has 10 steps, but the session's has 22" in result["says"]
    with pytest.raises(UnavailableError):
        web.running.post("browser 1", "stepi")


def test_what_answers_there_isnt_netrev(monkeypatch: pytest.MonkeyPatch, web: Page) -> None:
    strange = web.modelled()
    web.netrev.has_ended = True
    web.look()
    monkeypatch.setattr(Modelled, "_next", lambda *_: "220 mail.example ESMTP")
    web.opened = lambda _: strange
    (result,) = web.look()
    assert "the other program isn't netrev" in result["says"]
    assert strange.has_ended


class Pictures(Page):
    """The picture, made in a separate process with the model instead of netrev."""

    def __init__(self, folder: Path, monkeypatch: pytest.MonkeyPatch, cleanups: ExitStack) -> None:
        super().__init__(monkeypatch)
        self.cleanups = cleanups
        program = folder / "netrev"
        program.write_text(
            f'#!/bin/sh\nexec {sys.executable} {EXAMPLES.parent / "python"} netrev.model "$@"\n', encoding="ascii"
        )
        program.chmod(0o755)
        self.told: list[str] = []
        self.program = str(program)

    def painter(self, path: Path) -> Painter:
        painter = Painter(self.program, str(path), self.told.append)
        self.cleanups.callback(painter.drop)
        self.running._painter = painter
        return painter

    def made(self, wanted: "Future[bytes]") -> Any:
        return json.loads(wanted.result(PATIENCE))


@pytest.fixture
def pictures(folder: Path, monkeypatch: pytest.MonkeyPatch, cleanups: ExitStack) -> Pictures:
    return Pictures(folder, monkeypatch, cleanups)


def test_it_is_made_once_while_lines_are_answered(pictures: Pictures) -> None:
    painter = pictures.painter(FIRST)
    wanted = pictures.running.timeline()
    assert pictures.says("stepi 3")[0] == "at 3"
    first = pictures.made(wanted)
    assert (first["length"], first["first"], first["last"]) == (10, 0, 10)
    assert first["name"] == "first.jsonl"
    assert pictures.told == [f"the picture, {at} of {len(STAGES)}: {says}" for at, says in enumerate(STAGES, 1)]
    painter._process.kill()  # type: ignore
    assert pictures.made(pictures.running.timeline()) == first


def test_a_part_has_the_values_of_its_positions(pictures: Pictures) -> None:
    pictures.painter(FIRST)
    part, whole = pictures.made(pictures.running.part(2, 7)), pictures.made(pictures.running.timeline())
    assert (part["first"], part["last"], len(part["steps"])) == (2, 7, 7)
    assert part["steps"] == whole["steps"][2:9]
    for cell, runs in part["cells"].items():
        assert runs[0][1] == [value for at, value in whole["cells"][cell] if at <= 2][-1]
    for first, last in ((3, 2), (0, 11), (-1, 4)):
        with pytest.raises(UnavailableError, match=f"at most {MOST} steps, from 0 to 10"):
            pictures.running.part(first, last)


def test_what_makes_it_ends_and_is_begun_anew(pictures: Pictures) -> None:
    painter = pictures.painter(FIRST)
    first = pictures.made(pictures.running.timeline())
    painter._process.kill()  # type: ignore
    painter._process.wait()  # type: ignore
    assert pictures.made(pictures.running.part(0, 10))["cells"] == first["cells"]


def test_why_there_is_none(pictures: Pictures) -> None:
    pictures.painter(EXAMPLES / "other-answer.jsonl")
    with pytest.raises(UnavailableError, match="step 11: fault 109 answer"):
        pictures.made(pictures.running.timeline())
    pictures.painter(EXAMPLES / "nothing.jsonl")
    with pytest.raises(UnavailableError, match="nothing.jsonl"):
        pictures.made(pictures.running.timeline())


def test_too_many_are_waited_for(monkeypatch: pytest.MonkeyPatch, pictures: Pictures) -> None:
    pictures.painter(FIRST)
    monkeypatch.setattr(Painter, "_run", lambda _: None)
    for _ in range(MOST_PICTURES):
        pictures.running.timeline()
    with pytest.raises(UnavailableError, match=f"{MOST_PICTURES} pictures"):
        pictures.running.timeline()


def test_without_the_recording_there_is_none(pictures: Pictures) -> None:
    with pytest.raises(UnavailableError, match="name its file after --join"):
        pictures.running.timeline()
