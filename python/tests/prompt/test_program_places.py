"""A place may be a line or a function of the program. The tests use such places at the prompt and in the adapter's
breakpoints: they break in both directions, move, and show frames and source. A model in Python replaces netrev."""

import io
import re
from pathlib import Path

import pytest

from netrev.connection.collected_output import Collecting
from netrev.connection.output import TextPrinter
from netrev.connection.scout import Scout
from netrev.recording.recording import Recording
from netrev.session.line_index import is_place, places_of
from netrev.session.session import Session
from netrev.session.source import source_of, text_around
from netrev.system.interrupts import Interrupts
from nrdb.dap.breakpoint_requests import BreakpointError, wish_of
from nrdb.dap.go_lines import GoLines
from nrdb.dap.logpoints import LogPoints
from nrdb.dap.view.debuggee import Debuggee
from nrdb.dap.view.roots import Roots
from nrdb.prompt.answers import ANSWERS
from nrdb.web.shared_session import OF_THE_PAGE
from tests.failed_calls.test_causes import CAUSED, in_the_folder_of_the_source
from tests.support.model_sessions import Modelled, changes_at, recording_at
from tests.trials.go_caused import SOURCE, bug_line

FILE = CAUSED / "once-bad.jsonl"
MODEL = recording_at(FILE)
READS = "main.go:46"  # the line at which the text lines are read, in each round


def session_of(output: io.StringIO) -> Session:
    """A session at the start of the recording."""
    interrupts, recording = Interrupts(), Recording.read(str(FILE))

    def opened() -> Modelled:
        return Modelled(MODEL, interrupts, lambda _: None)

    printer = TextPrinter(output)
    session = Session(
        opened(), recording, Scout(opened), printer, interrupts, ANSWERS, path=str(FILE), recorded=changes_at(FILE)
    )
    session.begin(session.ask("info position"))
    return session


class Prompt:
    """nrdb's prompt at the start of the recording."""

    def __init__(self) -> None:
        self.output = io.StringIO()
        self.session = session_of(self.output)
        places = places_of(self.session.text())
        place = places.place(READS)
        assert place is not None
        self.positions = place.positions

    def reply(self, line: str) -> str:
        """The reply to a line."""
        self.output.seek(0)
        self.output.truncate()
        self.session.run(line)
        return self.output.getvalue()


@pytest.fixture
def prompt() -> Prompt:
    return Prompt()


def test_a_break_at_a_line_stops_both_ways(prompt: Prompt) -> None:
    assert f"break p1 at {READS}: {len(prompt.positions)} of" in prompt.reply(f"break {READS}")
    result = []
    for line in ["continue"] * len(prompt.positions) + ["reverse-continue"] * (len(prompt.positions) - 1):
        assert f"break p1: {READS}" in prompt.reply(line)
        result.append(prompt.session.known_position)
    assert result == [*prompt.positions, *reversed(prompt.positions[:-1])]
    assert READS in prompt.reply("where")
    assert f"p1 at {READS}" in prompt.reply("info breakpoints")
    prompt.reply("delete p1")
    assert "p1" not in prompt.reply("continue")
    assert prompt.session.known_position == prompt.session.length


def test_a_name_that_no_file_can_have_is_no_source(prompt: Prompt) -> None:
    for name in ("x" * 5000 + ".go", "/" + "y" * 5000, "nul\0.go"):
        path = source_of(name, str(FILE))
        assert text_around(prompt.session.text(), path, 1) == [], name[:8]


def test_netrev_s_own_marks_stop_before_one_that_is_farther(prompt: Prompt) -> None:
    prompt.reply(f"break {READS}")
    prompt.reply("break @4")
    assert "mark 1" in prompt.reply("continue")
    assert prompt.session.known_position == 3


def test_a_temporary_break_at_a_function_stops_once(prompt: Prompt) -> None:
    assert "once" in prompt.reply("tbreak echo")
    assert "break p1: echo" in prompt.reply("continue")
    prompt.reply("continue")
    assert prompt.session.known_position == prompt.session.length


def test_moves_to_places_times_and_ends(prompt: Prompt) -> None:
    prompt.reply(f"until {READS}")
    assert prompt.session.known_position == prompt.positions[0]
    prompt.reply("goto end")
    prompt.reply(f"reverse-until {READS}")
    assert prompt.session.known_position == prompt.positions[-1]
    prompt.reply("goto 60ms")
    clock = int(prompt.session.netrev.values(["clock"])[0])
    assert clock <= 60_000_000
    assert "tick" in prompt.reply("where")
    prompt.reply("goto start")
    assert prompt.session.known_position == 0
    assert "no goroutine reaches" in prompt.reply(f"reverse-until {READS}")


def test_where_no_step_comes_from_the_nearest_lines_are_told(prompt: Prompt) -> None:
    assert re.search(
        r"no step of the recording comes from main.go:47; from .*main.go:46", prompt.reply("break main.go:47")
    )
    assert "fault 202" in prompt.reply("break frob")
    assert "mark 1" in prompt.reply("break sysread")


def test_the_history_of_a_place(prompt: Prompt) -> None:
    prompt.reply(f"goto {prompt.positions[1]}")
    output = prompt.reply(f"history {READS}")
    assert output.count("goroutine 2, before step") == 2
    assert f"{len(prompt.positions) - 2} later" in output


def test_frames_and_the_source_round_them(prompt: Prompt) -> None:
    with in_the_folder_of_the_source():
        prompt.reply(f"until {READS}")
        assert "main.echo at main.go:46" in prompt.reply("frame")
        assert re.search(r"=>    46 .*for lines.Scan\(\)", prompt.reply("frame"))
        assert "main.once.func1" in prompt.reply("up")
        assert "main.echo" in prompt.reply("down")
        assert "frames 0" in prompt.reply("frame 99")
        prompt.session.text().lines.written = 0.0
        assert "has changed since it was recorded" in prompt.reply(f"list {bug_line('once')}")
    assert "the source isn't here" in prompt.reply("list main.go:46")


def test_a_page_is_shown_no_file(prompt: Prompt) -> None:
    prompt.session.answers = OF_THE_PAGE
    with in_the_folder_of_the_source():
        prompt.reply(f"until {READS}")
        for line in (f"list {READS}", "frame", "up", "list /etc/passwd:1"):
            assert not re.search(r"lines\.Scan|root", prompt.reply(line))
        assert "rwlock" in prompt.reply("list")


def test_no_file_is_shown_that_no_call_is_in(prompt: Prompt) -> None:
    assert "no call of the recording is in a file /etc/passwd" in prompt.reply("list /etc/passwd:1")


def test_a_cell_a_kind_and_a_number_are_no_places(prompt: Prompt) -> None:
    for line in ("sysread", "clock", "7", "@7", "gor 2", ""):
        assert not is_place(prompt.session.text(), line.split()), line
    assert is_place(None, [READS])


class Editor:
    def __init__(self) -> None:
        session = session_of(io.StringIO())
        debuggee = Debuggee(session, session.text(), Collecting(), str(FILE))
        self.logpoints = LogPoints(session)
        self.lines = GoLines(debuggee, Roots(SOURCE.parent), self.logpoints)


@pytest.fixture
def editor() -> Editor:
    return Editor()


def test_breakpoints_at_a_line_and_at_a_function(editor: Editor) -> None:
    body = editor.lines.set_line(str(SOURCE), 46, wish_of("", {}))
    assert body["verified"]
    positions = editor.lines.lines(str(SOURCE))[46]
    assert editor.lines.nearest(0, True) == positions[0]
    assert editor.lines.nearest(10_000, False) == positions[-1]
    assert list(editor.lines.at(positions[0])) == [body["id"]]
    editor.lines.clear(str(SOURCE))
    mark = editor.lines.set_function("main.ask", wish_of("", {}))
    assert mark and mark["verified"]
    assert editor.lines.set_function("main.nobody", wish_of("", {})) is None


def test_a_condition_holds_one_back(editor: Editor) -> None:
    editor.lines.set_line(str(SOURCE), 46, wish_of("", {"condition": "gor 2 nothing"}))
    assert editor.lines.nearest(0, True) is None
    assert not editor.lines.set_line(str(SOURCE), 46, BreakpointError("no"))["verified"]


def test_another_file_has_no_lines(editor: Editor) -> None:
    for path in (str(Path(__file__)), "\0", ""):
        assert editor.lines.lines(path) == {}
    assert not editor.lines.set_line("main.go", 46, wish_of("", {}))["verified"]


def test_a_line_without_a_step_is_refused_as_the_prompt_does(editor: Editor) -> None:
    for line in (45, 47, 9999):
        output = io.StringIO()
        session_of(output).run(f"break main.go:{line}")
        refusal = output.getvalue().splitlines()[-1]
        assert f"no step of the recording comes from main.go:{line}; from main.go:" in refusal
        body = editor.lines.set_line(str(SOURCE), line, wish_of("", {}))
        assert (body["verified"], f"| {body['message']}") == (False, refusal)
