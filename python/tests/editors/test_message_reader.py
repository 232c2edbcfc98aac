"""An editor's messages during work on a request: a pause, a cancel and a disconnect stop any work within half a second.
"""

import io
import json
import os
import time
from collections.abc import Callable
from contextlib import ExitStack
from pathlib import Path
from threading import Thread, Timer
from typing import Any

import pytest

from netrev.connection.collected_output import Collecting
from netrev.session.session import Session
from netrev.system.interrupts import Interrupts, SearchInterruptedError, SessionAbandonedError
from nrdb.dap import message_reader, progress
from nrdb.dap.breakpoint_requests import BreakpointError, BreakpointRequest, HitCount, wish_of
from nrdb.dap.go_lines import GoLines
from nrdb.dap.logpoints import LogPoints
from nrdb.dap.marks import BreakpointKind, Marks
from nrdb.dap.message_reader import Hearing
from nrdb.dap.moves import Moves, Stop
from nrdb.dap.progress import Work
from nrdb.dap.view.debuggee import Debuggee
from nrdb.dap.view.filters import Filters
from nrdb.dap.view.messages import EditorStreams, MalformedMessageError, Request
from nrdb.dap.view.roots import Roots
from tests.prompt.test_program_places import FILE, session_of

SOON, PATIENCE = 0.5, 60  # seconds


def framed(number: int, command: str, **arguments: Any) -> bytes:
    data = json.dumps({"seq": number, "type": "request", "command": command, "arguments": arguments}).encode()
    return b"Content-Length: %d\r\n\r\n%s" % (len(data), data)


def busy(_: Interrupts) -> None:
    """Work that never checks whether it should stop."""
    while True:
        sum(range(100))


def polled(interrupts: Interrupts) -> None:
    """Work in short pieces that checks for interrupts after each piece, as a move does."""
    while True:
        time.sleep(0.05)
        interrupts.check()


def rules(interrupts: Interrupts) -> None:
    """Work without queries to netrev, such as the evaluation of the filters' rules."""
    with interrupts.at_once():
        busy(interrupts)


def unanswered(_: Interrupts) -> None:
    """netrev doesn't answer."""
    silent, kept = os.pipe()
    try:
        os.read(silent, 1)
    finally:
        os.close(silent)
        os.close(kept)


class Client:
    """An editor that is heard while requests are worked on."""

    def __init__(self, cleanups: ExitStack) -> None:
        descriptor, self.says = os.pipe()
        reader = open(descriptor, "rb")
        cleanups.callback(reader.close)
        self.hearing = Hearing(EditorStreams(reader, io.BytesIO()))
        cleanups.callback(self.go)
        self.interrupts = Interrupts()

    def go(self) -> None:
        """Ends the editor's connection."""
        if self.says >= 0:
            os.close(self.says)
        self.says = -1

    def asked(self, *messages: bytes) -> Request:
        """Sends these requests, and returns the first request."""
        os.write(self.says, b"".join(messages))
        request = self.hearing.request()
        assert request is not None
        return request

    def stopped(
        self, request: Request, work: Callable[[Interrupts], None], messages: bytes, by: type[Exception]
    ) -> None:
        """Checks that a message soon stops the work on a request: within this much processor time, whatever else the
        machine does."""
        text: list[float] = []

        def says() -> None:
            text.append(time.process_time())
            os.write(self.says, messages)

        late = Timer(0.1, says)
        late.start()
        with pytest.raises(by), self.hearing.work(request, self.interrupts):
            work(self.interrupts)
        ended = time.process_time()
        late.join()
        assert ended - text[0] < SOON

    def sends(self, data: bytes) -> None:
        """Sends everything, however long that takes."""
        while data:
            data = data[os.write(self.says, data) :]


@pytest.fixture
def client(cleanups: ExitStack) -> Client:
    return Client(cleanups)


@pytest.mark.alone
def test_an_end_is_heard_in_any_work(client: Client) -> None:
    for number, work in enumerate((busy, polled, rules, unanswered)):
        client.interrupts = Interrupts()
        client.stopped(
            client.asked(framed(number, "continue")),
            work,
            framed(100 + number, "terminate"),
            SessionAbandonedError,
        )
        ending = client.hearing.request()
        assert ending is not None
        with client.hearing.work(ending, client.interrupts):
            assert ending.command == "terminate", work.__name__
    client.interrupts = Interrupts()
    client.stopped(client.asked(framed(7, "variables")), busy, framed(8, "disconnect"), SessionAbandonedError)


@pytest.mark.alone
def test_a_pause_and_a_cancel_stop_what_can_be_stopped(client: Client) -> None:
    for number, work in enumerate((polled, rules), 1):
        client.stopped(
            client.asked(framed(number, "continue")), work, framed(10 + number, "pause"), SearchInterruptedError
        )
        paused = client.hearing.request()
        assert paused is not None
        with client.hearing.work(paused, client.interrupts):
            client.interrupts.check()  # the pause was handled already, so it doesn't interrupt this work
    names: tuple[tuple[int, dict[str, Any]], ...] = ((20, {"requestId": 20}), (21, {"progressId": "netrev-21"}))
    for number, named in names:
        request = client.asked(framed(number, "variables"))
        client.stopped(request, polled, framed(30 + number, "cancel", **named), SearchInterruptedError)
        cancel = client.hearing.request()
        assert cancel is not None
        with client.hearing.work(cancel, client.interrupts):
            pass


def test_a_pause_stops_no_look_and_a_cancel_no_other_request(client: Client) -> None:
    for number, messages in ((1, framed(2, "pause")), (3, framed(4, "cancel", requestId=99))):
        request = client.asked(framed(number, "variables"), messages)
        time.sleep(0.1)
        with client.hearing.work(request, client.interrupts):
            client.interrupts.check()
        other = client.hearing.request()
        assert other is not None
        with client.hearing.work(other, client.interrupts):
            pass


def test_what_was_heard_before_a_move_begins_stops_it(client: Client) -> None:
    request = client.asked(framed(1, "continue"), framed(2, "pause"))
    time.sleep(0.1)
    with pytest.raises(SearchInterruptedError), client.hearing.work(request, client.interrupts):
        client.interrupts.check()


def test_behind_an_end_and_a_cancel_nothing_is_begun(client: Client) -> None:
    request = client.asked(framed(1, "threads"), framed(2, "stackTrace"), framed(3, "cancel", requestId=2))
    time.sleep(0.1)
    assert not client.hearing.ends(request)
    second = client.hearing.request()
    assert second
    assert client.hearing.ends(second)
    cancel = client.hearing.request()
    assert cancel
    assert not client.hearing.ends(cancel)
    last = client.asked(framed(4, "threads"), framed(5, "disconnect"))
    time.sleep(0.1)
    assert client.hearing.ends(last)
    ending = client.hearing.request()
    assert ending
    assert not client.hearing.ends(ending)


def test_what_was_heard_is_gone_when_its_turn_has_come(client: Client) -> None:
    for number, command in enumerate(("terminate", "pause", "cancel"), 1):
        client.asked(
            framed(number, command, requestId=10 + number)
        )  # (the adapter may refuse it, and then never begins it)
        request = client.asked(framed(10 + number, "continue"))
        assert not client.hearing.ends(request), command
        with client.hearing.work(request, client.interrupts):
            client.interrupts.check()
    first = client.asked(framed(20, "terminate"), framed(21, "disconnect"))
    time.sleep(0.1)
    assert not client.hearing.ends(first)


def test_what_is_no_message_comes_in_its_turn(client: Client) -> None:
    request = client.asked(framed(1, "threads"), b"Hello\r\n\r\n")
    assert request.command == "threads"
    with pytest.raises(MalformedMessageError):
        client.hearing.request()


def test_of_what_waits_so_much_is_held(monkeypatch: pytest.MonkeyPatch, client: Client) -> None:
    """When there is room again, messages are read even from a sender that never stops."""
    message = framed(1, "evaluate", expression="x" * 1_000)
    monkeypatch.setattr(message_reader, "MOST_HELD", 3_000)
    sending = Thread(target=client.sends, args=[message * 1_000], daemon=True)
    sending.start()
    time.sleep(0.3)
    assert sending.is_alive()
    assert client.hearing._held < 6_000
    for _ in range(1_000):
        assert client.asked().command == "evaluate"
    sending.join(5)
    assert (sending.is_alive(), client.hearing._held) == (False, 0)


def test_an_editor_that_goes_is_seen(client: Client) -> None:
    client.asked(framed(1, "threads"))
    client.go()
    assert client.hearing.request() is None


def messages_in(data: bytes) -> list[dict[str, Any]]:
    """The messages of a stream."""
    return [json.loads(part.partition(b"\r\n\r\n")[2]) for part in data.split(b"Content-Length: ")[1:]]


def told_of_work(command: str, shows: bool, reports: int, refuses: bool = False) -> list[dict[str, Any]]:
    """The messages that an editor gets about the work on a request. The work ends after `told` messages. `shows` says
    whether the editor shows progress."""
    written = io.BytesIO()
    with pytest.MonkeyPatch.context() as patch:
        patch.setattr(progress, "LATE", 0.05 if reports else 60)
        patch.setattr(progress, "AGAIN", 0.05)
        work = Work(EditorStreams(io.BytesIO(), written), Request(7, command), shows)
        work.tells(30, 90)
        limit = time.monotonic() + PATIENCE
        while written.getvalue().count(b"Content-Length: ") < reports and time.monotonic() < limit:
            time.sleep(0.01)
        if refuses:
            work.refuses("no")
        else:
            work.responds({})
    return messages_in(written.getvalue())


def test_a_move_is_answered_before_it_is_done() -> None:
    (response,) = told_of_work("continue", False, 1)
    assert (response["command"], response["body"]) == ("continue", {"allThreadsContinued": True})
    (early,) = told_of_work("goto", False, 1, refuses=True)
    assert early["success"]
    (look,) = told_of_work("variables", False, 0, refuses=True)
    assert not look["success"]


def test_progress_is_shown_to_an_editor_that_knows_of_it() -> None:
    names = [message.get("event") or message["command"] for message in told_of_work("variables", True, 2)]
    assert names == ["progressStart", "progressUpdate", "progressEnd", "variables"]
    start, update, *_ = told_of_work("continue", True, 3)
    assert (start["body"]["requestId"], start["body"]["cancellable"]) == (7, True)
    assert told_of_work("continue", True, 0)[0]["command"] == "continue"
    events = [
        message["body"] for message in told_of_work("variables", True, 2) if message.get("event") == "progressUpdate"
    ]
    assert (events[0]["message"], events[0]["percentage"]) == ("at 30 of 90", 33)


@pytest.fixture
def interrupts() -> Interrupts:
    return Interrupts()


def moves_of(interrupts: Interrupts) -> tuple[Moves, Marks, Debuggee]:
    output = io.StringIO()
    session = session_of(output)
    session.interrupts = interrupts
    printer = Collecting()
    session.printer = printer
    debuggee = Debuggee(session, session.text(), printer, str(FILE))
    marks, logpoints = Marks(session), LogPoints(session)
    lines = GoLines(debuggee, Roots(Path()), logpoints)
    return Moves(debuggee, marks, Filters(debuggee.recording), lines, logpoints, interrupts), marks, debuggee


def stops(interrupts: Interrupts, piece: int) -> list[tuple[Stop, int]]:
    """The stops and positions after moves in both directions, if netrev makes this many steps at once."""
    with pytest.MonkeyPatch.context() as patch:
        patch.setattr("nrdb.dap.moves.PIECE", piece)
        moves, marks, debuggee = moves_of(interrupts)
        wishes = [wish_of("pollreset", {"condition": "gor 2 idle"}), wish_of("rwlock", {"hitCondition": "% 3"})]
        marks.replace(BreakpointKind.FUNCTION, wishes)
        found = [(moves.run(forwards), debuggee.position) for forwards in (*[True] * 9, *[False] * 4, True, False)]
        for position in (0, debuggee.length, 5):
            found.append((moves.goto(position), debuggee.position))
        left = [mark.what for mark in debuggee.session.netrev.marks()]
        assert left == ["pollreset", "rwlock"]
        return found


def test_pieces_change_nothing(interrupts: Interrupts) -> None:
    whole = [(stop.reason, stop.says.split(" ")[0], at) for stop, at in stops(interrupts, 10**6)]
    assert len({at for _, _, at in whole}) > 6
    for piece in (1, 3, 10):
        assert [(stop.reason, stop.says.split(" ")[0], at) for stop, at in stops(interrupts, piece)] == whole, piece


def test_a_pause_stops_between_two(monkeypatch: pytest.MonkeyPatch, interrupts: Interrupts) -> None:
    monkeypatch.setattr("nrdb.dap.moves.PIECE", 10)
    moves, _, debuggee = moves_of(interrupts)

    def paused(position: int, length: int) -> None:
        if position >= 30:
            interrupts.press()

    moves.tells = paused
    stop = moves.run(True)
    assert (stop, debuggee.position) == (Stop("pause", "at 30"), 30)
    assert debuggee.session.current_position().position == 30
    assert debuggee.session.netrev.marks() == []
    assert moves.goto(debuggee.length).says == "at 40"


@pytest.fixture
def session() -> Session:
    return session_of(io.StringIO())


def test_times_are_counted_from_the_start(session: Session) -> None:
    every = BreakpointRequest("rwlock").stops(session, range(10))
    assert every == list(range(10))
    for text, wanted in (
        ("3", [2]), ("== 3", [2]), (">= 9", [8, 9]), ("> 9", [9]), ("< 3", [0, 1]), ("<=2", [0, 1]), ("% 4", [3, 7]),
    ):  # fmt: skip
        assert BreakpointRequest("", times=HitCount.of(text)).stops(session, range(10)) == wanted, text
    for wrong in ("often", "% 0", "-1", "3 times", "1.5"):
        with pytest.raises(BreakpointError):
            HitCount.of(wrong)


def test_a_wish_that_cannot_be_is_told() -> None:
    for request in ({"hitCondition": "x"}, {"condition": "x"}, {"logMessage": "at {nowhere}"}):
        assert isinstance(wish_of("rwlock", request), BreakpointError), request


def test_messages_are_told_on_the_way_in_its_order(session: Session) -> None:
    points = LogPoints(session)
    options = wish_of("", {"logMessage": "{position} has {gor 0}, {{gor 0}}"})
    assert isinstance(options, BreakpointRequest)
    assert points.set("main.go", [3, 5, 9], options)["verified"]
    status = session.changes().value("gor 0", 5)
    assert [message.split(":")[0] for message in points.messages(3, 9)] == ["at 5", "at 9"]
    assert [message.split(":")[0] for message in points.messages(9, 3)] == ["at 5", "at 3"]
    assert next(points.messages(3, 5)) == f"at 5: 5 has {status}, {{{status}}}"
    points.clear("main.go")
    assert list(points.messages(0, 9)) == []


def test_go_is_found_below_its_root() -> None:
    roots = Roots(Path("/program"), Path("/go"))
    assert roots.is_at("net/net.go", Path("/go/src/net/net.go"))
    assert roots.is_at("main.go", Path("/program/main.go"))
    assert not roots.is_at("net/net.go", Path("/other/src/net/net.go"))
    assert Roots(Path("/program")).is_at("net/net.go", Path("/other/src/net/net.go"))
    assert not roots.is_at("\0", Path("/program/main.go"))
    assert roots.path_of("\0") is None
    here = Path(__file__)
    assert Roots(Path("/none"), here.parents[1]).path_of(here.name) is None
    assert Roots(here.parent).path_of(here.name) == here
