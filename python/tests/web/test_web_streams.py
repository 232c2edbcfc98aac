"""The page's server with many clients at once: requests, silent connections, and event streams; the contents of
streams; and the end of the server."""

import socket
import threading
import time
from collections.abc import Callable
from concurrent.futures import ThreadPoolExecutor
from contextlib import ExitStack
from pathlib import Path

import pytest

from nrdb.web.document import document
from nrdb.web.page_server import MOST_CONNECTIONS, Server, listening
from nrdb.web.requests import Gate
from nrdb.web.streams import MOST_STREAMS, Streams
from tests.support.web_client import Address, Listener, rest_of

from .test_web import TOKEN, Served, Written

HUNDRED = 100


def test_a_hundred_requests_without_the_token(served: Served) -> None:
    with ThreadPoolExecutor(HUNDRED) as pool:
        answers = list(pool.map(lambda _: served.address.type("stepi", Netrev_Token="wrong"), range(HUNDRED)))
    assert {answer.status for answer in answers} <= {403, 503, 0}
    assert served.session.lines == []
    served.expect_that_it_goes_on()


def test_a_hundred_lines_of_the_page(served: Served) -> None:
    with ThreadPoolExecutor(32) as pool:
        answers = list(pool.map(lambda number: served.address.type(f"goto {number}"), range(HUNDRED)))
    assert {answer.status for answer in answers} == {202}
    assert sorted(line for _, line in served.session.lines) == sorted(f"goto {n}" for n in range(HUNDRED))


def test_a_hundred_who_say_nothing(monkeypatch: pytest.MonkeyPatch, served: Served) -> None:
    monkeypatch.setattr("nrdb.web.http_connection.IN_TIME", 600)  # so that none ends by itself
    with ExitStack() as stack:
        silent = [stack.enter_context(served.address.connect()) for _ in range(HUNDRED)]
        served.expect_that_it_goes_on()
        assert sum(map(has_ended, silent)) >= HUNDRED - MOST_CONNECTIONS
    served.expect_that_it_goes_on()


def test_one_that_was_answered_makes_room_at_once(monkeypatch: pytest.MonkeyPatch, served: Served) -> None:
    monkeypatch.setattr("nrdb.web.http_connection.IN_TIME", 600)
    with ExitStack() as stack:
        for _ in range(HUNDRED):
            stack.enter_context(served.address.connect())
        for _ in range(HUNDRED):
            assert served.address.get(f"/?token={TOKEN}").status == 200
            assert served.address.type("stepi").status == 202


def test_a_hundred_streams(served: Served) -> None:
    with ExitStack() as stack:
        listeners = [stack.enter_context(Listener(served.address)) for _ in range(HUNDRED)]
        statuses = [listener.status for listener in listeners]
        assert [statuses.count(200), statuses.count(503)] == [MOST_STREAMS, HUNDRED - MOST_STREAMS]
        assert served.streams.listening() == MOST_STREAMS
        assert served.address.type("stepi").status == 202
        served.streams.tell("answered", line="stepi")
        for listener in listeners[:MOST_STREAMS]:
            assert listener.named("answered")["line"] == "stepi"
    served.session.lines.clear()
    wait_until(lambda: served.streams.listening() == 0)
    served.expect_that_it_goes_on()


def test_the_guide_says_how_many() -> None:
    guide = Path(__file__).parents[3] / "docs/guide/sharing.md"
    assert f"in up to {MOST_STREAMS} browsers." in guide.read_text(encoding="utf-8")


def test_all_are_told_the_same_and_who_is_here(served: Served) -> None:
    with Listener(served.address) as item:
        served.streams.tell("said", lines=["at 1"])
        served.streams.tell("stands", position=1)
        served.streams.tell("stands", position=2)
        item.until(lambda event: event.get("position") == 2)
        with Listener(served.address) as other:
            assert [item.you["number"], other.you["number"], item.you["recording"]] == [1, 2, "first.jsonl"]
            assert other.named("browsers")["here"] == ["browser 1", "browser 2"]
            events = [event["event"] for event in other.events]
            assert events == ["you", "said", "stands", "browsers"]  # only the last state
            assert other.events[2]["position"] == 2
            served.streams.tell("moved", who="browser 1")
            assert item.named("moved") == other.named("moved")
        assert item.until(lambda event: event.get("here") == ["browser 1"])["event"] == "browsers"


def test_texts_of_others_are_written_out(served: Served) -> None:
    with Listener(served.address) as listener:
        served.streams.tell("said", lines=["\x1b[2J", "\u202e", "a\ndata: b\n\n", "</script>", "\udc9b"])
        text = listener.named("said")["lines"]
        assert text == [r"\x1b[2J", r"\u202e", r"a\ndata: b\n\n", "</script>", r"\x9b"]


def test_who_doesnt_read_is_ended_and_holds_nobody(monkeypatch: pytest.MonkeyPatch, served: Served) -> None:
    with Listener(served.address) as listener, served.address.connect() as deaf:
        deaf.setsockopt(socket.SOL_SOCKET, socket.SO_RCVBUF, 4_096)
        deaf.sendall(served.address.request("GET", f"/events?token={TOKEN}"))
        listener.until(lambda event: event.get("here") == ["browser 1", "browser 2"])
        with monkeypatch.context() as patch:
            patch.setattr("nrdb.web.streams.WAITING_BYTES", 2**20)
            patch.setattr("nrdb.web.http_connection.IN_TIME", 2)
            for number in range(60):
                served.streams.tell("said", lines=["x" * 200_000], number=number)
                assert listener.named("said")["number"] == number
            listener.until(lambda event: event.get("here") == ["browser 1"])
    served.expect_that_it_goes_on()


def test_a_browser_that_is_gone_is_found_out(served: Served) -> None:
    with Listener(served.address), Listener(served.address):
        assert served.streams.listening() == 2
    wait_until(lambda: served.streams.listening() == 0)
    assert served.streams.name_of("1") == "somebody"


def test_a_listener_that_is_sent_pulses_alone_does_not_wait_for_ever(
    monkeypatch: pytest.MonkeyPatch, served: Served
) -> None:
    monkeypatch.setattr("nrdb.web.page_server.PULSE", 0.01)
    with Listener(served.address) as listener:
        monkeypatch.setattr("tests.support.web_client.PATIENCE", 0.1)
        with pytest.raises(TimeoutError):
            listener.named("never")


def test_no_more_is_kept_than_there_is_room_for(monkeypatch: pytest.MonkeyPatch, served: Served) -> None:
    monkeypatch.setattr("nrdb.web.streams.MOST_KEPT", 3)
    for number in range(10):
        served.streams.tell("said", lines=[], number=number)
    with Listener(served.address) as listener:
        listener.named("browsers")
        numbers = [event["number"] for event in listener.events if event["event"] == "said"]
    assert numbers == [7, 8, 9]


def test_it_ends_whoever_is_connected() -> None:
    at = listening(0)
    address = Address(at.getsockname()[1], TOKEN)
    server = Server(at, Gate(address.port, TOKEN), document(), Streams(""), Written())
    server.start()
    with Listener(address) as listener, address.connect() as silent:
        server.stop()
        with pytest.raises(EOFError):
            while True:
                listener.next()
        assert rest_of(silent) == b""
    assert not [thread for thread in threading.enumerate() if "_serve" in thread.name]
    with pytest.raises(ConnectionError):
        address.get("/")


def has_ended(connection: socket.socket) -> bool:
    """Whether the other end has ended the connection."""
    connection.settimeout(0.01)
    try:
        return not connection.recv(1)
    except ConnectionError:
        return True
    except TimeoutError:
        return False


def wait_until(is_so: Callable[[], bool]) -> None:
    """Waits until a condition holds."""
    limit = time.monotonic() + 10
    while not is_so():
        if time.monotonic() > limit:
            raise TimeoutError
        time.sleep(0.005)
