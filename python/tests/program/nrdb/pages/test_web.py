"""`nrdb --web`: several people follow a session's events and type lines, a terminal uses another front of the session,
and netrev is killed. tests/web/test_web.py tests requests that don't come from the page."""

import json
import socket
import subprocess
from contextlib import suppress
from pathlib import Path

from tests.program.nrdb.common.support import EXAMPLES, nrdb, shown
from tests.program.nrdb.common.web_support import Web
from tests.program.nrdb.sessions.test_join import ServedSession, replies
from tests.program.support.sharing import NETREV, PORTS, Server
from tests.support.web_client import Listener

FIRST = EXAMPLES / "first.jsonl"
LOST = EXAMPLES / "lost-wakeup.jsonl"
GONE = "netrev has ended: lines aren't answered until it is back"


def serving(fronts: int, port: "int | None" = None) -> Server:
    """A shared session about the recording LOST. It serves until it is stopped."""
    server = Server(LOST, fronts=fronts, connections=0, port=port)
    for front in range(fronts):
        server.call(front).close()
    return server


def children(process: int) -> list[int]:
    """The child processes of this process."""
    found = []
    for task in Path(f"/proc/{process}/task").iterdir():
        with suppress(FileNotFoundError):  # (a thread may have ended meanwhile)
            found += [int(word) for word in (task / "children").read_text().split()]
    return found


def test_two_listen_and_one_is_at_a_terminal() -> None:
    with serving(2) as server, Web("--join", f"127.0.0.1:{server.port}", LOST) as web:
        with Listener(web.address) as item, Listener(web.address) as other, ServedSession(
            server.port + 1, LOST
        ) as person:
            assert [item.you["who"], other.you["who"]] == ["browser 1", "browser 2"]
            assert item.said("continue")[:2] == ["at 22 end", "| last step 22: parkcommit 0   (end)"]
            assert replies(person.ask("info position")) == ["at 22 of 22 forward"]
            moved = {"event": "moved", "who": "browser 1", "line": "continue", "from": 0, "to": 22}
            assert other.named("moved") == moved
            person.ask("reverse-stepi 4", "watch rg 0")
            for listener in (item, other):
                events = {"event": "moved", "who": "another front", "line": None, "from": 22, "to": 18}
                assert listener.named("moved") == events
                assert listener.named("stands")["position"] == 18
                assert listener.named("marks")["marks"] == [{"mark": 1, "what": "watch rg 0"}]
            assert other.said("reverse-continue")[0] == "at 16 by 1"
            told_at_the_terminal = person.ask("print rg 0")
            assert told_at_the_terminal[0]["text"] == "someone else has moved: from 18 to 16"
            assert replies(told_at_the_terminal) == ["rg 0 = ready"]
            assert "| 1. lost wake-up" in item.said("info suspects")[0]
        assert web.ends() == (0, "", "")


def test_netrev_is_killed_and_served_again() -> None:
    with Web_of_a_front() as (server, web), Listener(web.address) as item, Listener(web.address) as other:
        item.said("stepi 5")
        server.process.kill()
        for listener in (item, other):
            result = listener.named("netrev")
            assert (result["there"], result["says"]) == (False, GONE)
        refused = web.address.type("stepi")
        assert (refused.status, refused.body.decode()) == (503, GONE)
        with serving(1, server.port):
            assert other.named("netrev")["there"]
            assert other.said("stepi")[0] == "at 1"
            assert item.until(lambda event: event.get("line") == "stepi")["who"] == "browser 2"
        assert not item.until(lambda event: event["event"] == "netrev" and not event["there"])["there"]
        assert web.ends() == (0, "", "")


def test_without_the_recording_there_is_no_timeline() -> None:
    with serving(1) as server, Web("--join", f"127.0.0.1:{server.port}") as web, Listener(web.address) as item:
        assert item.you["recording"] is None
        assert item.said("stepi 3") == ["at 3", "| last step 3   next step 4"]
        answer = web.address.get("/timeline")
        assert answer.status == 503
        assert b"the timeline needs the recording: name its file after --join HOST:PORT" in answer.body


class Web_of_a_front:
    """A shared session, and a page at one of its fronts."""

    def __enter__(self) -> "tuple[Server, Web]":
        self._server = serving(1)
        self._web = Web("--join", f"127.0.0.1:{self._server.port}", LOST)
        return self._server, self._web

    def __exit__(self, *_: object) -> None:
        self._web.__exit__()
        self._server.__exit__()


def test_a_session_of_its_own() -> None:
    with Web("-ex", "goto 4", FIRST) as web, Listener(web.address) as one:
        assert "(netrev) goto 4\nat 4\n" in web.said
        assert one.said("info position") == ["at 4 of 10 forward"]
        assert b'"length":10' in web.address.get("/timeline").body
        part = json.loads(web.address.get("/part", Netrev_Positions="2-7").body)
        assert (part["first"], part["last"], part["steps"][0]) == (2, 7, str(shown(FIRST).recording.step(2)))
        begun = children(web.process.pid)
        assert len(begun) >= 1
        assert web.ends() == (0, "", "")
    assert [item for item in begun if Path(f"/proc/{item}").exists()] == []


def test_its_netrev_is_killed_and_begun_again() -> None:
    with Web(FIRST) as web, Listener(web.address) as item:
        item.said("stepi 4")
        for child in children(web.process.pid):
            with suppress(OSError):  # (the netrev that prints the changes may have ended already)
                if "run" in Path(f"/proc/{child}/cmdline").read_text().split("\0"):
                    subprocess.run(["kill", "-KILL", str(child)], check=True)
        assert item.named("netrev")["says"] == GONE
        assert item.named("netrev")["there"]
        assert item.said("info position") == ["at 0 of 10 forward"]
        assert web.ends() == (0, "", "")


def test_what_isnt_the_pages_leaves_the_session_alone() -> None:
    with Web(FIRST) as web, Listener(web.address) as item:
        for answer in (
            web.address.type("stepi", Netrev_Token="wrong"),
            web.address.type("stepi", Origin="http://evil.example"),
            web.address.type("stepi", Host="evil.example"),
            web.address.type("stepi", Content_Length=str(100 * 2**20)),
            web.address.get("/../../etc/passwd"),
        ):
            assert answer.status in (403, 404, 413)
        assert item.said("source /etc/passwd") == ["| the page can't read or write files: use nrdb's prompt"]
        assert item.said("info position") == ["at 0 of 10 forward"]


def test_where_it_cant_be_served_that_is_said() -> None:
    with socket.socket() as taken:
        taken.bind(("127.0.0.1", PORTS.take(1)))
        taken.listen()
        port = taken.getsockname()[1]
        output = nrdb("--web", port, FIRST, status=3).splitlines()
    assert output[-1] == f"| port {port}: Address already in use"
    assert "| port 70000: " in nrdb("--web", 70_000, FIRST, status=3)
    assert nrdb("--web", 0, EXAMPLES / "nothing.jsonl", status=3).count("No such file") == 1
    ended = subprocess.run([NETREV, "check", str(EXAMPLES / "other-answer.jsonl")], capture_output=True, text=True)
    output = nrdb("--web", 0, EXAMPLES / "other-answer.jsonl", status=1).splitlines()
    assert output[0] == ended.stdout.strip()
