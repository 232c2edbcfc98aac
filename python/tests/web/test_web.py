"""The page's server refuses each request that doesn't come from the page, and the session continues. It uses real
sockets, and a session that only stores its lines."""

import base64
import hashlib
import json
import re
import socket
import time
from concurrent.futures import Future
from contextlib import ExitStack

import pytest

from nrdb.web.document import document
from nrdb.web.page_server import Server, UnavailableError, listening
from nrdb.web.requests import Gate
from nrdb.web.streams import Streams
from tests.support.stubs import raising
from tests.support.web_client import LOOPBACK, Address, Listener

SVG = 'xmlns="http://www.w3.org/2000/svg"'  # a namespace in what the page saves; nothing is fetched from there
TOKEN = "right-token"
DATA = b'{"cells":{}}'


class Written:
    """A session that stores its lines."""

    def __init__(self) -> None:
        self.lines: list[tuple[str, str]] = []
        self.parts: list[tuple[int, int]] = []
        self.is_gone = False

    def post(self, user: str, line: str) -> None:
        if self.is_gone:
            raise UnavailableError("netrev has ended")
        self.lines.append((user, line))

    def complete(self, line: str) -> "Future[bytes]":
        if self.is_gone:
            raise UnavailableError("netrev has ended")
        future: Future[bytes] = Future()
        future.set_result(json.dumps([line, f"{line}!"]).encode("ascii"))
        return future

    def timeline(self) -> "Future[bytes]":
        future: Future[bytes] = Future()
        if self.is_gone:
            future.set_exception(UnavailableError("netrev has ended"))
        else:
            future.set_result(DATA)
        return future

    def part(self, first: int, last: int) -> "Future[bytes]":
        if last > 100:
            raise UnavailableError("there are 100 steps")
        self.parts.append((first, last))
        return self.timeline()


class Served:
    """The page's server, with a session that stores its lines."""

    def __init__(self, cleanups: ExitStack) -> None:
        at = listening(0)
        self.address = Address(at.getsockname()[1], TOKEN)
        self.session, self.streams = Written(), Streams("first.jsonl")
        gate = Gate(self.address.port, TOKEN)
        server = Server(at, gate, document(), self.streams, self.session)
        server.start()
        cleanups.callback(server.stop)

    def expect_refused(self, rows: dict[str, tuple[int, bytes]]) -> None:
        """Expects that each of these requests is refused with this status, and that no request reaches the session."""
        for name, (status, data) in rows.items():
            assert self.address.send(data).status == status, name
            assert self.session.lines == [], name
        self.expect_that_it_goes_on()

    def expect_that_it_goes_on(self) -> None:
        """Expects that the page is served, a line is accepted, and events come."""
        assert self.address.get(f"/?token={TOKEN}").status == 200
        with Listener(self.address) as listener:
            assert self.address.type("stepi", Netrev_Browser=str(listener.you["number"])).status == 202
            assert self.session.lines.pop() == (listener.you["who"], "stepi")
            self.streams.tell("answered", line="stepi")
            assert listener.named("answered") == {"event": "answered", "line": "stepi"}
        assert self.session.lines == []


def test_the_page_is_all_that_a_browser_takes(served: Served) -> None:
    for host in (LOOPBACK, "localhost"):
        page = served.address.get(f"/?token={TOKEN}", Host=f"{host}:{served.address.port}", Netrev_Token="")
        assert (page.status, page.headers["Content-Type"]) == (200, "text/html; charset=utf-8")
    policy, text = page.headers["Content-Security-Policy"], page.body.decode("utf-8")
    assert "default-src 'none'" in policy
    for element, directive in (("style", "style-src"), ("script", "script-src")):
        (inside,) = re.findall(rf"<{element}>(.*?)</{element}>", text, re.DOTALL)
        hashed = base64.b64encode(hashlib.sha256(inside.encode("utf-8")).digest()).decode("ascii")
        assert f"{directive} 'sha256-{hashed}';" in policy
    text = text.replace(SVG, "")
    assert re.findall(r"https?://|\b(?:src|href|style)=|innerHTML|document\.write", text) == []
    assert TOKEN not in text


def test_what_goes_with_each_answer(served: Served) -> None:
    bad = served.address.get("/nothing")
    for answer in (served.address.get(f"/?token={TOKEN}"), served.address.get("/timeline"), bad):
        for name, value in (
            ("Cache-Control", "no-store"),
            ("X-Content-Type-Options", "nosniff"),
            ("Referrer-Policy", "no-referrer"),
            ("X-Frame-Options", "DENY"),
            ("Cross-Origin-Resource-Policy", "same-origin"),
            ("Content-Security-Policy", document().policy),
        ):
            assert answer.headers[name] == value
        assert "Access-Control-Allow-Origin" not in answer.headers


def test_the_data_and_lines(served: Served) -> None:
    data = served.address.get("/timeline")
    assert (data.status, data.headers["Content-Type"], data.body) == (200, "application/json", DATA)
    assert served.address.type("goto 3; where").status == 202
    assert served.address.type("ä" * 128, Netrev_Browser="77").status == 202
    assert served.session.lines == [("somebody", "goto 3; where"), ("somebody", "ä" * 128)]


def test_a_line_that_is_being_typed_is_completed(served: Served) -> None:
    request, post = served.address.request, lambda body: served.address.send(request("POST", "/complete", body))
    found = post("info ä".encode("utf-8"))
    assert (found.status, json.loads(found.body)) == (200, ["info ä", "info ä!"])
    assert [post(body).status for body in (b"a" * 257, b"a\nb", b"\xff")] == [413, 400, 400]
    assert served.address.send(request("POST", "/complete", b"st", Netrev_Token="wrong")).status == 403
    assert served.address.get("/complete").status == 405
    served.session.is_gone = True
    assert post(b"st").status == 503
    assert served.session.lines == []


def test_a_part_is_named_by_its_positions(served: Served) -> None:
    part = served.address.get("/part", Netrev_Positions="7-90")
    assert (part.status, part.body, served.session.parts) == (200, DATA, [(7, 90)])
    refused = {
        "": 400,
        "7": 400,
        "7-": 400,
        "-7": 400,
        "7-x": 400,
        "7-90-100": 400,
        "7-\xb2": 400,
        "7-" + "9" * 19: 400,
    }
    for named, status in {**refused, "7-101": 503}.items():
        assert served.address.get("/part", Netrev_Positions=named).status == status, named
    assert served.address.get("/part").status == 400
    assert served.address.get("/part", Netrev_Positions="7-90", Netrev_Token="wrong").status == 403
    assert served.session.parts == [(7, 90)]


def test_what_isnt_answered_is_said(served: Served) -> None:
    served.session.is_gone = True
    for answer in (served.address.type("stepi"), served.address.get("/timeline")):
        assert (answer.status, answer.body) == (503, b"netrev has ended")
    served.session.is_gone = False
    served.expect_that_it_goes_on()


def test_it_listens_at_the_loopback_alone() -> None:
    with listening(0) as at:
        assert at.getsockname()[0] == LOOPBACK
        with pytest.raises(OSError):
            listening(at.getsockname()[1])
    with pytest.raises(OSError):
        listening(70_000)


def test_another_host_or_origin(served: Served) -> None:
    get, post, page = served.address.get, served.address.type, f"/?token={TOKEN}"
    port = served.address.port
    for host in ("", "evil.example", f"evil.example:{port}", LOOPBACK, f"{LOOPBACK}:{port + 1}", f"0.0.0.0:{port}"):
        for answer in (get(page, Host=host), get("/timeline", Host=host), post("stepi", Host=host)):
            assert answer.status == 403, host
    for origin in (
        "null",
        "http://evil.example",
        f"https://{LOOPBACK}:{port}",
        f"http://{LOOPBACK}",
        f"http://{LOOPBACK}:{port}.evil.example",
        f"http://evil.example:{port}",
        f"http://{LOOPBACK}:{port}/",
    ):
        for answer in (get(page, Origin=origin), get("/timeline", Origin=origin), post("stepi", Origin=origin)):
            assert answer.status == 403, origin
    served.expect_that_it_goes_on()


def test_no_token_or_another(served: Served) -> None:
    request = served.address.request
    rows = {}
    for name, token in (("none", ""), ("another", "wrong"), ("a part", TOKEN[:-1]), ("more", f"{TOKEN}x")):
        query = f"?token={token}" if token else ""
        for path in ("/", "/events"):
            rows[f"{path}: {name}"] = (403, request("GET", path + query))
        rows[f"/timeline: {name}"] = (403, request("GET", "/timeline", Netrev_Token=token))
        rows[f"/line: {name}"] = (403, request("POST", "/line", b"stepi", Netrev_Token=token))
    rows |= {
        "letters beyond ASCII": (403, request("GET", "/timeline", Netrev_Token="\xe4")),
        "in the wrong place": (403, request("GET", f"/timeline?token={TOKEN}", Netrev_Token="")),
        "in both places": (403, request("GET", f"/timeline?token={TOKEN}")),
        "of the page, as a header": (403, request("GET", "/")),
        "twice": (403, request("GET", f"/?token={TOKEN}&token={TOKEN}")),
        "by another name": (403, request("GET", f"/?tokens={TOKEN}")),
    }
    served.expect_refused(rows)


def test_paths_that_arent_there(served: Served) -> None:
    paths = [
        "/../../etc/passwd",
        "/%2e%2e/%2e%2e/etc/passwd",
        "//etc/passwd",
        "/..",
        "/./",
        "/page/live.js",
        "/live.html",
    ]
    paths += [
        "/index.html",
        "/favicon.ico",
        "/events/",
        "/line/../",
        "/timeline%00",
        "/LINE",
        "/;/",
        "/" + "a" * 4000,
    ]
    request, token = served.address.request, f"?token={TOKEN}"
    rows = {path: (404, request("GET", path + token)) for path in paths}
    rows |= {f"posted to {path}": (404, request("POST", path, b"stepi")) for path in paths}
    for target in ("http://evil.example/", "*", "etc/passwd", "", "/a b", "/\x01", "/\xe4"):
        rows[f"target {target!r}"] = (400, request("GET", target))
    served.expect_refused(rows)


def test_other_methods(served: Served) -> None:
    rows = {}
    for method in ("HEAD", "PUT", "DELETE", "OPTIONS", "TRACE", "POST"):
        rows[f"{method} /"] = (405, served.address.request(method, f"/?token={TOKEN}"))
    for method in ("GET", "PUT", "OPTIONS", "PATCH"):
        rows[f"{method} /line"] = (405, served.address.request(method, "/line"))
    served.expect_refused(rows)


def test_what_is_no_request(served: Served) -> None:
    host = f"Host: {LOOPBACK}:{served.address.port}\r\n"
    rows = {
        "words": b"stepi 3\r\n\r\n",
        "a line of netrev's": b"quit\n\r\n\r\n",
        "bytes": bytes(range(256)) + b"\r\n\r\n",
        "HTTP/2": b"PRI * HTTP/2.0\r\n\r\n",
        "TLS": b"\x16\x03\x01\x02\x00\x01\x00\r\n\r\n",
        "another version": f"GET / HTTP/9.9\r\n{host}\r\n".encode(),
        "two hosts": f"GET /?token={TOKEN} HTTP/1.1\r\n{host}{host}\r\n".encode(),
        "a header without a name": f"GET /?token={TOKEN} HTTP/1.1\r\n{host}: x\r\n\r\n".encode(),
        "a header of two lines": f"GET /?token={TOKEN} HTTP/1.1\r\n{host}A: b\r\n c\r\n\r\n".encode(),
        "a space before the colon": f"GET /?token={TOKEN} HTTP/1.1\r\n{host}A : x\r\n\r\n".encode(),
        "line feeds alone": f"GET /?token={TOKEN} HTTP/1.1\n{host}\r\n\r\n".encode(),
    }
    served.expect_refused({name: (400, data) for name, data in rows.items()})


def test_heads_that_are_too_long(served: Served) -> None:
    request = served.address.request
    rows = {
        "one header": (431, request("GET", "/timeline", A="b" * 9_000)),
        "many headers": (431, request("GET", "/timeline", **{f"A{number}": "b" for number in range(2_000)})),
        "a path": (431, request("GET", "/" + "a" * 20_000)),
    }
    served.expect_refused(rows)


def test_bodies(served: Served) -> None:
    request = served.address.request
    served.expect_refused(
        {
            "too long": (413, request("POST", "/line", b"a" * 257)),
            "of a GET": (413, request("GET", "/timeline", b"stepi", Content_Length="5")),
            "without a length": (411, request("POST", "/line", Content_Length="")),
            "in pieces": (411, request("POST", "/line", b"5\r\nstepi\r\n0\r\n\r\n", Transfer_Encoding="chunked")),
            "a length below nothing": (400, request("POST", "/line", Content_Length="-1")),
            "a length with a sign": (400, request("POST", "/line", b"stepi", Content_Length="+5")),
            "a length of other digits": (400, request("POST", "/line", b"stepi", Content_Length="\xb2")),
            "two lines": (400, request("POST", "/line", b"stepi\nquit")),
            "a line feed": (400, request("POST", "/line", b"stepi\n")),
            "controls": (400, request("POST", "/line", b"\x1b[2Jstepi")),
            "no UTF-8": (400, request("POST", "/line", b"stepi\xff")),
            "a mark that turns the direction": (400, request("POST", "/line", "\u202estepi".encode())),
        }
    )


def test_a_body_of_100_mb(served: Served) -> None:
    long = 100 * 2**20
    head = served.address.request("POST", "/line", Content_Length=str(long))
    assert served.address.send(head).status == 413
    with served.address.connect() as connection:
        connection.sendall(head)
        sent = 0
        with pytest.raises(ConnectionError):
            while sent < long:
                sent += connection.send(b"a" * 2**16)
    assert sent < long // 4  # (only as much as the system buffers for a connection)
    served.expect_that_it_goes_on()


def test_who_is_slow_is_ended(monkeypatch: pytest.MonkeyPatch, served: Served) -> None:
    whole = served.address.request("POST", "/line", b"stepi")
    with monkeypatch.context() as patch:
        patch.setattr("nrdb.web.http_connection.IN_TIME", 0.2)
        for part in (b"GET", whole[:-7], whole[:-1]):
            assert served.address.send(part).status == 408
        with served.address.connect() as connection:
            begun = time.monotonic()
            while time.monotonic() - begun < 10:  # a byte from time to time, which blocks no other connection
                try:
                    connection.sendall(b"G")
                except ConnectionError:
                    break
                time.sleep(0.05)
            assert time.monotonic() - begun < 5
    served.expect_that_it_goes_on()


@pytest.mark.parametrize("error", [OSError(98, "Address already in use"), OverflowError("port must be 0-65535")])
@pytest.mark.parametrize("call", ["bind", "listen"])
def test_a_socket_that_cannot_listen_is_closed(monkeypatch: pytest.MonkeyPatch, call: str, error: Exception) -> None:
    closed = []

    class Failing(socket.socket):
        def close(self) -> None:
            closed.append(self)
            super().close()

    monkeypatch.setattr(Failing, "bind", lambda *_: None)
    monkeypatch.setattr(Failing, call, raising(error))
    monkeypatch.setattr("nrdb.web.page_server.socket.socket", Failing)
    with pytest.raises(OSError, match=str(error.args[-1])):
        listening(7)
    assert len(closed) == 1


def test_a_port_can_be_listened_on_again_at_once() -> None:
    """The system still remembers the previous browser's connection."""
    with listening(0) as at:
        port = at.getsockname()[1]
        with socket.create_connection((LOOPBACK, port)) as browser:
            accepted, _ = at.accept()
            accepted.close()
            assert browser.recv(1) == b""
    listening(port).close()
