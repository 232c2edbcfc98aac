"""Checks requests. A request must have one of six paths, come from this machine's own page, and carry the token. All
other requests are rejected."""

import hmac
import re
from collections.abc import Mapping
from dataclasses import dataclass
from http import HTTPStatus

from netrev.errors import NetrevError
from netrev.messages import browsers as texts

LONGEST_LINE = 256  # the maximum number of bytes in a line that netrev accepts
TOKEN, BROWSER, POSITIONS = "netrev-token", "netrev-browser", "netrev-positions"  # headers that the page's script sends
PAGE, EVENTS, TIMELINE, PART, LINE, COMPLETE = "/", "/events", "/timeline", "/part", "/line", "/complete"
METHODS = {PAGE: "GET", EVENTS: "GET", TIMELINE: "GET", PART: "GET", LINE: "POST", COMPLETE: "POST"}
# requests that carry the token in the address, because the browser can't set a header for these requests
BY_ADDRESS = (PAGE, EVENTS)

FIRST_LINE = re.compile(r"([A-Z]{1,20}) (/[!-~]*) HTTP/1\.[01]")
HEADER = re.compile(r"([!#$%&'*+.^_`|~0-9A-Za-z-]+):[ \t]*([^\x00-\x08\x0a-\x1f\x7f]*)")
LENGTH = re.compile(r"\d{1,18}")
FROM_TO = re.compile(r"(\d{1,18})-(\d{1,18})")


class RejectedRequestError(NetrevError):
    """Raised for a rejected request, with the status and the reason."""

    def __init__(self, status: HTTPStatus, why: str):
        super().__init__(why)
        self.status = status


@dataclass(frozen=True)
class BrowserRequest:
    """A request's method, its path and query, and its headers, keyed by their names in lower case."""

    method: str
    path: str
    query: str
    headers: Mapping[str, str]

    @classmethod
    def of(cls, head: bytes) -> "BrowserRequest":
        """The request in the bytes up to the empty line; raises RejectedRequestError if the request is malformed. No
        header may occur twice, because two parsers could choose different values."""
        first, *lines = head.decode("latin-1").removesuffix("\r\n\r\n").split("\r\n")
        request_line = FIRST_LINE.fullmatch(first)
        found = [HEADER.fullmatch(line) for line in lines]
        headers = {header[1].lower(): header[2].rstrip(" \t") for header in found if header}
        if request_line is None or len(headers) < len(lines):
            raise RejectedRequestError(HTTPStatus.BAD_REQUEST, texts.NOT_A_REQUEST)
        path, _, query = request_line[2].partition("?")
        return cls(request_line[1], path, query, headers)

    def length(self) -> int:
        """The length of the request's body; raises RejectedRequestError if the length is missing or too large."""
        length = self.headers.get("content-length", "" if self.method == "POST" else "0")
        if "transfer-encoding" in self.headers or not length:
            raise RejectedRequestError(HTTPStatus.LENGTH_REQUIRED, texts.NO_LENGTH)
        if not LENGTH.fullmatch(length):
            raise RejectedRequestError(HTTPStatus.BAD_REQUEST, texts.BAD_LENGTH)
        if int(length) > (LONGEST_LINE if self.method == "POST" else 0):
            raise RejectedRequestError(HTTPStatus.REQUEST_ENTITY_TOO_LARGE, texts.LONG_LINE.format(most=LONGEST_LINE))
        return int(length)


class Gate:
    """Admits requests to the address that nrdb printed."""

    def __init__(self, port: int, token: str):
        self._hosts = [f"{name}:{port}" for name in ("127.0.0.1", "localhost")]
        self._token = token.encode("ascii")

    def check(self, request: BrowserRequest) -> None:
        """Raises RejectedRequestError unless the request is admitted."""
        if request.headers.get("host") not in self._hosts:
            raise RejectedRequestError(HTTPStatus.FORBIDDEN, texts.OTHER_HOST)
        if request.headers.get("origin", f"http://{self._hosts[0]}") not in [f"http://{host}" for host in self._hosts]:
            raise RejectedRequestError(HTTPStatus.FORBIDDEN, texts.OTHER_ORIGIN)
        if request.path not in METHODS:
            raise RejectedRequestError(HTTPStatus.NOT_FOUND, texts.NOT_FOUND)
        if request.method != METHODS[request.path]:
            says = texts.OTHER_METHOD.format(path=request.path, method=METHODS[request.path])
            raise RejectedRequestError(HTTPStatus.METHOD_NOT_ALLOWED, says)
        if not self._has_token(request):
            raise RejectedRequestError(HTTPStatus.FORBIDDEN, texts.NO_TOKEN)

    def _has_token(self, request: BrowserRequest) -> bool:
        """Whether the token is where this request must have it."""
        given = request.headers.get(TOKEN, "")
        if request.path in BY_ADDRESS:
            name, _, given = request.query.partition("=")
            if name != "token":
                return False
        elif request.query:
            return False
        return hmac.compare_digest(given.encode("latin-1"), self._token)


def line_of(body: bytes) -> str:
    """The line in a body; raises RejectedRequestError if the body isn't exactly one line."""
    try:
        line = body.decode("utf-8")
    except UnicodeDecodeError:
        line = "\0"
    if not line.isprintable():
        raise RejectedRequestError(HTTPStatus.BAD_REQUEST, texts.BAD_LINE)
    return line


def positions_of(request: BrowserRequest) -> tuple[int, int]:
    """The first and the last position of the requested part; raises RejectedRequestError if either is missing."""
    named = FROM_TO.fullmatch(request.headers.get(POSITIONS, ""))
    if named is None:
        raise RejectedRequestError(HTTPStatus.BAD_REQUEST, texts.BAD_PART)
    return int(named[1]), int(named[2])
