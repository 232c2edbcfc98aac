"""The bytes in a socket's buffers, which an editor reads as memory. The name of a buffer is the cell that counts its
bytes, `in 0` or `out 0`."""

import base64

from netrev.connection.netrev import Netrev
from netrev.messages import editors as texts
from netrev.text.vocabulary import number_of

from .messages import Body, Request, UnanswerableError

BUFFERS = ("in", "out")


def reference_of(cell: str) -> str | None:
    """The buffer whose bytes a cell counts; None if the cell counts no bytes."""
    name, *number = cell.split()
    return cell if name in BUFFERS and number else None


def read(netrev: Netrev, request: Request) -> Body:
    """The requested bytes of a buffer at the session's position. Bytes beyond the buffer's end are reported as
    unreadable."""
    named = request.text("memoryReference")
    begin, count = _offset(request), request.whole_number("count")
    words = named.split()
    number = number_of(words[1]) if len(words) == 2 else None
    if number is None or words[0] not in BUFFERS:
        raise UnanswerableError(texts.NOT_A_BUFFER.format(name=named))
    if count < 0:
        raise UnanswerableError(texts.COUNT)
    (shown,) = netrev.looks([f"dump {words[0]} {number}"])
    if shown == "absent":
        raise UnanswerableError(texts.NO_BUFFER.format(name=named))
    held = b"" if shown == "-" else bytes.fromhex(shown)
    content = held[max(begin, 0) : max(begin + count, 0)] if begin >= 0 else b""
    missing = count - len(content)
    data: Body = {"data": base64.b64encode(content).decode("ascii")} if content else {}
    return {"address": hex(max(begin, 0)), **data, **({"unreadableBytes": missing} if missing else {})}


def _offset(request: Request) -> int:
    return request.whole_number("offset") if "offset" in request.arguments else 0
