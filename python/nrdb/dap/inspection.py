"""Requests about the session's position: for goroutines, stacks, variables, values, memory and completions."""

from netrev.messages import editors as texts
from nrdb.prompt.completion import candidates

from .target import DebugTarget
from .view import memory
from .view.messages import Body, Request, UnanswerableError
from .view.numbering import Numbering


def threads(target: DebugTarget, _: Numbering, __: Request) -> Body:
    """The goroutines."""
    return {"threads": target.looks.threads()}


def stack(target: DebugTarget, numbering: Numbering, request: Request) -> Body:
    """The stack of a thread, or the requested part of it."""
    frames = target.looks.frames_of(request.whole_number("threadId"))
    shown = page(request, frames, "startFrame", "levels")
    placed = [frame | ({"line": numbering.to(frame["line"])} if frame["line"] else {}) for frame in shown]
    return {"stackFrames": placed, "totalFrames": len(frames)}


def scopes(target: DebugTarget, _: Numbering, request: Request) -> Body:
    """The scopes of a frame."""
    return {"scopes": target.looks.scopes(request.whole_number("frameId"))}


def variables(target: DebugTarget, _: Numbering, request: Request) -> Body:
    """The variables of a scope, or the requested part of them."""
    found = target.looks.variables(request.whole_number("variablesReference"))
    return {"variables": page(request, found, "start", "count")}


def page(request: Request, rows: list[Body], first: str, count: str) -> list[Body]:
    """The requested rows; all rows if the request gives no number."""
    begin, most = (request.arguments.get(name) or 0 for name in (first, count))
    if not isinstance(begin, int) or not isinstance(most, int) or begin < 0 or most < 0:
        raise UnanswerableError(texts.RANGE.format(first=first, count=count))
    return rows[begin : begin + most if most else None]


def value(target: DebugTarget, text: str, context: object) -> Body:
    """The value of the cell that a text names. On a hover, the text may also name a kind of step; the result is then
    the kind's meaning."""
    shown = (target.looks.meaning if context == "hover" else target.looks.value)(text)
    if shown is None:
        raise UnanswerableError(texts.NOT_A_VALUE.format(text=text))
    named = memory.reference_of(text) if text.split() else None
    return {"result": shown, "variablesReference": 0} | ({"memoryReference": named} if named else {})


def read_memory(target: DebugTarget, _: Numbering, request: Request) -> Body:
    """The bytes in a buffer."""
    return memory.read(target.debuggee.session.netrev, request)


def completions(target: DebugTarget, numbering: Numbering, request: Request) -> Body:
    """The completions of a word in the console."""
    text, column = request.text("text"), request.whole_number("column")
    typed = text[: max(column - numbering.first, 0)]
    *before, last = typed.split(" ")
    found = candidates([word for word in before if word], target.debuggee.numbers)
    labels = sorted({candidate for candidate in found if candidate.startswith(last)})
    start = len(typed) - len(last) + numbering.first
    return {"targets": [{"label": label, "start": start, "length": len(last)} for label in labels]}


def refuse_change(_: DebugTarget, __: Numbering, ___: Request) -> Body:
    """Refuses a request to set a value."""
    raise UnanswerableError(texts.READ_ONLY)
