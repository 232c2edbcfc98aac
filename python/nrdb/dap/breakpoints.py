"""Requests about breakpoints: at lines, kinds of steps, functions, cells, and steps at which something went wrong."""

from netrev.messages import editors as texts
from netrev.text.plain import plain
from netrev.text.vocabulary import KINDS

from .breakpoint_requests import BreakpointError, BreakpointRequest, cell_wish, kind_wish, positions_of, wish_of
from .go_lines import FUNCTIONS
from .marks import BreakpointKind
from .target import DebugTarget
from .view.messages import Body, Request, UnanswerableError
from .view.numbering import Numbering

MOST_TARGETS = 1_000  # the maximum number of lines searched for steps


def set_lines(target: DebugTarget, numbering: Numbering, request: Request) -> Body:
    """Sets the breakpoints at lines of the recording."""
    bodies = request.objects("breakpoints")
    if not is_the_recording(target, request):
        return {"breakpoints": in_the_program(target, numbering, path_of(request), bodies)}
    steps = [target.debuggee.step_at(numbering.of(body)) for body in bodies]
    numbers = [step.number if step else target.debuggee.length + 1 for step in steps]
    answers = of_steps(target, path_of(request), [wish_of(f"@{number}", body) for number, body in zip(numbers, bodies)])
    lines = [{"line": numbering.to(step.line)} if step else {} for step in steps]
    return {"breakpoints": [answer | line for answer, line in zip(answers, lines)]}


def of_steps(target: DebugTarget, path: str, wishes: list[BreakpointRequest | BreakpointError]) -> list[Body]:
    """Replaces the breakpoints before steps, and returns the protocol's answer for each. Log messages use no marks of
    netrev."""
    session = target.debuggee.session
    target.logpoints.clear(path)
    answers = [
        target.logpoints.set(path, positions_of(session, breakpoint.what), breakpoint)
        if isinstance(breakpoint, BreakpointRequest) and breakpoint.message
        else None
        for breakpoint in wishes
    ]
    of_marks = iter(
        target.marks.replace(
            BreakpointKind.LINE, [breakpoint for breakpoint, answer in zip(wishes, answers) if answer is None]
        )
    )
    return [answer or next(of_marks) for answer in answers]


def in_the_program(target: DebugTarget, numbering: Numbering, path: str, bodies: list[Body]) -> list[Body]:
    """Sets the breakpoints in a file of the program."""
    if not target.debuggee.recording.lines:
        return [{"verified": False, "message": texts.NO_LINES} for _ in bodies]
    target.go_lines.clear(path)
    lines = [numbering.of(body) for body in bodies]
    answers = [target.go_lines.set_line(path, line, wish_of("", body)) for line, body in zip(lines, bodies)]
    return [body | ({"line": numbering.to(line)} if body["verified"] else {}) for body, line in zip(answers, lines)]


def path_of(request: Request) -> str:
    """The path of the source that a request names; empty if the request names no source."""
    source = request.arguments.get("source")
    path = source.get("path") if isinstance(source, dict) else None
    return path if isinstance(path, str) else ""


def is_the_recording(target: DebugTarget, request: Request) -> bool:
    """Whether a request names the recording as its source."""
    return bool(path_of(request)) and target.debuggee.is_at(path_of(request))


def set_functions(target: DebugTarget, _: Numbering, request: Request) -> Body:
    """Sets the breakpoints at kinds of steps and at the program's functions."""
    bodies = request.objects("breakpoints")
    target.go_lines.clear(FUNCTIONS)
    of_program = [
        target.go_lines.set_function(str(body.get("name")), wish_of("", body)) if is_function(body) else None
        for body in bodies
    ]
    wishes = [kind_wish(body) for body, answer in zip(bodies, of_program) if answer is None]
    of_kinds = iter(target.marks.replace(BreakpointKind.FUNCTION, wishes))
    return {"breakpoints": [answer or next(of_kinds) for answer in of_program]}


def is_function(body: Body) -> bool:
    """Whether a breakpoint may be at a function: its name isn't that of a kind of step."""
    return isinstance(body.get("name"), str) and body["name"] not in KINDS


def data_info(target: DebugTarget, _: Numbering, request: Request) -> Body:
    """The protocol's reply that says whether a name is a cell that can be watched."""
    name = request.text("name")
    if target.looks.value(name) is None:
        return {"dataId": None, "description": texts.NOT_A_CELL.format(name=plain(name))}
    return {"dataId": name, "description": name, "accessTypes": ["write"], "canPersist": True}


def targets(target: DebugTarget, numbering: Numbering, request: Request) -> list[Body]:
    """The positions at which a goroutine reaches a line of the program."""
    line = numbering.requested_line(request, "line")
    positions = target.go_lines.positions(path_of(request), line)
    whose = [(position, target.debuggee.maker(position + 1)) for position in positions[:MOST_TARGETS]]
    return [
        {"id": position, "label": f"position {position}: goroutine {maker}", "line": numbering.to(line)}
        for position, maker in whose
    ]


def set_data(target: DebugTarget, _: Numbering, request: Request) -> Body:
    """Sets the watched cells."""
    wishes = [cell_wish(body) for body in request.objects("breakpoints")]
    return {"breakpoints": target.marks.replace(BreakpointKind.DATA, wishes)}


def set_filters(target: DebugTarget, _: Numbering, request: Request) -> Body:
    """Sets the exception filters, which stop a move before the steps that they select."""
    names = request.arguments.get("filters") or []
    if not isinstance(names, list) or not all(isinstance(name, str) for name in names):
        raise UnanswerableError(texts.FILTERS)
    return {"breakpoints": target.filters.replace(names)}


def exception_info(target: DebugTarget, _: Numbering, __: Request) -> Body:
    """The description of what went wrong at the position."""
    wrong = target.filters.at(target.debuggee.position)
    if not wrong:
        raise UnanswerableError(texts.NO_EXCEPTION)
    says = "; ".join(plain(failure.says) for failure in wrong)
    return {"exceptionId": wrong[0].sort, "description": says, "breakMode": "always"}


def locations(target: DebugTarget, numbering: Numbering, request: Request) -> Body:
    """The requested lines of the recording that have a step; none for another source."""
    first = numbering.requested_line(request, "line")
    last = numbering.requested_line(request, "endLine") if "endLine" in request.arguments else first
    if not is_the_recording(target, request):
        lines = sorted(line for line in target.go_lines.lines(path_of(request)) if first <= line <= last)
        return {"breakpoints": [{"line": numbering.to(line)} for line in lines[:MOST_TARGETS]]}
    found: list[Body] = []
    step = target.debuggee.step_at(first)
    while step is not None and step.line <= last and len(found) < MOST_TARGETS:
        found.append({"line": numbering.to(step.line)})
        step = target.debuggee.step(step.number + 1)
    return {"breakpoints": found}
