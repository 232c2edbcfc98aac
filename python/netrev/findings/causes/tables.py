"""The tables of `info errors`, `info hangs` and `info requests`."""

from collections import defaultdict

from netrev.connection.output import Row, Table
from netrev.findings.evidence.call_words import is_by_go, place_in
from netrev.findings.hangs.hang_words import hang_queries, hang_sentences, tree_lines
from netrev.findings.hangs.wait_graph import Hang, WaitGraph, graph_at
from netrev.findings.http.requests import CancelledRequest, ClientRequests, cancelled_requests, requests_of
from netrev.recording.call import Call
from netrev.recording.recording import Recording
from netrev.recording.waits import Name
from netrev.run.index import run_of
from netrev.text.plurals import counted
from netrev.views.calls import call_row

from .failed_calls import cause_of


def errors_table(recording: Recording, position: int, most: int | None) -> Table:
    """The calls of the whole recording that ended with a timeout, a close, a broken pipe or an event error. Calls that
    end after the position are marked. The table has at most `most` calls: the last calls up to the position, and then
    as many later calls as fit."""
    failed = run_of(recording).failed()
    found = [call for call in failed if not is_by_go(recording, call)]
    past = [call for call in found if call.last <= position]
    later = [call for call in found if call.last > position]
    shown = past if most is None else past[-most:]
    upcoming = later if most is None else later[: most - len(shown)]
    rest = []
    if len(shown) < len(past):
        rest.append(f"{len(past) - len(shown)} earlier ones: info errors all")
    if len(upcoming) < len(later):
        rest.append(f"{len(later) - len(upcoming)} later ones: info errors all")
    if not found:
        rest.append("no call failed")
    if len(found) < len(failed):
        rest.append(f"{len(failed) - len(found)} more are waits of Go's own code, which it ended itself")
    rows = [row for call in shown for row in error_rows(recording, call, call_row(recording, call, position))]
    rows += [row for call in upcoming for row in error_rows(recording, call, later_row(recording, call))]
    return Table("errors", rows, "; ".join(rest))


def later_row(recording: Recording, call: Call) -> Row:
    """The row of a call that ends after the current position."""
    row = call_row(recording, call, recording.length)
    return Row(row.values | {"later": True}, f"{row.text}   (later)")


def error_rows(recording: Recording, call: Call, row: Row) -> list[Row]:
    """The row of a call that failed, followed by the sentences that give its cause."""
    cause = cause_of(run_of(recording), call)
    values = row.values | {"says": cause.says, "cause": call.cause or None, "looks": cause.looks}
    return [Row(values, row.text), *(Row({}, f"     {says}") for says in cause.says[1:])]


def hangs_table(recording: Recording, position: int) -> Table:
    """The roots of the waits that are in progress at a position and don't end in the recording. Each has the reason,
    the goroutines that wait for the root, and the line to type next. At position 0, where a session opens, the table
    shows the waits at the end."""
    graph = graph_at(recording, position or recording.length)
    at = f"at position {position}" if position else "at the end"
    rest = [] if graph.shown else [f"no call hangs {at}, but for those that wait for connections"]
    if graph.shown and not position:
        rest.append(f"that is at the end, position {recording.length}: the session is at the start")
    if graph.idle:
        rest.append(f"{graph.idle} more in Go's own code alone, as idle connections of net/http are")
    return Table("hangs", [row for hang in graph.shown for row in rows_of(graph, hang)], "; ".join(rest))


def rows_of(graph: WaitGraph, hang: Hang) -> list[Row]:
    """The rows of a hang: its sentences, the goroutines that wait for its goroutine, and the line to type next."""
    root, (first, *rest), tree, looks = (
        hang.root,
        hang_sentences(graph, hang),
        tree_lines(graph, hang),
        hang_queries(hang),
    )
    values = {
        **root.name.values,
        "call": root.call and root.call.name,
        "socket": root.call and root.call.socket,
        "first": root.since,
        "reason": root.wait and root.wait.kind,
        "says": [first, *rest],
        "waiting": hang.waiting,
        "tree": tree,
        "looks": looks,
    }
    return [Row(values, first), *(Row({}, f"     {line}") for line in (*rest, *tree, f"next: {'; '.join(looks)}"))]


def requests_table(recording: Recording) -> Table:
    """The requests of net/http's client whose connection is certain, grouped by line, goroutine and connection. Each
    group is followed by its requests that ended because their contexts ended."""
    index = run_of(recording)
    alike: dict[tuple[Name, int, str], list[ClientRequests]] = defaultdict(list)
    for request in requests_of(index):
        alike[request.name, request.socket, place_in(request.stack)].append(request)
    ended: dict[tuple[Name, int, str], list[CancelledRequest]] = defaultdict(list)
    for cancelled in cancelled_requests(index):
        ended[cancelled.request.name, cancelled.request.socket, place_in(cancelled.request.stack)].append(cancelled)
    rows = [row for key, some in alike.items() for row in request_rows(recording, some, ended[key])]
    rest = (
        ""
        if rows
        else "no request of net/http's client is known: NAME.where has none, or none whose connection is certain"
    )
    return Table("requests", rows, rest)


def request_rows(recording: Recording, some: list[ClientRequests], ended: list[CancelledRequest]) -> list[Row]:
    """The row for a group of requests, followed by sentences about what ended them."""
    last, many = some[-1], sum(request.often for request in some)
    place = place_in(last.stack).strip()
    steps = f"after step {last.last}" if many == 1 else f"the last after step {last.last}"
    text = f"socket {last.socket:<4} {counted(many, 'request')} {place} ({last.name}), {steps}"
    says = [" ".join(cancelled.says(recording)) for cancelled in ended]
    values = {
        **last.name.values,
        "socket": last.socket,
        "requests": many,
        "last": last.last,
        "place": place,
        "says": says,
    }
    return [Row(values, text), *(Row({}, f"     {words}") for words in says)]
