"""Open listeners on which no goroutine has called Accept, while the goroutines of one `go` statement accept on another
listener."""

from collections import defaultdict

from netrev.findings.evidence.call_words import capital
from netrev.recording.call import OPEN
from netrev.recording.waits import Name, of_names
from netrev.recording.where import SourceCall as LineCall
from netrev.run.index import RunIndex

from .unaccepted_connections import accepts_at, closed

LISTENS = "net.(*netFD).listen"


def idle_listeners(index: RunIndex, position: int) -> list[str]:
    """Sentences about listeners without an Accept, for a goroutine that waits on a connection that wasn't accepted;
    none if no such listener exists."""
    listeners = [
        socket for socket in index.by_socket if is_listener(index, socket) and not closed(index, socket, position)
    ]
    idle = [socket for socket in listeners if not accepts_at(index, socket)]
    for socket in listeners if idle else ():
        for statement, names in makers_at(index, socket).items():
            if len(names) > 1:
                sockets = f"socket{'s' if idle[1:] else ''} {', '.join(map(str, idle))}"
                return [
                    f"Nobody has called Accept at the listener{'s' if idle[1:] else ''}, {sockets}. "
                    f"{capital(of_names(names))}, started at {statement.place()}, "
                    f"all accept at the same one, socket {socket}.",
                ]
    return []


def is_listener(index: RunIndex, socket: int) -> bool:
    """Whether a socket was opened to listen for stream connections."""
    opened = index.by_socket[socket][0]
    calls = index.recording.lines.of(opened.first).calls
    return opened.name == OPEN and any(call.function.startswith(LISTENS) for call in calls)


def makers_at(index: RunIndex, socket: int) -> dict[LineCall, set[Name]]:
    """The goroutines that have called Accept on a listener, keyed by the `go` statements that started them."""
    found: dict[LineCall, set[Name]] = defaultdict(set)
    lines = index.recording.lines
    for call in accepts_at(index, socket):
        known = lines.goroutines.get(lines.goid_of(call.goroutine, call.first))
        if known and known.made:
            found[known.made].add(Name(call.goroutine))
    return found
