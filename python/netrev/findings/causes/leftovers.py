"""What may be wrong if no call failed and no call hangs: readers that have ended, bytes that no goroutine read before
their connection was closed, early ends of streams, sockets left open, and writes between two writes of another
goroutine. None of these is a fault by itself, so each text begins with `Perhaps`."""

from collections.abc import Iterator
from typing import NamedTuple

from netrev.findings.datagrams.cut_datagrams import causes_of_cuts
from netrev.findings.evidence.call_words import is_of_go, place_of_step, result_words, text_of_call, waits_words
from netrev.findings.evidence.responses import SERVE, contains
from netrev.findings.evidence.sizes import are_known, moved_at, size_of
from netrev.findings.finding import Cause
from netrev.findings.pools.given_up_waits import given_up_waits
from netrev.findings.streams.exchanges import is_cut
from netrev.findings.streams.gone_readers import without_reader
from netrev.findings.streams.unused_sockets import untaken_results
from netrev.recording.call import CLOSE, Call, Outcome
from netrev.recording.recording import Recording
from netrev.recording.waits import Name, waits_of
from netrev.recording.where import OF_THE_PROGRAM
from netrev.run.index import MOVING, RunIndex, run_of, went_well
from netrev.text.plurals import counted

from .failed_calls import cause_of

FAREWELL = "crypto/tls.(*Conn).closeNotify"  # an alert that the other end needn't read


class FunctionLine(NamedTuple):
    """A function of the program, and a line of that function (0: unknown)."""

    function: str
    line: int


def leftovers_of(recording: Recording) -> list[Cause]:
    """All findings at the end of a recording. The findings of each kind are in the order of their steps. Findings about
    Go's own code alone are left out."""
    index = run_of(recording)
    found = [
        *causes_of_cuts(index),
        *without_reader(index),
        *never_read(index),
        *left_open(index),
        *untaken_results(index),
        *given_up_waits(index),
        *early_ends(index),
        *mixed_writes(index),
    ]
    return [cause._replace(says=[f"Perhaps: {cause.says[0]}", *cause.says[1:]]) for cause in found]


def ends_of(index: RunIndex) -> Iterator[tuple[int, int]]:
    """Each socket with its other end, if both are in the recording."""
    for socket, other in sorted(index.recording.lines.peers.items()):
        if socket in index.by_socket and other in index.by_socket:
            yield socket, other


def never_read(index: RunIndex) -> Iterator[Cause]:
    """Bytes that were written at one end of a connection and not read at the other end before that end was closed."""
    recording, length = index.recording, index.recording.length
    for socket, other in ends_of(index):
        by, read = index.closing(other, length, whole=True), moved_at(index, other, "Read", length)
        missing = moved_at(index, socket, "Write", length) - read
        if is_cut(recording, index, (socket, other)) and not are_known(index):
            continue
        last, write = index.last_use(other, length, ("Read",)), first_beyond(index, socket, read)
        if (
            by is None
            or write is None
            or last is None
            or missing <= 0
            or is_of_go(recording, last)
            or is_of_go(recording, write)
            or any(frame.function == FAREWELL for frame in recording.lines.of(write.first).calls)
        ):
            continue
        says = [
            f"{counted(missing, 'byte')} that {text_of_call(recording, write)} wrote in {write.steps()} were never "
            "read.",
            f"The other end, socket {other}, was closed{place_of_step(recording, by.first, by.goroutine)}.",
            f"Its last read was {text_of_call(recording, last)}, {last.steps()}, "
            f"{result_words(recording, last) or 'which got nothing'}.",
        ]
        looks = [f"goto {last.last or last.first}", f"calls sock {other}"]
        yield Cause(last, says, [write.first, last.first, by.first], looks)


def first_beyond(index: RunIndex, socket: int, count: int) -> Call | None:
    """The first Write with which more than `count` bytes had been written to a socket."""
    together = 0
    for call in index.by_socket[socket]:
        together += size_of(index, call) if call.name == "Write" else 0
        if together > count:
            return call
    return None


def left_open(index: RunIndex) -> Iterator[Cause]:
    """A socket that no goroutine closes or uses although its other end is closed."""
    recording, length = index.recording, index.recording.length
    for socket, other in ends_of(index):
        by, last = index.closing(other, length, whole=True), index.last_use(socket, length)
        is_used = any(not call.last for call in index.by_socket[socket])
        if by is None or last is None or is_used or index.closing(socket, length, whole=True):
            continue
        if is_of_go(recording, last) or last.last > by.first:
            continue
        says = [
            f"socket {socket} is left open, and nobody is in a call there.",
            f"{text_of_call(recording, last)} was the last to use it, {last.steps()}.",
            f"Its other end was closed{place_of_step(recording, by.first, by.goroutine)}.",
        ]
        says += serves_on(recording, last)
        yield Cause(last, says, [last.first, by.first], [f"goto {last.last}", f"calls sock {socket}"], last.first)


def serves_on(recording: Recording, last: Call) -> list[str]:
    """A sentence that says where a net/http handler still waits although its client has gone. The handler's goroutine
    made `last`, the last call on the socket."""
    wait = waits_of(recording).at(Name(last.goroutine), recording.length)
    if wait is None or not contains(wait.stack, SERVE) or not wait.stack.own():
        return []
    alone = (
        ", and for nothing else: the end of the request's context doesn't end that" if len(wait.objects) == 1 else ""
    )
    return [f"Goroutine {last.goroutine}, which serves it, {waits_words(wait)} since step {wait.first}{alone}."]


def early_ends(index: RunIndex) -> Iterator[Cause]:
    """The program's Reads that reached the end of a stream instead of an answer, because the other end was closed."""
    for call in index.calls:
        other = index.other_end(call.socket)
        if call.outcome is not Outcome.EOF or other is None or is_of_go(index.recording, call):
            continue
        by = index.closing(other, call.last)
        if by and by.name == CLOSE and is_asking(index, call):
            yield cause_of(index, call)


def is_asking(index: RunIndex, call: Call) -> bool:
    """Whether a Read waits for an answer: its goroutine has written to the socket, and no bytes have come since."""
    moved = [
        transfer
        for transfer in index.by_socket[call.socket]
        if transfer.name in MOVING and transfer.moved and transfer.first < call.first
    ]
    return (
        bool(moved) and moved[-1].name == "Write" and moved[-1].goroutine == call.goroutine and moved[0].name == "Write"
    )


def mixed_writes(index: RunIndex) -> Iterator[Cause]:
    """Writes of one goroutine between two Writes of another goroutine to the same socket. One function of the program
    makes all three Writes. Since the other goroutine's two Writes are at different lines, they may be pieces of one
    message."""
    recording = index.recording
    for calls in index.by_socket.values():
        writes = [
            (call, place_of_function(recording, call)) for call in calls if call.name == "Write" and went_well(call)
        ]
        latest: dict[int, int] = {}  # the latest Write of each goroutine
        for at, (last, place) in enumerate(writes):
            before = latest.get(last.goroutine, at)
            latest[last.goroutine] = at
            first, earlier = writes[before]
            others = [write for write, its in writes[before + 1 : at] if its.function == place.function]
            if not others or earlier.function != place.function or not 0 < earlier.line < place.line:
                continue
            says = [
                f"writes of two goroutines are mixed at socket {first.socket}.",
                f"{text_of_call(recording, others[0])} came between {text_of_call(recording, first)} and "
                f"{text_of_call(recording, last)}.",
            ]
            steps = [first.first, others[0].first, last.first]
            yield Cause(others[0], says, steps, [f"goto {others[0].first}", f"calls sock {first.socket}"])


def place_of_function(recording: Recording, call: Call) -> FunctionLine:
    """The function of the program that makes a call, and the line of the call."""
    found = recording.lines.of(call.first).own()
    return (
        FunctionLine(found[0].function, found[0].line)
        if found and found[0].of == OF_THE_PROGRAM
        else FunctionLine("", 0)
    )
