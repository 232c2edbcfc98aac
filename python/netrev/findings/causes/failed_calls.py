"""The failed calls with their causes: for a timeout, the deadline; for a closed descriptor, its Close; for an end of
stream or a broken connection, the Close of the other end."""

from typing import NamedTuple

from netrev.findings.datagrams.cut_datagrams import cut_sentence
from netrev.findings.datagrams.datagrams import dropped_datagram
from netrev.findings.datagrams.shared_sockets import shared_sentence
from netrev.findings.evidence.call_words import ENDED, duration, name_of, place_of_step, text_of_call, waits_words
from netrev.findings.evidence.long_lines import long_line_sentence
from netrev.findings.evidence.need import Need
from netrev.findings.evidence.past_tense import in_the_past
from netrev.findings.evidence.read_sizes import read_sizes_of
from netrev.findings.evidence.responses import server_of
from netrev.findings.evidence.sizes import are_known, moved_at, size_of
from netrev.findings.finding import Cause
from netrev.findings.hangs.chains import chain_sentence
from netrev.findings.hangs.needs import Needs
from netrev.findings.hangs.unmet_needs import endless_sentence, found_sentence, given_up_sentence
from netrev.findings.http.cancellations import (
    after_sentence,
    cancel_before,
    cancel_sentence,
    deferred_sentence,
    under_way,
)
from netrev.findings.http.cut_bodies import body_sentence, is_of_a_body
from netrev.findings.http.late_answers import is_of_write_timeout
from netrev.findings.http.requests import cancelled_requests
from netrev.findings.streams.exchanges import MOST_ASKED, is_client
from netrev.findings.streams.unused_sockets import unused_since
from netrev.recording.call import CLOSE, Call, Outcome
from netrev.recording.recording import Recording
from netrev.recording.waits import Name, waits_of
from netrev.recording.where import Stack
from netrev.run.index import READING, RunIndex, run_of, went_well
from netrev.text.plurals import counted

OF_A_SERVER = ("net/http.(*conn).readRequest", "net/http.(*conn).serve")
OF_CONNECTIONS = ("internal/poll.", "net.", "crypto/tls.")
OF_A_FILE = "os.(*File)."
CONN_READ = "net.(*conn).Read"
DEEP = 3  # the most links in a chain of causes


def causes_of(recording: Recording, position: int) -> list[Cause]:
    """The calls that had failed at a position, in the order in which they ended, each with its cause."""
    index = run_of(recording)
    return [cause_of(index, call) for call in failed_at(index, position)]


def failed_at(index: RunIndex, position: int) -> list[Call]:
    """The calls that had failed at a position, in the order in which they ended."""
    return sorted(index.failed(position), key=lambda call: call.last)


def cause_of(index: RunIndex, call: Call, deep: int = 0) -> Cause:
    """The cause of a call's error."""
    recording = index.recording
    ended = ENDED.get(call.outcome, f"ended with {call.error}")
    begins = f"{text_of_call(recording, call)} {ended}"
    if call.outcome is Outcome.TIMED_OUT and call.cause:
        return of_timeout(index, call, begins)
    if call.outcome in (Outcome.CLOSED, Outcome.BROKEN_PIPE) and call.cause:
        return of_close(index, call, begins, deep)
    if call.outcome in (Outcome.SYSTEM_ERROR, Outcome.EOF):
        return of_the_other_end(index, call, begins, deep)
    return Cause(call, [f"{begins}."], [call.first], [f"goto {call.last}", f"calls sock {call.socket}"])


def of_timeout(index: RunIndex, call: Call, begins: str) -> Cause:
    """The cause of a timeout. The text says which goroutine set the deadline and when, which calls succeeded under that
    deadline before, and what the call waited for."""
    recording = index.recording
    step = recording.step(call.cause)
    side = "r" if call.name in READING else "w"
    at = place_of_step(recording, call.cause, step.argument("g"))
    time = step.argument("time")
    before = index.under_its_deadline(call)
    well = [earlier for earlier in before if went_well(earlier)]
    late = [earlier for earlier in before if earlier.outcome is Outcome.TIMED_OUT]
    says = [f"{begins}."]
    if time < 0:
        when = "while it waited" if call.first < call.cause else "before it began"
        says.append(f"A deadline in the past was set{at}, {when}.")
    elif call.first < call.cause:
        says.append(f"Its deadline was set{at}, while it waited, {duration(time)} ahead.")
    else:
        says.append(f"Its deadline was set{at}, {duration(time)} ahead{under(well, late, name_of(recording, call))}")
    need, cut = None, [*cut_sentence(index, call, call.last), *shared_sentence(index, call)]
    chain = list[str]()
    if call.cause < call.first and not well and not late and time > 0 and not index.is_listening(call):
        if 0 < call.passed < call.first:
            says.append(f"It had passed before the {name_of(recording, call)} began.{between(index, call)}")
        else:
            need = Needs(index, {}, call.last).of_call(call)
            dropped = cut or dropped_datagram(index, call)
            chain = [] if dropped else list(map(in_the_past, chain_sentence(index, call, need, call.last)))
            says += [*map(in_the_past, [*need.says, *([] if dropped else need.more)]), *chain, *dropped]
    else:
        says += cut or endless_sentence(index, call) or (found_sentence(index, call) if time > 0 else [])
    if is_of_write_timeout(index, call):
        says.append("That is the WriteTimeout of its http.Server.")
    elif is_of_a_server(recording.lines.of(call.cause)):
        says.append("That is a ReadTimeout, ReadHeaderTimeout, WriteTimeout or IdleTimeout of its http.Server.")
    looks = [f"goto {call.cause}", f"history {side}d {call.descriptor}"]
    return Cause(call, says, [call.first, call.cause], looks, need.stopped if need else 0, [], chain)


def is_of_a_server(stack: Stack) -> bool:
    """Whether net/http's own server code set a deadline: the innermost function outside the connection's methods is the
    server's. A handler may set a deadline too, through its http.ResponseController; in that case the handler is inside
    the server's function."""
    outside = (frame.function for frame in stack.calls if not frame.function.startswith(OF_CONNECTIONS))
    return next(outside, "").startswith(OF_A_SERVER)


def between(index: RunIndex, call: Call) -> str:
    """What a call's goroutine last waited for outside the poller, between the step that set the deadline and the
    call."""
    waits = waits_of(index.recording).of.get(Name(call.goroutine), [])
    some = [wait for wait in waits if wait.last is not None and call.cause <= wait.first and wait.last <= call.first]
    if not some:
        return ""
    last = some[-1]
    return f" Before that, its goroutine {in_the_past(waits_words(last))}."


def under(well: list[Call], late: list[Call], name: str) -> str:
    """The end of a sentence about a deadline: how many earlier calls succeeded or timed out under it. If none did, the
    text is only a full stop."""
    did = [f"{counted(len(well), name)} went well under it"] if well else []
    did += [f"{counted(len(late), name)} had timed out by it before"] if late else []
    return f"; {' and '.join(did)}, and nobody has moved it since." if did else "."


def of_close(index: RunIndex, call: Call, begins: str, deep: int) -> Cause:
    """The cause of a call that a Close ended: which goroutine closed the descriptor or its write side, and whether the
    call was in progress at the time."""
    recording = index.recording
    by = index.call_of(call.cause)
    goroutine = recording.step(call.cause).argument("g")
    what = "Its write side was closed" if call.outcome is Outcome.BROKEN_PIPE else "It was closed"
    when = ", while the call was under way" if call.first < call.cause else ", before the call began"
    says = [f"{begins}.", f"{what}{place_of_step(recording, call.cause, goroutine)}{when}."]
    ended, after = context_sentence(index, call, by), after_sentence(index, call.cause, goroutine)
    says += ended or after
    others = [
        other for other in index.under_way(call.socket, call.cause)
        if other is not call and other.name != CLOSE and other.goroutine != goroutine
    ]  # fmt: skip
    if others:
        says.append(f"{text_of_call(recording, others[0])} was inside too.")
    says += [] if ended else given_up_sentence(index, call, by)
    before = EarlierFailures([], []) if ended or after else why(index, by, deep)
    looks = [f"goto {call.cause}", f"calls sock {call.socket}"]
    return Cause(call, [*says, *before.says], [call.first, call.cause], looks, 0, before.calls)


def context_sentence(index: RunIndex, call: Call, by: Call | None) -> list[str]:
    """Sentences about a descriptor that was closed because a request's context had ended or because a channel was
    closed. The sentences name the goroutine that cancelled the context or closed the channel, or the timeout that had
    passed. The sentences also say what the goroutine that served the request did."""
    request = next(
        (candidate for candidate in cancelled_requests(index) if by and candidate.closed.first == by.first), None
    )
    cancel = None if request else cancel_before(index, call.cause)
    if request is None and cancel is None:
        return []
    says = (
        request.says(index.recording)
        if request
        else [cancel_sentence(index, cancel), *deferred_sentence(index, cancel)]
        if cancel
        else []
    )
    return [*says, *served_sentence(index, call, call.cause)]


def served_sentence(index: RunIndex, call: Call, step: int) -> list[str]:
    """Describes what the goroutine that served the request was doing at a step; empty if that is unknown."""
    server, served = server_of(index, call.socket, step), under_way(index, call, step)
    chain = chain_sentence(index, call, Need([served], server), step) if server else []
    return list(map(in_the_past, [*([served] if served else []), *chain]))


def of_the_other_end(index: RunIndex, call: Call, begins: str, deep: int) -> Cause:
    """The cause of a call whose other end was closed: the goroutine that closed it, if that Close is in the
    recording."""
    recording, other = index.recording, index.other_end(call.socket)
    looks = [f"goto {call.last}", f"calls sock {call.socket}"]
    by = None if other is None else index.closing(other, call.last, call.outcome is not Outcome.EOF)
    if by is None:
        where = "isn't in this recording" if other is None else f"is socket {other}, which nobody had closed"
        return Cause(call, [f"{begins}.", f"The other end {where}."], [call.first], looks)
    what = "closed" if by.name == CLOSE else "closed for writing"
    says = [
        f"{begins}.",
        f"The other end, socket {other}, was {what}{place_of_step(recording, by.first, by.goroutine)}.",
    ]
    looks, before = [f"goto {by.first}", f"calls sock {other}"], why(index, by, deep)
    says += [*(body_sentence(recording, by) if is_of_a_body(recording, call) else []), *before.says]
    last = index.last_use(other, by.first, ("Read",)) if other is not None else None
    says += (long_line_sentence(index, last) or part_sentence(index, call, last)) if last else []
    if (late := late_write(index, call, by)) is not None:
        says.append(
            f"{text_of_call(recording, late)} came after the other end was closed, in step {late.first}: nobody read "
            "it."
        )
    says += unused_since(index, call, by.first)
    return Cause(call, says, [call.first, by.first], looks, 0, before.calls)


def part_sentence(index: RunIndex, call: Call, last: Call) -> list[str]:
    """Sentences about a connection whose other end was closed before all bytes were read: the last Read got fewer bytes
    than it asked for. The list is empty unless the program itself called Read."""
    recording, own = index.recording, index.recording.lines.of(last.first).own()
    functions = [frame.function for frame in recording.lines.of(last.first).calls]
    is_direct = own is not None and (CONN_READ, own[0].function) in zip(functions, functions[1:])
    size, count = read_sizes_of(recording).of(last) or 0, size_of(index, last)
    unread = moved_at(index, call.socket, "Write", call.last) - moved_at(index, last.socket, "Read", call.last)
    if not are_known(index) or not is_direct or not count or unread <= 0 or not (count < size or size == MOST_ASKED):
        return []
    many = f"{'at least ' if size == MOST_ASKED else ''}{size}"
    return [
        f"{counted(unread, 'byte')} that had been written there were never read: {text_of_call(recording, last)}, the "
        f"last Read, asked for {many} and got "
        f"{count}. A Read returns what has arrived."
    ]


def late_write(index: RunIndex, call: Call, by: Call) -> Call | None:
    """The last Write on a call's socket before the call, if the call's goroutine made that Write after `by` had closed
    the other end; else None."""
    write = index.last_use(call.socket, call.first, ("Write",))
    return (
        write
        if write and write.goroutine == call.goroutine and by.name == CLOSE and write.first > by.last > 0
        else None
    )


def is_late(index: RunIndex, call: Call) -> bool:
    """Whether a Read reached the end of a stream after its goroutine, a client, had sent a request to an end that was
    already closed."""
    if call.outcome is not Outcome.EOF or not is_client(index, call.goroutine, call.socket):
        return False
    other = index.other_end(call.socket)
    by = index.closing(other, call.last) if other is not None else None
    return by is not None and late_write(index, call, by) is not None


class EarlierFailures(NamedTuple):
    """The sentences about earlier failures, and the calls that failed."""

    says: list[str]
    calls: list[Call]


def why(index: RunIndex, by: Call | None, deep: int) -> EarlierFailures:
    """The failure just before a Close, with its own cause. The end of a file isn't a failure."""
    before = index.before(by) if by else None
    if before is None or deep >= DEEP or not (before.outcome.is_error or before.outcome is Outcome.EOF):
        return EarlierFailures([], [])
    if not before.last or (by and before.last > by.first) or is_of_a_file(index, before):
        return EarlierFailures([], [])
    cause = cause_of(index, before, deep + 1)
    return EarlierFailures([f"Before that, {cause.says[0]}", *cause.says[1:]], [before, *cause.chain])


def is_of_a_file(index: RunIndex, call: Call) -> bool:
    """Whether a call is on a file rather than on a connection."""
    return any(frame.function.startswith(OF_A_FILE) for frame in index.recording.lines.of(call.first).calls)
