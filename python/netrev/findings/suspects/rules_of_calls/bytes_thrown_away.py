"""Bytes thrown away: a Read got some of the bytes that it asked for, the Read for the rest timed out, and the
goroutine's next Read asks for all of them again, so the first bytes are lost."""

from collections.abc import Iterator

from netrev.findings.evidence.call_words import is_of_go, text_of_call
from netrev.findings.evidence.read_sizes import ReadSizes, read_sizes_of
from netrev.findings.suspects.run import Run
from netrev.findings.suspects.suspect import Evidence, Suspect, Weight
from netrev.recording.call import Call, Outcome
from netrev.text.plurals import counted


def rule(run: Run) -> Iterator[Suspect]:
    index = run.calls
    if not any(call.name == "Read" and call.outcome is Outcome.TIMED_OUT for call in index.calls):
        return
    sizes = read_sizes_of(run.recording)
    for call in index.calls:
        late = sizes.before(call)
        if late is None or late.outcome is not Outcome.TIMED_OUT or is_of_go(run.recording, call):
            continue
        begin = sizes.begin_of(late)
        if begin is not late and sizes.of(call) == sizes.of(begin):
            yield suspect_of(run, sizes, begin, late, call)


def suspect_of(run: Run, sizes: ReadSizes, begin: Call, late: Call, call: Call) -> Suspect:
    whole, rest = sizes.of(begin) or 0, sizes.of(late) or 0
    says = [
        f"{text_of_call(run.recording, call)} asks socket {call.socket} for {counted(whole, 'byte')} anew at step "
        f"{call.first}",
        f"{counted(whole - rest, 'byte')} that had come since step {begin.first} were thrown away when the Read for the other {rest} timed out "
        f"at step {late.last}",
    ]
    return Suspect(
        call.first,
        Weight.LIKELY,
        says,
        goroutine=call.goroutine,
        descriptor=call.descriptor,
        socket=call.socket,
        evidence=[Evidence(late.last, f"rd {late.descriptor}", "-1")],
        looks=[f"goto {late.last}", f"calls gor {call.goroutine}"],
        steps=[begin.first, late.last, call.first],
    )
