"""Both ends write: calls that don't end wait for one another, and one of them is a Write. The Write waits for a read at
the other end, and the goroutine that would read there waits too."""

from collections.abc import Iterator

from netrev.findings.evidence.call_words import text_of_call
from netrev.findings.hangs.wait_graph import Certainty, Hang, graph_at
from netrev.findings.suspects.run import Run
from netrev.findings.suspects.suspect import Evidence, Suspect, Weight
from netrev.recording.call import Call


def rule(run: Run) -> Iterator[Suspect]:
    recording, length = run.recording, run.end
    for hang in graph_at(recording, length).hangs:
        if not (calls := writing_first(hang)):
            continue
        says = [
            f"{text_of_call(recording, call)} waits on socket {call.socket} since step {call.first}" for call in calls
        ]
        yield Suspect(
            max(call.first for call in calls),
            Weight.STRONG,
            [*says, "each for what the next would do"],
            goroutine=calls[0].goroutine,
            socket=calls[0].socket,
            evidence=[Evidence(length, f"gor {call.goroutine}") for call in calls],
            looks=[f"goto {length}", "info hangs"],
            steps=[call.first for call in calls],
        )


def writing_first(hang: Hang) -> list[Call]:
    """The calls of a deadlock that consists only of calls, starting with its first Write; none if the deadlock has no
    Write or if one of its edges is a guess."""
    calls = [root.call for root in hang.roots if root.call]
    writes = [call for call in calls if call.name == "Write"]
    if not hang.is_deadlock or len(calls) < len(hang.roots) or not writes or hang.certainty == Certainty.PERHAPS:
        return []
    at = calls.index(min(writes, key=lambda call: call.first))
    return calls[at:] + calls[:at]
