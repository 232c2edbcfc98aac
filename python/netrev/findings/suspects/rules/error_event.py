"""Error event on a reused descriptor: an event with an error comes for a descriptor that was another socket's before,
unless Go compared the event's tag, as it does from 1.21 on."""

from collections.abc import Iterator

from netrev.findings.suspects.run import Run
from netrev.findings.suspects.suspect import Evidence, Suspect, Weight


def rule(run: Run) -> Iterator[Suspect]:
    if run.recording.lines.has_tags:
        return
    for use, before in run.notes.socket_before.items():
        d = use.descriptor
        for step, mode in use.errors:
            yield Suspect(
                step,
                Weight.SHOWN,
                [
                    f"an event with an error came at step {step} for descriptor {d}",
                    f"it was opened for socket {use.socket} at step {use.opened}, and was socket {before}'s before: an event for "
                    "that one?",
                ],
                goroutine=run.inside(use, mode[0], step - 1),
                descriptor=d,
                socket=use.socket,
                evidence=[Evidence(step, f"fdseq {d}", run.changes.value(f"fdseq {d}", step))],
                looks=[f"goto {step - 1}", f"history info {d}", f"history fdseq {d}"],
                steps=[use.opened, step],
            )
