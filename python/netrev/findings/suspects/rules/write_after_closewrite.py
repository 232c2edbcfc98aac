"""Write after CloseWrite: a goroutine writes to a socket whose write side was shut before."""

from collections.abc import Iterator

from netrev.findings.suspects.run import Run
from netrev.findings.suspects.suspect import Evidence, Suspect, Weight


def rule(run: Run) -> Iterator[Suspect]:
    for step, g, s in run.notes.refused_writes:
        shut, by = run.notes.shut[s]
        says = f"goroutine {g} wrote to socket {s} at step {step}, which is answered EPIPE"
        yield Suspect(
            step,
            Weight.LIKELY,
            [says, f"goroutine {by} closed its write side at step {shut}"],
            goroutine=g,
            socket=s,
            evidence=[Evidence(shut - 1, f"shut {s}", "0"), Evidence(step - 1, f"shut {s}", "1")],
            looks=[f"goto {shut}", f"history shut {s}"],
            steps=[shut, step],
        )
