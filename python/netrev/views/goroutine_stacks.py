"""The place of a goroutine at a position: its stack, the step at which it got this stack, and what it does."""

from typing import NamedTuple

from netrev.recording.recording import Recording
from netrev.recording.waits import Name, waits_of
from netrev.recording.where import Stack
from netrev.run.index import run_of


class GoroutineStack(NamedTuple):
    """The stack of a goroutine at a position, the step at which it got this stack, and text about what it does. If
    `is_past`, the goroutine has gone on since then without making a step, so this is the stack of its last step."""

    name: Name
    stack: Stack
    since: int
    does: str
    is_past: bool = False
    goid: int = 0  # Go's own number, if several goroutines had the same number in the recording

    def words(self) -> str:
        """The stack as a line: `goroutine 3: waits for a mutex since step 9, at main.go:34 sync.(*Mutex).Lock`."""
        at = f"{', last' if self.is_past else ','} at {self.stack.words()}" if self.stack.calls else ""
        return f"{self.name}{f' (goid {self.goid})' if self.goid else ''}: {self.does}{at}"


def stack_of(recording: Recording, name: Name, position: int) -> GoroutineStack | None:
    """The stack of a goroutine at a position; None if the recording has neither a step nor a wait of the goroutine
    before that position."""
    wait = waits_of(recording).at(name, position)
    goid = 0 if name.is_goid else recording.lines.reused_goid(name.number, position)
    if wait:
        return GoroutineStack(name, wait.stack, wait.first, f"{wait.does} since step {wait.first}", goid=goid)
    run = run_of(recording)
    step = 0 if name.is_goid else run.last_step(name.number, position)
    if not step:
        return None
    if call := run.call_at(name.number, position):
        does = f"in {call.name} on socket {call.socket} since step {call.first}"
        return GoroutineStack(name, recording.lines.of(step), step, does, goid=goid)
    return GoroutineStack(name, recording.lines.of(step), step, f"in no call since step {step}", True, goid)
