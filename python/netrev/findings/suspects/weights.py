"""Weighs a suspect by the fate of its goroutine: whether the goroutine hangs because of the suspect, whether a call
ended because of it, or whether the goroutine is in one of Go's own calls."""

from netrev.machine.machine import INSIDE
from netrev.recording.recording import Recording
from netrev.recording.suspect_list import OfDeadline

from .run import Run
from .suspect import HANGS, STILL_THERE, TIMED_OUT, WENT_ON, Suspect, Weight

METHODS = ("Read", "Pread", "ReadFrom", "ReadMsg", "Write", "Pwrite", "WriteTo", "WriteMsg", "Writev", "Accept")
# Go's own calls that hold a lock over a system call, calls that hold only a reference, and calls that run a function of
# the program in the meantime
OF_GO = frozenset(
    (*(f"internal/poll.(*FD).{name}" for name in METHODS), "internal/poll.SendFile", "internal/poll.Splice")
)
CONTROLS = frozenset(
    f"internal/poll.(*FD).{name}" for name in ("Shutdown", "SetsockoptInt", "SetsockoptLinger", "Fstat")
)
OF_THE_PROGRAM = frozenset(f"internal/poll.(*FD).Raw{name}" for name in ("Read", "Write", "Control"))
ACCEPT = "internal/poll.(*FD).Accept"
UNSHOWN = OF_THE_PROGRAM | {ACCEPT}  # calls for which a recording doesn't show some or all tries


def of_a_holder(run: Run, suspect: Suspect) -> Suspect:
    """Weighs a suspect by the holder of a lock or a reference. The suspect is doubtful if Go's own call gives the lock
    or the reference back after its system call."""
    if is_in_a_system_call(run, suspect):
        suspect.weight = Weight.DOUBTFUL
    return suspect


def is_in_a_system_call(run: Run, suspect: Suspect) -> bool:
    """Whether the recording ended while the holder of a lock or a reference was in one of Go's own calls. Such a call
    releases the lock or the reference after its system call. The program's lines must show that the holder took it in
    that call and hasn't left the call since. If no lines are known, the holder's last step must be the `pollreset` that
    Go's own calls make before they try."""
    g, recording = suspect.goroutine, run.recording
    if g is None:
        return False
    if not recording.lines:
        return is_about_to_try(run, suspect.step, g)
    holding = {"rwlock": OF_GO, "incref": CONTROLS}.get(recording.step(suspect.step).kind, frozenset[str]())
    entry, last = (call_of_poll(recording, step) for step in (suspect.step, run.notes.goroutines[g].last))
    return entry == last and entry in holding


def is_about_to_try(run: Run, step: int, g: int) -> bool:
    """Whether a goroutine's last step is the `pollreset` of the call that took a lock at an earlier step."""
    holds = (hold for holds in run.notes.holds.values() for hold in holds)
    locks = (hold.step for hold in holds if hold.goroutine == g and hold.side)
    return run.notes.goroutines[g].last == run.notes.goroutines[g].reset and max(locks, default=0) == step


def is_accepting(recording: Recording, suspect: Suspect) -> bool:
    """Whether a listener waits in Go's own Accept. Accept tries again after each pollreset, so no wake-up is lost."""
    return call_of_poll(recording, suspect.steps[-1]) == ACCEPT


def is_without_tries(recording: Recording, suspect: Suspect) -> bool:
    """Whether a goroutine waits in a call that makes tries without steps: a function of the program makes the tries, or
    Accept does."""
    return call_of_poll(recording, suspect.steps[-1]) in UNSHOWN


def call_of_poll(recording: Recording, step: int) -> str:
    """The innermost of the calls listed above that a step belongs to; empty if the step belongs to none of them, or if
    its calls are unknown."""
    known = OF_GO | CONTROLS | OF_THE_PROGRAM
    return next((call.function for call in recording.lines.of(step).calls if call.function in known), "")


def of_a_goroutine(run: Run, suspect: Suspect) -> Suspect:
    """Adjusts the weight of a suspect whose goroutine was woken for nothing, or not woken at all. The weight depends on
    whether the goroutine hangs for that reason."""
    g, d = suspect.goroutine, suspect.descriptor
    if g is None or d is None:
        return suspect
    place, *at = run.notes.now[f"gor {g}"].split()
    if how := hangs(run, g, d):
        suspect.weight += HANGS
        suspect.says.append(f"goroutine {g} hangs: {how}")
    elif place in INSIDE and at[0] == str(d) and run.since(g) >= suspect.step:
        suspect.weight += STILL_THERE
        suspect.says.append(f"goroutine {g} is {place} there since step {run.since(g)}")
    else:
        suspect.weight += WENT_ON
    return suspect


def hangs(run: Run, g: int, d: int) -> str:
    """Text that says how a goroutine hangs on a descriptor; empty if it doesn't hang there."""
    place, *at = run.notes.now[f"gor {g}"].split()
    if place != "parked" or at[0] != str(d):
        return ""
    if at[1] == "r" and (lies := run.unread(run.notes.use_of[d].socket)):
        return f"parked since step {run.since(g)}, {lies}"
    return "" if run.notes.now[f"{at[1]}d {d}"] != "0" else f"parked since step {run.since(g)} without a deadline"


def of_a_deadline(run: Run, passed: OfDeadline, suspect: Suspect) -> Suspect:
    """Raises the weight of a suspect if a call timed out because of the suspect's deadline, which has passed."""
    due = passed.descriptor, passed.side, passed.setting
    for timeout in run.facts.timeouts.values():
        if (timeout.descriptor, timeout.side, timeout.setting) == due:
            suspect.weight += TIMED_OUT
            suspect.says.append(f"step {timeout.step} by goroutine {timeout.goroutine} ends with that timeout")
            suspect.steps.append(timeout.step)
            suspect.has_line(timeout.line)
            break
    return suspect
