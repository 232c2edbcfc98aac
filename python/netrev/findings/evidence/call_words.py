"""Calls and places as text for a cause."""


from netrev.connection.beginnings import begins_at
from netrev.recording.call import Call, Outcome
from netrev.recording.cell_meanings import duration as duration
from netrev.recording.recording import Recording
from netrev.recording.waits import ObjectWait
from netrev.recording.where import OF_GO, OF_THE_PROGRAM
from netrev.recording.where import SourceCall as LineCall
from netrev.recording.where import Stack
from netrev.text.plurals import counted

ENDED = {
    Outcome.TIMED_OUT: "ended with a timeout",
    Outcome.CLOSED: "ended since its descriptor was closed",
    Outcome.BROKEN_PIPE: "ended with EPIPE",
    Outcome.EVENT_ERROR: "ended with an error event",
    Outcome.EOF: "met the end of the stream",
}
POLL = "internal/poll.(*FD)."
# The names that programs use for calls, by the names of functions of internal/poll.
NAMES = {
    "Accept": "Accept",
    "ReadFrom": "Read",
    "ReadMsg": "Read",
    "WriteTo": "Write",
    "WriteMsg": "Write",
    "Writev": "Write",
}
OF_TESTS = "_testmain.go"
OF_A_FINALIZER = ("runtime.call", "runtime.runFinalizers", "runtime.runCleanups")
BELOW = ("internal/poll.", "net.", "os.", "syscall.", "crypto/tls.", "bufio.", "io.")  # packages that pass a call on


def capital(words: str) -> str:
    """A text with its first letter capitalized."""
    return words[0].upper() + words[1:]


def name_of(recording: Recording, call: Call) -> str:
    """The program's name for a call."""
    if call.name in ("WaitWrite", "WaitRead"):
        return "a connect" if call.name == "WaitWrite" and is_connecting(recording.lines.of(call.first)) else call.name
    for frame in recording.lines.of(call.first).calls:
        if frame.function.startswith(POLL):
            return NAMES.get(frame.function.removeprefix(POLL), call.name)
    return call.name


def is_connecting(stack: Stack) -> bool:
    return any(call.function == "net.(*netFD).connect" for call in stack.calls)


def short(function: str) -> str:
    """A function's name without its package's path, and without `main.`."""
    return function.rpartition("/")[2].removeprefix("main.")


def place_of(recording: Recording, step: int) -> str:
    """The program's place at a step: ` at pool.go:31 in query`. In Go's own code, only the function is named. The text
    is empty if the place is unknown."""
    return place_in(recording.lines.of(step))


def place_in(stack: Stack) -> str:
    """The program's place in a stack, in the form of `place_of`."""
    if found := stack.own():
        return f" at {found[0].place()} in {short(found[0].function)}{caller_of(stack, found[0])}"
    outer = next((call for call in stack.calls if not call.function.startswith(BELOW)), None)
    if outer and outer.function.startswith(OF_A_FINALIZER):
        return " by Go's garbage collector, since nothing held it any more"
    return f" in {outer.function}" if outer else ""


def caller_of(stack: Stack, own: LineCall) -> str:
    """The line at which the program called the function of `own`, except in `main.main`; empty if unknown."""
    own_calls = [call for call in stack.calls if call.of == OF_THE_PROGRAM and call.file != OF_TESTS]
    behind = own_calls[own_calls.index(own) + 1 :] if own in own_calls else []
    is_main = bool(behind) and behind[0].function == "main.main"
    return f", called at {behind[0].place()}" if behind and not is_main else ""


def is_of_a_lock(stack: Stack) -> bool:
    """Whether a wait is for the lock of a descriptor. Such a wait has steps of its own."""
    return any(call.function == "internal/poll.(*fdMutex).rwlock" for call in stack.calls)


def waits_words(wait: ObjectWait) -> str:
    """What a goroutine that waits outside the poller does: `waits at main.go:44 in take for a value from a channel`."""
    does, what = wait.does.partition(" for ")[::2]
    return f"{does}{place_in(wait.stack)}" + (f" for {what}" if what else "")


def is_of_the_program(stack: Stack) -> bool:
    """Whether a stack has a line of the program. The main function that Go makes for tests doesn't count."""
    return any(call.of == OF_THE_PROGRAM and call.file != OF_TESTS for call in stack.calls)


def is_of_go(recording: Recording, call: Call) -> bool:
    """Whether a call is known to come only from Go's own code, as net/http's read between two requests does."""
    stack = recording.lines.of(call.first)
    return bool(stack.calls) and all(frame.of == OF_GO for frame in stack.calls)


def is_by_go(recording: Recording, call: Call) -> bool:
    """Whether Go's own code ended its own wait by a deadline in the past, as net/http ends its read between two
    requests."""
    if call.outcome is not Outcome.TIMED_OUT or not call.cause or not is_of_go(recording, call):
        return False
    return bool(recording.step(call.cause).argument("time") < 0)


def text_of_call(recording: Recording, call: Call) -> str:
    """A call with its place and its goroutine: `Read at pool.go:31 in query (goroutine 0)`."""
    return f"{name_of(recording, call)}{place_of(recording, call.first)} (goroutine {call.goroutine})"


def place_of_step(recording: Recording, step: int, goroutine: int | None = None) -> str:
    """The place of a step, its goroutine if given, and its number: ` at pool.go:20 in ping (goroutine 0, step 8)`. A
    step that only leads to the recording's first state has neither a place nor a goroutine."""
    if 0 < step <= begins_at(recording):
        return " before the recording begins"
    whose = "" if goroutine is None else f"goroutine {goroutine}, "
    return f"{place_of(recording, step)} ({whose}step {step})"


def since_begin(recording: Recording, opened: int = 0) -> str:
    """The end of a sentence about what has happened to an object so far. It is ` since the recording begins` if the
    object existed before that, else empty."""
    return " since the recording begins" if opened <= begins_at(recording) > 0 else ""


def result_words(recording: Recording, call: Call) -> str:
    """The result of a call, such as `put at least 64 bytes` if the recording caps the counts of reads and writes."""
    most, words = recording.lines.bytes, call.came()
    is_cut = bool(most and call.moved and call.moved >= most)
    return (
        words.replace(f" {counted(call.moved or 0, 'byte')}", f" at least {counted(call.moved or 0, 'byte')}", 1)
        if is_cut
        else words
    )
