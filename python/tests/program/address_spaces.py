"""netrev with little memory: program/system.py runs it with address spaces of many sizes."""

import errno
import os
import resource
import signal
import subprocess

from netrev.machine.debugger_model import SharedState, is_command, read_line

from .support.sharing import NETREV, PATIENCE, Server, WrongResultError, expect, talk

MEGABYTE = 1 << 20
NO_MEMORY = b"fault 108 memory\n"
MOST = 1 << 30
LOADS: list[int] = []
STACK = 128 * 1024  # more than a stack grows by
WALK = """stepi 4
print lock 0
dump in 0
stepi 258
dump in 0
break @3
tbreak @3
watch in 0
reverse-continue
resume
print in 0
dump rq 0
continue
resume
continue
resume
resume
dump in 0
stepi 9
print clock
reverse-continue
resume
reverse-continue
resume
info position
reverse-stepi 1
print in 0
dump out 255
"""
LOOKS = [line for line in WALK.splitlines() if line.startswith(("print", "dump"))]


def ended(process, given=None):
    """Waits for the end of a process, and returns its status, its output and its errors."""
    try:
        output, errors = process.communicate(given, timeout=PATIENCE)
    except subprocess.TimeoutExpired:
        process.kill()
        process.communicate()
        raise WrongResultError(f"netrev didn't end within {PATIENCE} s") from None
    return process.returncode, output or b"", errors or b""


def limit_memory(size):
    """Limits the address space of the next process to this many bytes. The process writes no core file."""
    resource.setrlimit(resource.RLIMIT_CORE, (0, 0))
    resource.setrlimit(resource.RLIMIT_AS, (size, size))


def loader_in(size):
    """The status of the system's loader in this address space: the loader maps the program and doesn't start it."""
    traced = {**os.environ, "LD_TRACE_LOADED_OBJECTS": "1"}
    null = subprocess.DEVNULL
    limit = lambda: limit_memory(size)  # noqa: E731
    try:
        return subprocess.run(
            [NETREV], env=traced, stdout=null, stderr=null, preexec_fn=limit, timeout=PATIENCE
        ).returncode
    except OSError as failed:
        return refused_start(failed)


def refused_start(failed):
    """The status of a program that the system refused to start for lack of memory. Raises any other error."""
    if failed.errno in (errno.ENOMEM, errno.E2BIG):
        return 127
    raise failed


def loads_in():
    """The smallest address space, to 4 KB, in which the system can load the program."""
    if not LOADS:
        low, high = 0, 256 * MEGABYTE
        expect("status of the system's loader", 0, loader_in(high))
        while high - low > 4096:
            middle = (low + high) // 2 // 4096 * 4096
            low, high = (low, middle) if loader_in(middle) == 0 else (middle, high)
        LOADS.append(high)
    return LOADS[0]


def expect_walk(recording, replies):
    """Checks that each line has the right reply. Returns how many commands were placed, and the final position."""
    expect("how many replies", WALK.count("\n"), len(replies))
    return expect_beginning(recording, replies)


def expect_beginning(recording, replies):
    """Checks that each reply is right, or that it reports, as docs/reference/COMMANDS.md says, that memory ran out.
    Only a query and a search may report that: the query may be repeated, and `resume` returns the reply to the search
    once. Returns how many commands were placed, and the final position."""
    state, placed, owed = SharedState(), 0, None
    for line, reply in zip(WALK.splitlines(), replies):
        request = read_line(line.encode())
        assert request, line
        memory = f"fault 302 memory, placed {placed}"
        if owed and line == "resume" and reply != memory:
            expect("the reply that was owed", owed, reply)
            owed = None
        elif owed:
            expect(f"{line} while a reply is owed", memory, reply)
        else:
            state, (right,) = recording.answer(state, request)
            placed += is_command(request)
            if request.sort == "seek" and reply == f"fault 302 memory, placed {placed}":
                owed = right
            elif not (request.sort == "look" and reply == "fault 301 memory"):
                expect(line, right, reply)
    return placed, recording.answer(state, read_line(b"info position"))[1][0]


def expect_begun(right, output):
    """Checks that the output begins with whole lines of the right text and ends with the message that memory ran
    out."""
    lines = right.splitlines(keepends=True)[: output.count(b"\n") - 1]
    expect("output", b"".join(lines) + NO_MEMORY, output)


def ended_in(size, words, text):
    """Starts netrev with this address space, and returns its status, output and errors."""
    pipe = subprocess.PIPE
    limit = lambda: limit_memory(size)  # noqa: E731
    try:
        process = subprocess.Popen([NETREV, *words], stdin=pipe, stdout=pipe, stderr=pipe, preexec_fn=limit)
    except OSError as failed:
        return refused_start(failed), b"", b""
    return ended(process, text)


def play_memory(word, recording, right=b""):
    """Runs a command in address spaces of a hundred sizes: some up to twice what the right replies need, and some near
    the smallest size in which the program loads. The argument `right` is the right text for `upgrade` and
    `suspects`."""

    def play(size):
        try:
            return judge(size, *ended_in(size, [word, recording.path], WALK.encode() if word == "run" else b""))
        except WrongResultError as wrong:
            raise WrongResultError(f"with {size // 1024} KB: {wrong}") from None

    def expect_whole_beginning(output):
        if word == "run":
            expect_beginning(recording, output.decode().splitlines())
        else:
            expect("whether the output is a beginning", True, right.startswith(output))

    def judge(size, status, output, errors):
        if size < loads_in():
            # (if the system can't map a program, it kills the process; if the loader can't load a library, the status
            # is 127)
            refused = status in (127, -signal.SIGSEGV, -signal.SIGKILL) and output == b""
            expect("whether the system refused to start it", True, refused)
            return "unloaded"
        expect("errors", b"", errors)
        if status == -signal.SIGSEGV:
            expect_whole_beginning(output)
            return "killed"
        if (status, output) == (1, NO_MEMORY):
            return "unstarted"
        if word == "upgrade" and status == 1:
            expect_begun(right, output)
            return "unstarted"
        expect("status", 0, status)
        if word in ("upgrade", "suspects"):
            expect("output", right, output)
            return "whole"
        if word == "check":
            expect("output", f"ok {recording.length} steps\n".encode(), output)
            return "whole"
        expect_walk(recording, output.decode().splitlines())
        return "short" if b" memory" in output else "whole"

    wanted = {"unloaded", "unstarted", "whole"}
    if word == "run" and recording.length > 10:
        wanted.add("short")
    expect("what was met", wanted, kinds_met(play))


def kinds_met(play):
    """The outcomes at a hundred sizes. If a stack must grow and the address space has no room for that, the system
    kills netrev; with more room it doesn't."""
    seen = set()
    for size in a_hundred_sizes(play):
        what = play(size)
        if what == "killed":
            expect(
                f"whether the system kills it with {(size + STACK) // 1024} KB too", False, play(size + STACK) == what
            )
        seen.add(what)
    return seen - {"killed"}


def a_hundred_sizes(play):
    """Eighty sizes up to an ample size, and twenty sizes near the smallest in which the program loads."""
    least = loads_in()
    ample = least
    while play(ample) != "whole":
        ample *= 2
        expect("whether 1 GB is ample", True, ample <= MOST)
    spread = [ample * part // 80 for part in range(1, 81)]
    near = [least + step * 4096 for step in range(-4, 16)]
    return spread + near


def play_memory_of_serve(recording):
    """Runs a shared session in address spaces of a hundred sizes. Two callers use each session, one after the other."""

    def play(size):
        try:
            return start(size)
        except WrongResultError as wrong:
            raise WrongResultError(f"with {size // 1024} KB: {wrong}") from None

    def start(size):
        through = ["sh", "-c", f'ulimit -c 0; ulimit -v {size // 1024}; exec "$@"', "sh"]
        with Server(recording.path, fronts=2, workers=3, through=through) as server:
            replies = said(server.call(0), [*WALK.splitlines(), "quit"])
            shown = said(server.call(1), ["info position", "quit"])
            return judge(size, replies, shown, *server.ended())

    def said(caller, lines):
        """The replies to a caller; none if netrev ended before it served the caller."""
        try:
            return talk(caller, lines) if caller else []
        except ConnectionError:
            return []

    def judge(size, replies, shown, status, output, errors):
        if size < loads_in():
            expect(
                "whether the system refused to start it", True, status in (126, 127, 139, 137, -11, -9) and not output
            )
            return "unloaded"
        expect("errors", "", errors)
        if status == -signal.SIGSEGV:
            expect("output where the system ended it", "", output)
            expect("whether some replies are missing", True, len(replies) <= WALK.count("\n") or not shown)
            expect_beginning(recording, replies)
            return "killed"
        if not replies:
            expect("status and output where nobody was served", (1, NO_MEMORY.decode()), (status, output))
            return "unstarted"
        placed, position = expect_walk(recording, replies[:-1])
        expect("replies to the other", True, shown in ([position, "bye"], ["fault 301 memory", "bye"]))
        if (status, output) != (1, NO_MEMORY.decode()):
            expect("status and output", (0, f"placed {placed}\n"), (status, output))
        return "short" if any(" memory" in line for line in [*replies, *shown, output]) else "whole"

    expect("what was met", {"unloaded", "unstarted", "whole"}, kinds_met(play) - {"short"})
