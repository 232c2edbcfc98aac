"""Tests the built program at the greatest sizes of a recording and a session.

A call may report that memory ran out, and a proof can't tell whether that is true. So each call is tested here with
ample memory and at the greatest sizes that docs/reference/RECORDING.md allows: none may report that memory ran out, and
all replies must be right. The tests need 1 GB of memory.
"""

import socket
import subprocess
import tempfile
import threading
from collections.abc import Callable, Iterable, Iterator, Sequence
from pathlib import Path

import pytest

from .support.sharing import NETREV, PATIENCE, Server, WrongResultError, expect

pytestmark = pytest.mark.alone

STEPS = 1_000_000
GOROUTINES, SOCKETS, DESCRIPTORS, BUFFER, PIECE = 4096, 256, 256, 1_048_576, 65_536
COMMANDS = 1_000_000
EACH_COPY = 1_024  # steps
WORKERS = 16
WAITS = 8 * PATIENCE  # seconds
HEADER = '{"netrev":%d,"gor":%d,"sock":%d,"desc":%d,"buf":%d}'
Case = Callable[[Path], None]


def written(path: Path, header: str, steps: Iterable[str]) -> Path:
    """Writes a recording."""
    with open(path, "w", encoding="ascii") as file:
        file.write(f"{header}\n")
        file.writelines(f"{step}\n" for step in steps)
    return path


def ticking(folder: Path, more: Sequence[str] = ()) -> Path:
    """As many steps as a recording may have, under the greatest limits of version 1, in a file of 16 MB. The clock
    equals the position."""
    path = folder / f"ticking{len(more)}.jsonl"
    if not path.exists():
        header = HEADER % (1, GOROUTINES, SOCKETS, DESCRIPTORS, PIECE)
        written(path, header, (*(f'["tick",{time}]' for time in range(1, STEPS + 1)), *more))
    return path


def printed(words: Sequence[object], script: str = "") -> tuple[int, str, str]:
    """The status, output and errors of netrev."""
    process = subprocess.run(
        [NETREV, *map(str, words)], input=script.encode(), capture_output=True, timeout=WAITS, check=False
    )
    return process.returncode, process.stdout.decode(), process.stderr.decode()


def same(what: str, right: str, reply: str) -> None:
    """Checks that a text, which may be long, is right, and prints the first difference."""
    if right != reply:
        at = next(
            (at for at, (item, other) in enumerate(zip(right, reply)) if item != other), min(len(right), len(reply))
        )
        raise WrongResultError(
            f"{what}, from character {at}: expected {right[at : at + 60]!r}, came {reply[at : at + 60]!r}"
        )


def play_replies(path: Path, exchange: Sequence[tuple[str, str]]) -> None:
    """Sends lines to `run`, and checks the reply to each."""
    status, output, errors = printed(["run", path], "".join(f"{line}\n" for line, _ in exchange))
    same("replies", "".join(f"{reply}\n" for _, reply in exchange), output)
    expect("status and errors", (0, ""), (status, errors))


def play_check(folder: Path) -> None:
    expect("what is printed", (0, f"ok {STEPS} steps\n", ""), printed(["check", ticking(folder)]))


def play_one_more(folder: Path) -> None:
    path = ticking(folder, ['["tick",0]'])
    expect("what is printed", (1, f"line {STEPS + 2}: fault 106 too many steps\n", ""), printed(["check", path]))


def play_walk(folder: Path) -> None:
    last = STEPS - 1
    moves: tuple[tuple[str, int], ...] = (
        (f"si {STEPS}", STEPS),
        ("rsi", last),
        (f"rsi {STEPS}", 0),
        (f"si {last}", last),
    )
    moves += ((f"rsi {STEPS // 2 + 1}", STEPS // 2 - 2), ("restart 1", last), ("restart 0", 0))
    exchange = [(f"si {last}", f"at {last}"), ("checkpoint", f"checkpoint 1 at {last}"), ("restart 0", "at 0")]
    for line, there in moves:
        is_start = line.startswith("rsi") and there == 0
        exchange += [(line, f"at {there}{' start' if is_start else ''}"), ("p clock", f"clock = {there}")]
    play_replies(ticking(folder), exchange)


def play_search(folder: Path) -> None:
    last = STEPS - 1
    exchange = (
        *(("watch timers", "mark 1"), ("c", f"at {STEPS} end"), ("rc", "at 0 start"), ("watch clock", "mark 2")),
        *((f"si {last - 1}", f"at {last - 1}"), ("c", f"at {last} by 2"), ("c", f"at {STEPS} by 2")),
        *(("rc", f"at {last} by 2"), (f"b @{STEPS}", "mark 3"), ("restart 0", "at 0"), ("delete 2", "deleted mark 2")),
        *(("c", f"at {last} by 3"), ("c", f"at {STEPS} end"), ("b pop", "mark 4"), ("rc", f"at {last} by 3")),
    )
    play_replies(ticking(folder), exchange)


def play_upgrade(folder: Path) -> None:
    header = HEADER % (1, 1, 1, 1, 1)
    right = '{"buf":1,"desc":1,"gor":1,"netrev":2,"sock":1}\n'
    right += "".join(f'["tick",{time},"done"]\n' for time in range(1, STEPS + 1))
    path = written(folder / "small.jsonl", header, (f'["tick",{time}]' for time in range(1, STEPS + 1)))
    status, output, errors = printed(["upgrade", path])
    same("upgrade", right, output)
    expect("status and errors", (0, ""), (status, errors))


def play_buffer(folder: Path) -> None:
    pieces = BUFFER // PIECE
    steps = [f'["sockopen",{BUFFER},{BUFFER},["number",0]]']
    steps += [f'["arrive",0,"{"ab" * PIECE}","done"]'] * pieces + [f'["sysread",0,0,{BUFFER},["got",{BUFFER}]]']
    steps += [f'["syswrite",0,0,"{"cd" * PIECE}",["put",{PIECE}]]'] * pieces + [f'["drain",0,{BUFFER},"done"]']
    path = written(folder / "buffer.jsonl", HEADER % (2, 2, 2, 2, BUFFER), steps)
    full, last = pieces + 1, 2 * pieces + 3
    exchange = (
        *((f"si {full}", f"at {full}"), ("dump in 0", f"in 0 = {'ab' * BUFFER}"), ("si", f"at {full + 1}")),
        *(("p in 0", "in 0 = 0"), ("rsi", f"at {full}"), ("dump in 0", f"in 0 = {'ab' * BUFFER}")),
        *((f"si {last}", f"at {last} end"), ("p out 0", "out 0 = 0"), ("rsi", f"at {last - 1}")),
        *(("p out 0", f"out 0 = {BUFFER}"), ("dump out 0", f"out 0 = {'cd' * BUFFER}")),
    )
    play_replies(path, exchange)


def crowd() -> tuple[list[str], int]:
    """Steps that make all goroutines and sockets, and all descriptors with both timers armed; put a waiter at each side
    of a descriptor; and queue the other goroutines for one lock. Also returns the goroutine that holds that lock."""
    steps = ['["spawn"]'] * (GOROUTINES - 1) + ['["sockopen",16,16]'] * SOCKETS
    steps += [f'["pollopen",0,{number}]' for number in range(DESCRIPTORS)]
    for number in range(DESCRIPTORS):
        steps += [f'["setdeadline",0,{number},"{side}",{when * 10**9 + number}]' for when, side in enumerate("rw", 1)]
    waits = [(number, side) for number in range(DESCRIPTORS) for side in "rw"]
    for goroutine, (number, side) in enumerate(waits, 1):
        steps += [f'["waitbegin",{goroutine},{number},"{side}"]', f'["blockarm",{goroutine}]']
        steps += [f'["blockcheck",{goroutine}]', f'["parkcommit",{goroutine}]']
    having = len(waits) + 1
    steps.append(f'["rwlock",{having},0,"r"]')
    for goroutine in range(having + 1, GOROUTINES):
        steps += [f'["rwlock",{goroutine},0,"r"]', f'["acquire",{goroutine}]']
    return steps, having


def crowded(folder: Path) -> tuple[Path, int, int]:
    """A recording of that crowd, followed by ticks, so that copies of it are kept and all timers fire. Also returns the
    position at which all its goroutines wait, and the last position."""
    steps, _ = crowd()
    timers = 2 * DESCRIPTORS
    more = [f'["tick",{time}]' for time in range(1, 3001)] + [f'["tick",{3 * 10**9}]'] + ['["pop"]'] * timers
    path = written(folder / "crowd.jsonl", HEADER % (1, GOROUTINES, SOCKETS, DESCRIPTORS, 16), [*steps, *more])
    return path, len(steps), len(steps) + len(more)


def play_crowd(folder: Path) -> None:
    path, there, last = crowded(folder)
    waiters = 2 * DESCRIPTORS
    _, having = crowd()
    queue = f"rq 0 = {' '.join(map(str, range(having + 1, GOROUTINES)))}"
    exchange = (
        *((f"si {last}", f"at {last}"), ("p firings", f"firings = {waiters}"), ("p waiters", f"waiters = {waiters}")),
        *(("rsi 600", f"at {last - 600}"), ("p timers", f"timers = {waiters}"), ("restart 0", "at 0")),
        *((f"si {there}", f"at {there}"), ("p timers", f"timers = {waiters}"), ("dump rq 0", queue)),
        *(("watch firings", "mark 1"), ("c", f"at {last - waiters + 1} by 1"), ("rc", "at 0 start")),
        *((f"si {there + 2500}", f"at {there + 2500}"), ("dump rq 0", queue), ("rsi", f"at {there + 2499}")),
    )
    play_replies(path, exchange)


def play_upgraded_crowd(folder: Path) -> None:
    path, _, last = crowded(folder)
    status, output, errors = printed(["upgrade", path])
    expect("status, lines and errors", (0, last + 1, ""), (status, output.count("\n"), errors))
    with open(folder / "upgraded.jsonl", "w", encoding="ascii") as file:
        file.write(output)
    expect("its check", (0, f"ok {last} steps\n", ""), printed(["check", folder / "upgraded.jsonl"]))


def asked(caller: socket.socket, lines: str) -> str:
    """The replies to these lines, which are sent while the replies are read."""
    caller.settimeout(WAITS)

    def send() -> None:
        caller.sendall(lines.encode())
        caller.shutdown(socket.SHUT_WR)

    sender = threading.Thread(target=send, daemon=True)
    sender.start()
    with caller, caller.makefile("r", encoding="ascii", newline="\n") as replies:
        reply = replies.read()
    sender.join(PATIENCE)
    return reply


def play_workers(folder: Path) -> None:
    with Server(ticking(folder), workers=WORKERS) as server:
        same("replies", f"mark 1\nat {STEPS} end\nat 0 start\n", asked(server.call(0), "watch timers\nc\nrc\n"))
        server.expect_end(0, "placed 3\n")


def seconds_of(process: int) -> dict[str, int]:
    """How long each thread of a process has run, in the system's ticks; the key "all" stands for the whole process."""
    found = {"all": ticks_in(Path(f"/proc/{process}/stat"))}
    for thread in Path(f"/proc/{process}/task").iterdir():
        found[thread.name] = ticks_in(thread / "stat")
    return found


def ticks_in(file: Path) -> int:
    user, system = file.read_text().rpartition(")")[2].split()[11:13]
    return int(user) + int(system)


def play_idle_caller(folder: Path) -> None:
    """If there is room for each worker's report, the front's own thread repeats no part of the search. It may itself be
    one of the workers, so it may take as much time as a worker takes, but not as much as all workers together."""
    with Server(ticking(folder), workers=WORKERS) as server, server.call(0) as caller:
        caller.settimeout(WAITS)
        replies = caller.makefile("r", encoding="ascii", newline="\n")
        caller.sendall(b"watch timers\n")
        expect("a reply", "mark 1\n", replies.readline())
        before = seconds_of(server.process.pid)
        for line, reply in ((b"c\n", f"at {STEPS} end\n"), (b"rc\n", "at 0 start\n")) * 2:
            caller.sendall(line)
            expect("a reply", reply, replies.readline())
        after = seconds_of(server.process.pid)
        caller.sendall(b"quit\n")
        expect("a reply", "bye\n", replies.readline())
        replies.close()
    took = {name: ticks - before.get(name, 0) for name, ticks in after.items()}
    whole = took.pop("all")
    most = max(took.values())
    if most > whole / 3:
        raise WrongResultError(f"the front's own thread took {most} of the {whole} ticks that all its workers took")


def play_commands(folder: Path) -> None:
    path = written(folder / "few.jsonl", HEADER % (1, 1, 1, 1, 1), [f'["tick",{time}]' for time in range(1, 11)])
    with Server(path, journal=COMMANDS) as server:
        reply = asked(server.call(0), "delete 1\n" * (COMMANDS + 1))
        same("replies", "fault 401 no such mark\n" * COMMANDS + "fault 303 journal full\n", reply)
        server.expect_end(0, f"placed {COMMANDS}\n")


def greatest_memory(path: Path, steps: int) -> int:
    """The peak memory of netrev, in bytes, after it has read a recording. (The figure from `wait4` includes this
    process's memory from before the program began.)"""
    with subprocess.Popen(
        [NETREV, "run", str(path)], stdin=subprocess.PIPE, stdout=subprocess.PIPE, text=True
    ) as process:
        assert process.stdin and process.stdout
        process.stdin.write("info position\n")
        process.stdin.flush()
        expect("a reply", f"at 0 of {steps} forward\n", process.stdout.readline())
        status = Path(f"/proc/{process.pid}/status").read_text(encoding="ascii")
    expect("status", 0, process.returncode)
    (peak,) = (line.split()[1] for line in status.splitlines() if line.startswith("VmHWM:"))
    return int(peak) * 1024


def play_copies(folder: Path) -> None:
    """The memory for a recording according to docs/reference/RECORDING.md: the bytes held in each copy, and some bytes
    for each step. Bytes that stay the same are counted once for all copies. (The rest is the program itself, the rings,
    and the growth of lists.)"""
    steps = 100 * EACH_COPY
    turn = ['["sysread",0,0,1,["got",1]]', '["arrive",0,"ab","done"]']
    for pieces, turns in ((0, False), (BUFFER // PIECE, False), (BUFFER // PIECE, True)):
        held = pieces * PIECE
        lines = [f'["sockopen",{BUFFER},1,["number",0]]', *[f'["arrive",0,"{"ab" * PIECE}","done"]'] * pieces]
        while len(lines) < steps:
            lines += turn if turns else []
            lines += [f'["tick",{len(lines) + more},"done"]' for more in range(EACH_COPY // 2)]
        path = written(folder / f"held{pieces}{turns}.jsonl", HEADER % (2, 1, 1, 1, BUFFER), lines[:steps])
        copies = steps // EACH_COPY if turns else 1
        most = held * copies * 13 // 10 + 300 * steps + 16 * BUFFER
        took = greatest_memory(path, steps)
        if took > most:
            raise WrongResultError(
                f"with {held} bytes held over {steps} steps netrev takes {took} bytes, and {most} are the most"
            )


CASES: dict[str, Case] = {
    "check of 1,000,000 steps, a file of 16 MB": play_check,
    "check of a step more": play_one_more,
    "walk to both ends of 1,000,000 steps": play_walk,
    "search over 1,000,000 steps, both ways": play_search,
    "upgrade of 1,000,000 steps": play_upgrade,
    "buffers of 1,048,576 bytes: dumped, read, drained, and back": play_buffer,
    "memory: what the buffers hold, once a copy where it changes": play_copies,
    "crowd of all goroutines, sockets, descriptors and timers, with copies on the way": play_crowd,
    "crowd upgraded": play_upgraded_crowd,
    "workers: 16 over 1,000,000 steps, both ways": play_workers,
    "workers: the front's own thread searches nothing again": play_idle_caller,
    "commands: 1,000,000 and one more": play_commands,
}


@pytest.fixture(scope="module")
def folder() -> Iterator[Path]:
    """One folder for all cases, because several use the same recording."""
    with tempfile.TemporaryDirectory() as name:
        yield Path(name)


@pytest.mark.parametrize("play", CASES.values(), ids=CASES)
def test_size(folder: Path, play: Case) -> None:
    play(folder)
