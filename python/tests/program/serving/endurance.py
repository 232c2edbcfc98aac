"""Runs the built program for many steps, copies and interruptions.

No contract says how much memory a run takes, or how often a call may be interrupted. So these tests step back and forth
over a read many times, and make many copies of a large state in an address space that has room for only one copy. They
also interrupt reads and writes repeatedly, as signals do; this needs a C compiler.
"""

import subprocess
from collections.abc import Sequence
from functools import partial
from pathlib import Path

from tests.program.address_spaces import MEGABYTE, limit_memory
from tests.program.support.case_files import FIRST
from tests.program.support.sharing import NETREV, PATIENCE, WrongResultError, expect, library_of

PIECE, BUFFER, EACH_COPY = 65_536, 1_048_576, 1_024
TIMES = 10_000  # to and fro
ROOM = 200 * MEGABYTE
HELD, COPIES = 8, 200  # the megabytes that are held, and the number of copies
INTERRUPTED = 150  # how often each read and each write is interrupted before it succeeds


def replies(words: list[str], script: str, room: int = 0, through: Sequence[str] = ()) -> tuple[int, str, str]:
    """The status, output and errors of netrev in this address space. The command `through`, if any, starts it."""
    process = subprocess.run(
        [*through, NETREV, *words],
        input=script,
        capture_output=True,
        text=True,
        timeout=4 * PATIENCE,
        preexec_fn=partial(limit_memory, room) if room else None,
        check=False,
    )
    return process.returncode, process.stdout, process.stderr


def same(script: str, right: str, reply: tuple[int, str, str]) -> None:
    """Checks that the replies are right, and prints the first difference."""
    status, output, errors = reply
    lines = list(zip([*script.splitlines(), "the end"], [*right.splitlines(), ""], [*output.splitlines(), ""]))
    wrong = next(
        (
            f"line {at}, {line}: expected {item!r}, came {other!r}"
            for at, (line, item, other) in enumerate(lines, 1)
            if item != other
        ),
        "",
    )
    if wrong or output != right:
        raise WrongResultError(f"{wrong or 'other replies'}; status {status}")
    expect("status and errors", (0, ""), (status, errors))


def test_steps_to_and_fro_over_a_read_take_no_more_memory(folder: Path) -> None:
    """Makes 20,000 steps back and forth over a read of 65,536 bytes. Each delta holds the bytes, and netrev frees them
    when it makes the next delta."""
    path = folder / "read.jsonl"
    lines = [f'["sockopen",{PIECE},{PIECE}]', f'["arrive",0,"{"ab" * PIECE}"]', f'["sysread",0,0,{PIECE}]']
    path.write_text("\n".join(['{"netrev":1,"gor":1,"sock":1,"desc":1,"buf":65536}', *lines, ""]), encoding="ascii")
    script = "si 3\n" + "rsi\np in 0\nsi\np in 0\n" * TIMES
    right = "at 3\n" + f"at 2\nin 0 = {PIECE}\nat 3\nin 0 = 0\n" * TIMES
    same(script, right, replies(["run", str(path)], script, ROOM))


def test_copies_share_what_stays_as_it_is(folder: Path) -> None:
    """Copies share unchanged contents: without sharing they would need eight times the address space."""
    path = folder / "held.jsonl"
    last = COPIES * EACH_COPY
    with open(path, "w", encoding="ascii") as file:
        file.write(f'{{"netrev":2,"gor":1,"sock":{HELD},"desc":1,"buf":{BUFFER}}}\n')
        for number in range(HELD):
            file.write(f'["sockopen",{BUFFER},1,["number",{number}]]\n')
            file.write(f'["arrive",{number},"{"ab" * PIECE}","done"]\n' * (BUFFER // PIECE))
        made = HELD * (1 + BUFFER // PIECE)
        file.writelines(f'["tick",{time},"done"]\n' for time in range(1, last - made + 1))
    expect("check", (0, f"ok {last} steps\n", ""), replies(["check", str(path)], "", ROOM))
    script = f"si {last}\np in 0\nrsi {last - made}\np in {HELD - 1}\np clock\n"
    right = f"at {last}\nin 0 = {BUFFER}\nat {made}\nin {HELD - 1} = {BUFFER}\nclock = 0\n"
    same(script, right, replies(["run", str(path)], script, ROOM))


def test_reads_and_writes_that_are_interrupted_go_on(folder: Path) -> None:
    """Each read and write completes, however often it was interrupted."""
    library, reports = library_of("interrupted", folder), folder / "told"
    # (the library writes each interruption to this descriptor)
    through = ["sh", "-c", 'told=$1; shift; exec env "$@" 9> "$told"', "sh", str(reports)]
    through += [f"LD_PRELOAD={library}", f"INTERRUPTED={INTERRUPTED}"]
    script = "si 6\np lock 0\nwatch lock 0\nc\nrc\nquit\n"
    right = replies(["run", FIRST], script)
    for command, given in (("run", script), ("check", "")):
        reply = replies([command, FIRST], given, 0, through)
        expect("status, output and errors", right if given else (0, "ok 10 steps\n", ""), reply)
        if reports.stat().st_size < (2 if given else 1) * INTERRUPTED:
            raise WrongResultError(f"{command} was interrupted {reports.stat().st_size} times alone")
