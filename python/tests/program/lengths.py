"""Tests the built program beyond ordinary sizes. The name of each case begins with its kind:

    walk      netrev walks in both directions over recordings with more steps than it keeps deltas for, and with more steps than
              lie between two copies
    dump      the output of a buffer that takes more than one write
    text      recordings of more than a megabyte, and steps with the greatest number of bytes
    limit     the greatest number of marks and checkpoints, and one more than that; no number is reused
    journal   the greatest number of commands that `run` accepts, and one more than that
"""

import subprocess
from dataclasses import dataclass
from pathlib import Path

import pytest

from .support.sharing import NETREV, PATIENCE, expect

HEADER = '{"netrev":1,"gor":4,"sock":2,"desc":2,"buf":16}\n'
LARGE = '{"netrev":1,"gor":1,"sock":1,"desc":1,"buf":65536}\n["sockopen",65536,1]\n'
WIDE = '{"netrev":1,"gor":4,"sock":2,"desc":2,"buf":512}\n["sockopen",512,512]\n'
BYTES = "68690a" * 100


def ticks(first: int, last: int) -> str:
    """Steps that set the clock to each of these times."""
    return HEADER + "".join(f'["tick",{time}]\n' for time in range(first, last + 1))


@dataclass
class Case:
    """A recording, the lines that are sent (None if the recording is only checked), and the output."""

    name: str
    recording: str
    script: str | None
    output: str

    def play(self, folder: Path) -> None:
        path = folder / "recording.jsonl"
        path.write_text(self.recording, encoding="utf-8")
        process = subprocess.run(
            [NETREV, "check" if self.script is None else "run", path],
            input=(self.script or "").encode(),
            capture_output=True,
            timeout=PATIENCE,
            check=False,
        )
        expect(
            "status, output and errors",
            (0, self.output, b""),
            (process.returncode, process.stdout.decode(), process.stderr),
        )


CASES = (
    Case(
        "walk: 1,200 steps, to the end and the start at once and in parts",
        ticks(1, 1_200),
        "si 1001\np clock\nsi 4294967295\np clock\nrsi 499\np clock\nrsi 200\np clock\nrsi 100000\np clock\nsi 1200\np clock\n",
        "at 1001\nclock = 1001\nat 1200 end\nclock = 1200\nat 701\nclock = 701\nat 501\nclock = 501\nat 0 start\nclock = 0\n"
        "at 1200\nclock = 1200\n",
    ),
    Case(
        "walk: 5,000 steps, by checkpoints, a break and a watch",
        ticks(0, 4_999),
        "c\np clock\ncheckpoint\nrestart 0\np clock\nsi 2000\np clock\nrestart 1\np clock\nrsi 4500\np clock\n"
        "b @4999\nc\np clock\nwatch clock\nrc\np clock\n",
        "at 5000 end\nclock = 4999\ncheckpoint 1 at 5000\nat 0\nclock = 0\nat 2000\nclock = 1999\nat 5000\nclock = 4999\n"
        "at 500\nclock = 499\nmark 1\nat 4998 by 1\nclock = 4997\nmark 2\nat 4997 by 2\nclock = 4996\n",
    ),
    Case(
        "dump: 300 bytes",
        f'{WIDE}["arrive",0,"{BYTES}"]\n',
        "si 2\ndump in 0\np in 0\n",
        f"at 2\nin 0 = {BYTES}\nin 0 = 300\n",
    ),
    Case("text: more than a megabyte, in 100,000 steps", ticks(1, 100_000), None, "ok 100000 steps\n"),
    Case(
        "text: more than a megabyte, in nine steps of 65,536 bytes",
        LARGE + (f'["arrive",0,"{"6a" * 65_536}"]\n' + '["sysread",0,0,65536]\n') * 9,
        None,
        "ok 19 steps\n",
    ),
    Case(
        "limit: 64 marks, and one more",
        HEADER,
        "watch clock\n" * 65 + "tbreak rwlock\ndelete 1\ndelete 1\nwatch clock\nbreak rwlock\n",
        "".join(f"mark {number}\n" for number in range(1, 65))
        + "fault 402 marks full\n" * 2
        + "deleted mark 1\nfault 401 no such mark\nmark 65\nfault 402 marks full\n",
    ),
    Case(
        "limit: 64 checkpoints, and one more",
        HEADER,
        "checkpoint\n" * 65 + "delete checkpoint 1\ndelete checkpoint 1\nrestart 1\ncheckpoint\ncheckpoint\n",
        "".join(f"checkpoint {number} at 0\n" for number in range(1, 65))
        + "fault 404 checkpoints full\n"
        + "deleted checkpoint 1\n"
        + "fault 403 no such checkpoint\n" * 2
        + "checkpoint 65 at 0\nfault 404 checkpoints full\n",
    ),
    Case(
        "journal: 65,536 commands, and one more",
        HEADER,
        "delete 1\n" * 65_537,
        "fault 401 no such mark\n" * 65_536 + "fault 303 journal full\n",
    ),
)


@pytest.mark.parametrize("case", CASES, ids=lambda case: case.name)
def test_length(folder: Path, case: Case) -> None:
    case.play(folder)
