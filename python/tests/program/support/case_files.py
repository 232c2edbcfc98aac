"""The recordings and files of test cases, and functions that several modules use.

    python3 python tests.program.support.case_files FILE    prints the text that `netrev upgrade` must write for a recording
"""

import os
import socket
import sys
from collections.abc import Callable
from dataclasses import dataclass
from pathlib import Path

from netrev.machine.observer import Observer
from netrev.model.program import printed

from .sharing import ROOT


def upgrade_of(text: bytes) -> bytes:
    """The model's upgrade of a recording's text, or the fault that the model finds."""
    return output_of("upgrade", text)


def suspects_of(text: bytes) -> bytes:
    """The lines that the model prints about a recording's suspects, or the fault that the model finds."""
    return output_of("suspects", text)


def output_of(program: str, text: bytes) -> bytes:
    """A program's output for a recording, according to the model."""
    right = printed(program, text, b"", Observer())
    assert right, "the model has an opinion on each recording that is here"
    return right.output


FIRST, ANSWERS, LOST = (str(ROOT / f"examples/{name}.jsonl") for name in ("first", "answers", "lost-wakeup"))
TEXT = Path(FIRST).read_bytes()
UPGRADED = upgrade_of(TEXT)
ROOM = '{"netrev":1,"gor":4096,"sock":256,"desc":256,"buf":65536}\n'
TICKS = ROOM + "".join(f'["tick",{time}]\n' for time in range(1, 50_001))
LARGE = ROOM + '["spawn"]\n' * 5 + '["sockopen",65536,65536]\n' * 256
LARGE += f'["arrive",0,"{"ab" * 60_000}"]\n["arrive",255,"6869"]\n' + '["tick",1]\n' * 40 + '["sysread",0,0,60000]\n'
ARRIVED, LAST = 262, 304  # the part of LARGE in which the bytes arrive, and its last position
LOST_AFTER = """["pollopen",0,0]
["pollevent",0,1,"r",0]
["pollreset",0,0,"r"]
["waitbegin",0,0,"r"]
["blockarm",0]
["blockcheck",0]
["parkcommit",0]
"""  # to follow LARGE: a lost wake-up
UPGRADED_TICKS = b'{"buf":65536,"desc":256,"gor":4096,"netrev":2,"sock":256}\n' + b"".join(
    b'["tick",%d,"done"]\n' % time for time in range(1, 50_001)
)
POSITION = b"at 0 of 10 forward\n"


@dataclass
class Function:
    """A case that a function runs."""

    name: str
    play: Callable[[Path], None]
    skipped: bool = False


def file_of(name: str | bytes, text: bytes) -> Callable[[Path], bytes]:
    """A file with this name (which may be bytes) and this text."""

    def make(folder: Path) -> bytes:
        path = os.path.join(os.fsencode(folder), name if isinstance(name, bytes) else name.encode())
        with open(path, "wb") as file:
            file.write(text)
        return path

    return make


def rest_of(caller: socket.socket) -> bytes:
    """The bytes that a caller reads until netrev ends or resets the connection."""
    reply = b""
    with caller:
        try:
            while more := caller.recv(65_536):
                reply += more
        except ConnectionResetError:
            pass
    return reply


if __name__ == "__main__":
    sys.stdout.buffer.write(upgrade_of(Path(sys.argv[1]).read_bytes()))
