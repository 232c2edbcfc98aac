"""The times at which `netrev run` writes its replies: it writes the replies to whole lines before it reads on, together
in one write."""

import socket
import subprocess
from collections.abc import Callable, Iterator

import pytest

from tests.program.support.sharing import NETREV, PATIENCE
from tests.support.examples import EXAMPLES

WORDS: list[str] = [NETREV, "run", str(EXAMPLES / "first.jsonl")]


@pytest.fixture
def written_for() -> Iterator[Callable[[bytes], bytes]]:
    """A function that sends bytes to a process, and returns the process's next write. Standard output is a socket that
    keeps each write separate."""
    output, theirs = socket.socketpair(socket.AF_UNIX, socket.SOCK_SEQPACKET)
    output.settimeout(PATIENCE)
    with theirs:
        process = subprocess.Popen(WORDS, stdin=subprocess.PIPE, stdout=theirs.fileno(), bufsize=0)

    def written(lines: bytes) -> bytes:
        assert process.stdin is not None
        process.stdin.write(lines)
        return output.recv(1 << 20)

    with output:
        yield written
        process.kill()
        process.communicate()


def test_a_caller_that_waits_for_each_reply_gets_it(written_for: Callable[[bytes], bytes]) -> None:
    assert written_for(b"stepi\n") == b"at 1\n"
    assert written_for(b"stepi\n") == b"at 2\n"


def test_a_reply_is_not_held_for_the_rest_of_the_next_line(written_for: Callable[[bytes], bytes]) -> None:
    assert written_for(b"stepi\nst") == b"at 1\n"
    assert written_for(b"epi\n") == b"at 2\n"


def test_replies_to_lines_that_came_together_are_one_write(written_for: Callable[[bytes], bytes]) -> None:
    assert written_for(b"stepi\nstepi\nwh\nstepi") == b"at 1\nat 2\nfault 201 unknown command\n"


def replies_to(lines: bytes) -> bytes:
    return subprocess.run(WORDS, input=lines, stdout=subprocess.PIPE, timeout=PATIENCE, check=True).stdout


def test_nothing_that_is_held_is_lost_at_the_end() -> None:
    replies = replies_to(b"stepi\nreverse-stepi\n" * 2_000 + b"stepi")
    assert replies == b"at 1\nat 0\n" * 2_000 + b"at 1\n"


def test_nothing_that_is_held_is_lost_behind_quit() -> None:
    assert replies_to(b"stepi\nstepi\nquit\nstepi\n") == b"at 1\nat 2\nbye\n"
