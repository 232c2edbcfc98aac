"""The callers for system.py: they reset their connection, stay silent, send a byte from time to time, or are too many
for the system."""

import socket
import time

from tests.program.serving.loopback import reset

from .case_files import ARRIVED, FIRST, LARGE, LAST, POSITION, Function, file_of, rest_of
from .sharing import LOOPBACK, PATIENCE, Server, expect, read_to_end, talk


def callers():
    yield Function("callers: two reset in the middle of replies", play_reset)
    yield Function("callers: silent, slow and resetting ones at 64 fronts", play_crowd)
    yield Function("callers: one for whom there is no descriptor", play_no_descriptor)
    yield Function("callers: who come when their front has ended, and another goes on", play_ended_front)
    yield Function("callers: whose only port is somebody else's", play_only_port_taken)
    yield Function("callers: who join late, behind the searches of others", play_late)
    yield Function("callers: gone before they are answered, with lines to read", play_gone_with_lines)
    yield Function("callers: a web page's request, whose body is run", play_request_of_a_page)


def ask_much(caller):
    """Requests 12 MB of replies and reads only the first bytes, so that netrev is still writing them."""
    caller.sendall(b"dump in 0\n" * 100)
    expect("a reply's beginning", b"in 0 = ab", caller.recv(9))


def end_and_reset(caller):
    """Resets the connection after netrev has read to the end of the lines. netrev's write then fails with the same
    error as a write to a closed pipe."""
    caller.shutdown(socket.SHUT_WR)
    reset(caller)


def play_reset(folder):
    """While a caller at front 0 resets its connection, front 1 is served; then the next caller at front 0 is served
    too."""
    with Server(file_of("large", LARGE.encode())(folder).decode(), fronts=2, connections=3) as server:
        expect("the replies", [f"at {ARRIVED}", "bye"], talk(server.call(1), [f"stepi {ARRIVED}", "quit"]))
        other = server.call(1)
        for turn, leave in enumerate((reset, end_and_reset)):
            leaves = server.call(0, SO_RCVBUF=4096)
            ask_much(leaves)
            leave(leaves)
            other.sendall(b"checkpoint\n")
            expect("a reply", f"checkpoint {turn + 1} at {ARRIVED}\n".encode(), other.recv(100))
        expect("the replies", [f"at {ARRIVED + 1}", "bye"], talk(other, ["stepi", "quit"]))
        expect("the replies", [f"at {ARRIVED}", "bye"], talk(server.call(0), ["rsi", "quit"]))
        expect("the replies", ["bye"], talk(server.call(1), ["quit"]))
        server.expect_end(3, "placed 5\n")


def play_no_descriptor(_folder):
    """Four fronts that wait for callers take seven descriptors, and each caller takes two. If only nine descriptors are
    allowed, at least one front can't open one and fails; the other fronts are served."""
    through = ["sh", "-c", 'ulimit -n 9; exec "$@"', "sh"]
    with Server(FIRST, fronts=4, through=through) as server:
        served = [caller for front in range(4) if (caller := answered(server.port + front)) is not None]
        expect("whether some fronts were served, and not all", True, 0 < len(served) < 4)
        for caller in served:
            expect("the replies", ["bye"], talk(caller, ["quit"]))
        server.expect_end(3, f"placed {len(served)}\n")


def answered(port):
    """A caller that has got the reply to a step; None if the port isn't open, or is closed again."""
    for _ in range(50):
        try:
            caller = socket.create_connection((LOOPBACK, port), timeout=PATIENCE)
            caller.sendall(b"stepi\n")
            if caller.recv(100):
                return caller
            caller.close()
            return None
        except ConnectionRefusedError:
            time.sleep(0.02)
        except ConnectionError:
            return None
    return None


def play_ended_front(_folder):
    """A front that has ended has no port, so a later caller is refused and doesn't wait for the other front's end."""
    with Server(FIRST, fronts=2) as server:
        with server.call(1) as other:
            expect("the replies", ["at 1", "bye"], talk(server.call(0), ["stepi", "quit"]))
            expect("who comes at its port", "refused", what_comes_of_calling(server.port))
            expect("the replies to the other", ["at 1 of 10 forward", "bye"], talk(other, ["info position", "quit"]))
        server.expect_end(0, "placed 1\n")


def what_comes_of_calling(port):
    """Whether callers are refused in the end; some may be accepted before the port is closed."""
    limit = time.monotonic() + PATIENCE
    while time.monotonic() < limit:
        with socket.socket() as caller:
            try:
                caller.connect((LOOPBACK, port))
            except ConnectionRefusedError:
                return "refused"
            except ConnectionError:
                pass  # accepted, and reset when the port was closed
        time.sleep(0.02)
    return "let in"


def play_only_port_taken(_folder):
    """A port that is in use, as docs/guide/sharing.md describes it: netrev ends at once without giving a reason."""
    taken = socket.socket()

    def take(first):
        taken.bind((LOOPBACK, first))
        taken.listen()

    with taken, Server(FIRST, before=take) as server:
        server.expect_end(3, "placed 0\n")


def play_late(folder):
    """The first caller of a front connects after the other front's caller has searched for a long time. The late front
    first makes all steps of these searches and then sends the right replies, while the other front continues with its
    own lines."""
    turns = 100
    with Server(file_of("large", LARGE.encode())(folder).decode(), fronts=2) as server:
        first = server.call(0)
        replies = first.makefile("r", encoding="ascii", newline="\n")
        first.sendall(b"watch in 0\n" + b"continue\nreverse-continue\n" * turns + b"checkpoint\n")
        reply = [replies.readline() for _ in range(2 * turns + 2)]
        expect("the replies", ["at 0 start\n", "checkpoint 1 at 0\n"], reply[-2:])
        late = server.call(1)
        late.sendall(b"info position\ninfo breakpoints\nquit\n")
        first.sendall(b"stepi\nquit\n")
        expect("the replies meanwhile", ["at 1\n", "bye\n"], list(replies))
        first.close()
        reply = read_to_end(late)
        places = [f"at {place} of {LAST} forward" for place in (0, 1)]
        expect("whether the late one's first reply is right", True, reply[0] in places)
        expect("its other replies", ["marks 1", "1 watch in 0", "bye"], reply[1:])
        server.expect_end(0, f"placed {2 * turns + 3}\n")


def play_gone_with_lines(_folder):
    """A caller resets its connection while another caller is served. netrev still reads its lines, but can't write the
    first replies, and then runs none of its further lines."""
    lines = 2000
    with Server(FIRST, fronts=1, connections=3) as server:
        with server.call(0) as first:
            first.sendall(b"info position\n")
            expect("a reply", POSITION, first.recv(100))
            leaves = server.call(0)
            leaves.sendall(b"checkpoint\ndelete checkpoint 1\n" + b"stepi\n" * lines)
            reset(leaves)
            first.sendall(b"quit\n")
            expect("the replies", b"bye\n", rest_of(first))
        expect("the replies to the next", "bye", talk(server.call(0), ["info checkpoints", "quit"])[-1])
        status, output, errors = server.ended()
    expect("status and errors", (3, ""), (status, errors))
    placed = int(output.removeprefix("placed "))
    expect("whether some of its lines were run, and by far not all", True, 0 < placed < lines // 2)


def play_request_of_a_page(_folder):
    """The warning of docs/guide/sharing.md: the header lines of an HTTP request aren't commands, but the lines of its
    body are."""
    body = "\nstepi 3\nwatch lock 0\nquit\n"
    lines = ["POST / HTTP/1.1", "Host: 127.0.0.1", f"Content-Length: {len(body)}", "Origin: https://example.org", ""]
    with Server(FIRST, connections=2) as server:
        caller = server.call(0)
        caller.sendall(("\r\n".join(lines) + "\r\n" + body).encode())
        unknown = ["fault 201 unknown command"] * 4
        expect("the replies", [*unknown, "at 3", "mark 1", "bye"], read_to_end(caller))
        expect(
            "the replies to the next", ["at 3 of 10 forward", "bye"], talk(server.call(0), ["info position", "quit"])
        )
        server.expect_end(0, "placed 2\n")


def play_crowd(folder):
    """At 64 fronts, a third of the callers are silent, a third are slow, and a third disconnect badly. The slow callers
    get the right replies, and so do the silent callers when they send lines at last."""
    with Server(file_of("large", LARGE.encode())(folder).decode(), fronts=64) as server:
        connected = [server.call(front, SO_RCVBUF=4096) for front in range(64)]
        silent, slow, leaves = (connected[first::3] for first in range(3))
        silent[0].sendall(f"stepi {ARRIVED}\n".encode())
        expect("a reply", f"at {ARRIVED}\n".encode(), silent[0].recv(100))
        for caller in leaves:
            ask_much(caller)
        for byte in b"stepi\ninfo position\nquit\n":
            for caller in slow:
                caller.sendall(bytes([byte]))
            if leaves:
                (reset, end_and_reset)[len(leaves) % 2](leaves.pop())
            time.sleep(0.003)
        reply = [read_to_end(caller) for caller in slow]
        places = range(ARRIVED + 1, ARRIVED + 1 + len(slow))
        expect("replies to a step", [f"at {place}" for place in places], sorted(item[0] for item in reply))
        shown = {f"at {place} of {LAST} forward" for place in places}
        expect("whether all looks were right", True, all(item[1] in shown and item[2:] == ["bye"] for item in reply))
        expect("netrev serve ended while some were connected", False, server.has_ended())
        for caller in silent:
            output = [f"at {places[-1]} of {LAST} forward", "bye"]
            expect("the replies to the silent", output, talk(caller, ["info position", "quit"]))
        server.expect_end(3, f"placed {len(slow) + 1}\n")
