"""nrdb in a session that `netrev serve` shares with another caller."""

import json
import subprocess
import threading
from typing import Any

from netrev.messages.session import NO_REPLY_YET
from tests.program.nrdb.common.support import EXAMPLES, NRDB, PATIENCE, nrdb
from tests.program.support.sharing import Server

FIRST = EXAMPLES / "first.jsonl"
DONE = "cell clock: the time, in nanoseconds"


class ServedSession:
    """nrdb at a front: it gets one line at a time, and prints lines of JSON."""

    def __init__(self, port, *words):
        called = [NRDB, "--json", "--join", f"127.0.0.1:{port}", *map(str, words)]
        self.process = subprocess.Popen(called, stdin=subprocess.PIPE, stdout=subprocess.PIPE, text=True)
        assert self.process.stdin and self.process.stdout
        self.lines, self.events = self.process.stdin, self.process.stdout
        self.ask()

    def __enter__(self):
        return self

    def __exit__(self, *_):
        self.process.kill()
        if not self.events.closed:
            self.process.communicate()

    def ask(self, *lines):
        """The events that are still unread, followed by the events that these lines cause."""
        self.lines.write("".join(f"{line}\n" for line in (*lines, "help clock")))
        self.lines.flush()
        result: list[dict[str, Any]] = []
        while True:
            event = json.loads(self.events.readline())
            if event == {"event": "note", "text": DONE}:
                return result
            result.append(event)

    def ends(self):
        """Ends the input, and returns the output and the exit status."""
        rest, _ = self.process.communicate(timeout=PATIENCE)
        return [json.loads(line) for line in rest.splitlines()], self.process.returncode


class Other:
    """Another caller, which has its own front."""

    def __init__(self, caller):
        self.caller, self.lines = caller, caller.makefile("rw")

    def ask(self, line):
        """Sends a line, and returns the reply."""
        self.lines.write(f"{line}\n")
        self.lines.flush()
        return self.lines.readline().rstrip("\n")

    def leaves(self):
        """Ends the connection."""
        self.lines.close()
        self.caller.close()


def replies(reports):
    """The replies among the events."""
    return [line for event in reports if event["event"] == "reply" for line in event["reply"]]


def serving(fronts=1, left=1):
    """Starts a server with this many fronts, each of which accepts this many connections."""
    server = Server(FIRST, fronts=fronts, connections=1 + left)
    for front in range(fronts):
        server.call(front).close()
    return server


def test_a_session_is_shared():
    with serving(fronts=2) as server:
        other = Other(server.call(1))
        with ServedSession(server.port, FIRST) as person:
            assert replies(person.ask("stepi 6")) == ["at 6"]
            assert other.ask("info position") == "at 6 of 10 forward"
            assert other.ask("watch lock 0") == "mark 1"
            assert other.ask("stepi 3") == "at 9"
            result = person.ask("print lock 0")
            assert result[0] == {"event": "note", "text": "someone else has moved: from 6 to 9"}
            assert result[1]["position"] == 9
            assert replies(result) == ["lock 0 = 9"]
            assert [event["event"] for event in person.ask("print lock 0")] == ["reply"]
            changes = [event["rows"] for event in person.ask("history lock 0") if event["event"] == "table"]
            assert [row["step"] for row in changes[0]] == [3, 4, 5, 6, 7, 8, 9]
            assert other.ask("info position") == "at 9 of 10 forward"
            assert replies(person.ask("reverse-until lock 0 18")) == ["at 5", "lock 0 = 18"]
            assert other.ask("info position") == "at 5 of 10 forward"
            assert person.ends() == ([{"event": "end", "status": 0}], 0)
        other.leaves()
        server.expect_end(0, "placed 4\n")


def test_without_the_recording_replies_are_all():
    with serving() as server:
        with ServedSession(server.port) as person:
            result = person.ask("stepi 6", "history lock 0", "info goroutines", "where")
            assert replies(result) == ["at 6"]
            notes = [event["text"] for event in result if event["event"] == "note"]
            assert notes[:2] == ["this needs the recording: name its file after --join HOST:PORT"] * 2
            assert notes[2] == "at 6 of 10 forward"
            assert person.ends()[1] == 0
        server.expect_end(0, "placed 1\n")


def test_another_recording_than_the_session_has():
    with serving() as server:
        other = EXAMPLES / "lost-wakeup.jsonl"
        output = nrdb("--batch", "--join", f"127.0.0.1:{server.port}", other, status=3)
        assert output == "| the recording has 22 steps, but the session's has 10\n"


def test_a_file_that_is_no_recording(folder):
    """The file has as many lines as the session's recording, and netrev reports its fault."""
    with serving() as server:
        file = f"{folder}/x.jsonl"
        with open(file, "w", encoding="ascii") as text:
            text.write('{"netrev":1,"gor":2,"sock":1,"desc":1,"buf":1}\n' + '["pollclose",0,0]\n' * 10)
        output = nrdb("--batch", "--join", f"127.0.0.1:{server.port}", file, "-ex", "info goroutines", status=3)
        assert output == f"| {file} isn't a recording: step 1: fault 107 reason 5\n"


def test_a_front_in_use_is_waited_for_aloud():
    with serving(left=2) as server:
        other = Other(server.call(0))
        assert other.ask("stepi 4") == "at 4"
        words = [NRDB, "--batch", "--join", f"127.0.0.1:{server.port}", "-ex", "print lock 0", str(FIRST)]
        with subprocess.Popen(words, stdout=subprocess.PIPE, text=True) as waiting:
            assert waiting.stdout
            too_long = threading.Timer(PATIENCE, waiting.kill)
            too_long.start()
            assert waiting.stdout.readline() == f"| {NO_REPLY_YET}\n"
            too_long.cancel()
            other.leaves()
            text, _ = waiting.communicate(timeout=PATIENCE)
        assert text.splitlines()[0] == "at 4 of 10 forward"
        assert "lock 0 = 8   | 1 reference\n" in text
        assert waiting.returncode == 0


def test_nobody_serves():
    with serving() as server:
        server.call(0).close()
        server.ended()
    output = nrdb("--join", f"127.0.0.1:{server.port}", status=3)
    assert output == f"| 127.0.0.1:{server.port}: Connection refused\n"
