"""The prompt on a real terminal of the system (a pty): line editing, the history, completion, repetition and Ctrl-C."""

import fcntl
import os
import pty
import select
import signal
import struct
import termios
import time
from pathlib import Path

import pytest

from tests.program.nrdb.common.support import EXAMPLES, NETREV, NRDB, PATIENCE, ROOT

PROMPT = "(netrev) "
INTERRUPT = "\x03"
END = "\x04"
UP = "\x1b[A"


class Typist:
    """Types into nrdb, and reads its screen."""

    def __init__(self, recording, home, program=NETREV, **variables):
        words = [NRDB, "--netrev", str(program), str(recording)]
        environment = {**os.environ, "HOME": home, "TERM": "dumb", "INPUTRC": "/dev/null", "COLUMNS": "200"} | variables
        environment.pop("NETREV_HISTORY", None)
        self.process, self.terminal = pty.fork()
        if self.process == 0:
            signal.signal(signal.SIGINT, signal.SIG_DFL)  # (a background job of a shell ignores it)
            os.execve(NRDB, words, environment)
        self.screen = ""

    def __enter__(self):
        self.greeting = self.until(PROMPT)
        return self

    def __exit__(self, *_):
        os.close(self.terminal)
        if self.process:
            os.kill(self.process, signal.SIGKILL)
            os.waitpid(self.process, 0)

    def type(self, text):
        """Presses keys."""
        os.write(self.terminal, text.encode())

    def interrupt(self, text):
        """Presses Ctrl-C until this text appears: Python may notice a Ctrl-C between two keys only at the next key."""
        for _ in range(PATIENCE):
            self.type(INTERRUPT)
            if self.reads_until([text], 1):
                break
        self.until(text)

    def reads_until(self, texts, patience):
        """Reads until one of these texts is on the screen; returns whether it appeared in time."""
        limit = time.monotonic() + patience
        while not any(text in self.screen for text in texts):
            left = limit - time.monotonic()
            if left < 0 or not select.select([self.terminal], [], [], left)[0]:
                return False
            try:
                result = os.read(self.terminal, 65536).decode()
            except OSError:  # nrdb has ended
                return False
            self.screen = (self.screen + result).replace("\r\n", "\n")
        return True

    def until(self, *texts):
        """Reads until one of these texts is on the screen, and returns the text up to its end."""
        if not self.reads_until(texts, PATIENCE):
            raise AssertionError(f"wanted {texts}, and the screen shows {self.screen!r}")
        end = min(self.screen.index(text) + len(text) for text in texts if text in self.screen)
        seen, self.screen = self.screen[:end], self.screen[end:]
        return seen

    def ask(self, line):
        """Types a line, and returns everything up to the next prompt."""
        self.type(f"{line}\r")
        self.until("\n")
        return self.until(PROMPT)[: -len(PROMPT)]

    def ends(self):
        """Waits until nrdb ends, and returns its exit status."""
        _, status = os.waitpid(self.process, 0)
        self.process = 0
        return os.waitstatus_to_exitcode(status)

    def ends_by(self, number):
        """Sends a signal each second until nrdb ends, and returns its exit status: Python doesn't notice a signal that comes
        just before it waits for a key."""
        for tenth in range(10 * PATIENCE):
            if tenth % 10 == 0:
                os.kill(self.process, number)
            if os.waitid(os.P_PID, self.process, os.WEXITED | os.WNOHANG | os.WNOWAIT):
                break
            time.sleep(0.1)
        return self.ends()


def pairs_of_locks(path, steps):
    """Writes a recording of a lock that is taken and given up repeatedly."""
    lines = ['{"netrev":1,"gor":1,"sock":1,"desc":1,"buf":1}', '["sockopen",1,1]']
    lines += ['["rwlock",0,0,"r"]', '["rwunlock",0,0,"r"]'] * (steps // 2)
    path.write_text("\n".join(lines) + "\n")


@pytest.fixture
def home(folder: Path) -> str:
    return str(folder)


def typist(home: str, recording: Path = EXAMPLES / "first.jsonl") -> Typist:
    return Typist(recording, home)


def test_an_empty_line_repeats_the_last_step(home):
    with typist(home) as person:
        assert person.ask("stepi 2").startswith("at 2\n")
        assert person.ask("").startswith("at 4\n")
        assert person.ask("").startswith("at 6\n")
        assert person.ask("rsi").startswith("at 5\n")
        assert person.ask("").startswith("at 4\n")
        assert person.ask("print lock 0").startswith("lock 0 = 8 ")
        assert person.ask("") == ""
        person.type("quit\r")
        person.until("bye\n")
        assert person.ends() == 0


def test_tab_completes_commands_kinds_cells_and_numbers(home):
    with typist(home) as person:
        for typed, whole in (
            ("dis\t", "display "),
            ("break rwu\t", "break rwunlock "),
            ("watch wai\t", "watch waiters "),
            ("info gor\t", "info goroutines "),
            ("steps rwu\t", "steps rwunlock "),
            ("calls so\t", "calls sock "),
            ("set \tre\t", "set exec-direction reverse "),
        ):
            person.type(typed)
            assert person.until(whole).endswith(whole)
            person.type("\r")
            person.until(PROMPT)
        person.ask("set exec-direction forward")
        person.ask("stepi 3")
        person.type("print loc\t\t")
        person.until("print lock 0 ")
        person.type("\r")
        assert "lock 0 = 0   | 0 references\n" in person.until(PROMPT)


def test_the_first_line_says_what_to_type(home):
    with typist(home) as person:
        assert "| what went wrong: info suspects; what hangs: " in person.greeting


def test_a_session_opens_with_what_failed_or_hangs_in_the_whole_run(home):
    hung, caused = EXAMPLES / "real" / "hung.jsonl", ROOT / "python" / "tests" / "caused"
    failed, deadlock = EXAMPLES / "real" / "hijacked.jsonl", caused / "both-bad.jsonl"
    for recording, text in (
        (hung, "2 goroutines wait at the end, at main.go:13 in count; at main.go:42 in ask: info hangs"),
        (
            deadlock,
            "cause:  Deadlock: two calls wait for one another.\n|         Write at main.go:223 in both.func1",
        ),
        (failed, "cause:  Write at main.go:39 in echo (goroutine 2) ended with a timeout.\n|         Its deadline"),
    ):
        with Typist(recording, home, TERM="dumb") as person:
            assert f"| {text}" in person.greeting, text
            assert person.greeting.index(text) < person.greeting.index("what went wrong:"), text


def test_lines_of_a_mark_have_a_prompt_of_their_own(home):
    with typist(home) as person:
        person.ask("watch lock 0")
        person.type("commands\r")
        person.until("\n> ")
        person.type("print lock 0\r")
        person.until("\n> ")
        person.type("end\r")
        person.until(PROMPT)
        person.type("continue\r")
        person.until("| mark 1: lock 0: absent -> 0")
        person.until("(netrev) print lock 0\nlock 0 = 0 ")


def test_what_is_added_has_a_colour_unless_nobody_wants_any(home):
    colour, example = "\x1b[36m| ", EXAMPLES / "first.jsonl"
    with Typist(example, home, TERM="xterm", NO_COLOR="") as person:
        assert "at 0 of 10 forward\n" + colour in person.greeting
    with Typist(example, home, TERM="xterm", NO_COLOR="1") as person:
        assert colour not in person.greeting


def test_lines_are_kept_for_the_next_session(home):
    with typist(home) as person:
        person.ask("print clock")
        person.ask("print waiters")
        person.type(END)
        assert person.ends() == 0
    assert (Path(home) / ".netrev_history").read_text().split("\n")[-3:-1] == ["print clock", "print waiters"]
    with typist(home) as person:
        person.type(UP)
        person.until("print waiters")
        person.type(UP + "\r")
        assert "clock = 0\n" in person.until(PROMPT)


@pytest.mark.parametrize("number", [signal.SIGTERM, signal.SIGHUP, signal.SIGQUIT])
def test_a_signal_leaves_the_terminal_as_it_was(home, number):
    with Typist(EXAMPLES / "first.jsonl", home) as typist:
        assert not termios.tcgetattr(typist.terminal)[3] & termios.ECHO
        assert typist.ends_by(number) == -number
        assert termios.tcgetattr(typist.terminal)[3] & termios.ECHO


def test_ctrl_c_at_the_prompt_drops_the_line(home):
    with typist(home) as person:
        person.type("stepi 3")
        person.until("stepi 3")
        person.interrupt("^C\n" + PROMPT)
        person.type("info position\r")
        assert "\nat 3" not in person.until("at 0 of 10 forward\n")


def test_a_second_ctrl_c_gives_up_a_netrev_that_does_not_answer(home):
    silent = Path(home) / "silent"
    silent.write_text("#!/bin/sh\nread line\necho at 0 of 10 forward\nexec sleep 1000\n")
    silent.chmod(0o755)
    with Typist(EXAMPLES / "first.jsonl", home, silent) as person:
        given_up = "| netrev doesn't answer: nrdb ends the session\n"
        for _ in range(PATIENCE):  # a Ctrl-C that comes before the line is sent drops the line
            person.type("stepi\r")
            for _ in range(2):
                time.sleep(0.2)
                person.type(INTERRUPT)
            if person.reads_until([given_up], 1):
                break
        person.until(given_up)
        assert person.ends() == 3


def slow(home):
    """A netrev that starts slowly, and the file that it creates at its start."""
    program, begun = Path(home) / "slow", Path(home) / "begun"
    program.write_text(
        f'#!/bin/sh\n[ "$1" = run ] && [ ! -e {begun} ] && touch {begun} && sleep 3\nexec {NETREV} "$@"\n'
    )
    program.chmod(0o755)
    return program, begun


def loading(home):
    """A user of a recording that is still being read."""
    program, begun = slow(home)
    begun.unlink(missing_ok=True)
    person = Typist(EXAMPLES / "first.jsonl", home, program)
    limit = time.monotonic() + PATIENCE
    while not begun.exists() and time.monotonic() < limit:
        time.sleep(0.05)
    time.sleep(0.5)
    person.type(INTERRUPT)
    person.until("| netrev is still reading the recording; press Ctrl-C again to end nrdb\n")
    return person


def test_one_ctrl_c_while_a_recording_is_read_ends_nothing(home):
    with loading(home) as person:
        assert "at 0 of 10 forward\n" in person.ask("info position")
        assert person.ask("stepi 2").startswith("at 2\n")


def test_a_second_one_ends_it(home):
    person = loading(home)
    person.type(INTERRUPT)
    person.until("| netrev doesn't answer: nrdb ends the session\n")
    assert person.ends() == 3
    person.__exit__()


def test_long_lines_are_broken_between_words(home):
    with Typist(EXAMPLES / "first.jsonl", home, COLUMNS="60") as person:
        result = person.ask("help until").splitlines()
        assert len(result) > 2
        assert all(len(line) <= 60 for line in result), result
        assert all(line.startswith("|     ") for line in result[1:]), result


def test_an_answer_waits_where_the_screen_is_full(home):
    with Typist(EXAMPLES / "first.jsonl", home, TERM="xterm", NO_COLOR="1") as person:
        fcntl.ioctl(person.terminal, termios.TIOCSWINSZ, struct.pack("HHHH", 20, 200, 0, 0))
        more = "--return for more, q to leave out the rest, c to go on without stopping--"
        person.type("help\r")
        assert person.until(more).count("\n| ") == 19
        person.type("\r")
        person.until(more)
        person.type("q\r")
        person.until(PROMPT)
        assert person.ask("info position").endswith("at 0 of 10 forward\n")
        person.ask("set pagination off")
        person.type("help\r")
        assert more not in person.until("| cells: ", more)


def test_ctrl_c_stops_a_walk_and_keeps_the_session(home):
    recording = Path(home) / "long.jsonl"
    pairs_of_locks(recording, 200_000)
    with typist(home, recording) as person:
        person.ask("watch lock 0")
        person.ask("continue")
        stopped = False
        while not stopped:  # a Ctrl-C that comes before the walk has begun only drops the line
            person.type("until lock 0 nonsense\r")
            person.until("nonsense\n")
            time.sleep(0.2)
            person.type(INTERRUPT)
            stopped = "interrupted" in person.until("interrupted; the session goes on\n", "^C\n" + PROMPT)
        person.until(PROMPT)
        assert "at 1 of 200001 forward\n" in person.ask("info position")
        assert "at 2 by 1\n" in person.ask("continue")
        person.type("quit\r")
        person.until("bye\n")
        assert person.ends() == 0
