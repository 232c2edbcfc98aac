"""Servers that aren't netrev, or that don't answer, and recordings, headers, replies and values with control
characters: nrdb reports the problem in a sentence, and escapes those characters."""

import contextlib
import io
import json
import socket
import subprocess
import sys
import tempfile
import threading
import unicodedata
from collections.abc import Callable, Iterator
from pathlib import Path

import pytest

from netrev.connection.output import TextPrinter
from netrev.messages.session import NO_REPLY_YET
from netrev.text.plain import plain
from nrdb.cli import main

ROOT = Path(__file__).resolve().parents[3]
FIRST = ROOT / "examples/first.jsonl"
POSITION = b"at 5 of 10 forward\n"
# characters that control a terminal or can't be seen: control characters, including those of the upper half, marks that
# change the writing direction, and invisible characters
OBEYED = ("\x1b[2J", "\x07", "\r", "\x7f", "\x9b2J", "\u202e", "\u2066", "\u2028", "\u200b", "\ufeff")
UNSEEN = ("Cc", "Cf", "Cs", "Cn", "Co", "Zl", "Zp")  # categories of characters
ASKED: tuple[str, ...] = (
    "continue",
    "print lock 0",
    "print gor 0",
    "dump rq 0",
    "info breakpoints",
    "info goroutines",
    "info sockets",
)
ASKED += ("watch lock 0", "info timers", "info descriptors", "info holders 0", "where", "list", "goto 3", "resume")
ASKED += (
    "next",
    "finish 0",
    "info errors",
    "calls",
    "steps gor 0",
    "commands",
    "until lock 0 * and gor 0 *",
    "goto 2; where",
)
Answers = Callable[[bytes], bytes]


def unseen(text: str) -> list[str]:
    """The characters of a text, except newlines, that control a terminal or can't be seen."""
    return [character for character in text if unicodedata.category(character) in UNSEEN and character != "\n"]


def nrdb(*words: object) -> tuple[int, str]:
    """The exit status of nrdb with these arguments, and its output on both streams."""
    output = io.StringIO()
    with contextlib.redirect_stdout(output), contextlib.redirect_stderr(output):
        try:
            status = main([str(word) for word in words])
        except SystemExit as ended:
            status = int(ended.code or 0)
    return status, output.getvalue()


@contextlib.contextmanager
def server(answers: Answers) -> Iterator[str]:
    """The address of a server that answers each line with this text, and doesn't answer if it is empty."""

    def serve() -> None:
        with contextlib.suppress(OSError):
            caller, _ = listening.accept()
            with caller, caller.makefile("rb") as lines:
                for line in lines:
                    caller.sendall(answers(line.rstrip(b"\n")))

    with socket.socket() as listening:
        listening.bind(("127.0.0.1", 0))
        listening.listen()
        thread = threading.Thread(target=serve, daemon=True)
        thread.start()
        yield f"127.0.0.1:{listening.getsockname()[1]}"
        with contextlib.suppress(OSError):
            listening.shutdown(socket.SHUT_RDWR)
        thread.join(10)


def joined(answers: Answers, *more: object, request: tuple[str, ...] = ASKED) -> tuple[int, str]:
    """nrdb's output about a server that answers in this way."""
    with server(answers) as address:
        return nrdb("--join", address, FIRST, "--batch", *(word for line in request for word in ("-ex", line)), *more)


def behind_position(answer: bytes) -> Answers:
    """Answers `info position` as netrev does, and answers everything else with this text."""
    return lambda line: POSITION if line == b"info position" else answer


PACKAGES = Path(__file__).resolve().parents[2]


ANSWERS = {
    "other words": b"hello\n",
    "nothing": b"\n",
    "a page": b"HTTP/1.0 400 Bad Request\r\n\r\n",
    "a position alone": b"at 999999\n",
    "a position that isn't there": b"at 9999999999999999999999\n",
    "marks that never stood": b"at 5 by 1 2 3\n",
    "digits without end": b"at " + b"9" * 5000 + b"\n",
    "more marks than stand": b"marks 99\n" + b"1 break x\n" * 99,
    "marks by the million": b"marks 99999999\n",
    "marks of other shape": b"marks 1\nnonsense\n",
    "bytes that are no text": b"at \xff\xfe\x80\n",
    "a value of something else": b"rg 7 = nil\n",
    "a value that isn't one": b"lock 0 = </script><img src=x>\n",
    "a fault": b"fault 999 whatever\n",
}


def test_each_stranger_is_told_in_a_sentence() -> None:
    for name, answer in ANSWERS.items():
        for request in (ASKED, *((line,) for line in ASKED)):
            status, text = joined(behind_position(answer), request=request)
            assert status in (0, 3), (name, request)
            assert "Traceback" not in text, (name, request)
            assert unseen(text) == [], (name, request)


def test_who_isnt_netrev_is_called_so() -> None:
    for answer in (b"220 mail.example ESMTP\n", b"\n", b"at 5\n", b"at 5 of 10 sideways\n", b"x" * 70 + b"\n"):
        status, text = joined(lambda _: answer)
        shown = answer.decode().rstrip()
        shown = shown if len(shown) <= 60 else f"{shown[:58]}.."
        assert (status, text) == (3, f'| the other program isn\'t netrev: it answered "info position" with "{shown}"\n')


def test_a_reply_without_an_end_is_cut(monkeypatch: pytest.MonkeyPatch) -> None:
    with monkeypatch.context() as patch:
        patch.setattr("netrev.connection.netrev.LONGEST", 100_000)
        status, text = joined(lambda _: b"a" * 1_000_000)
    right = f'| the other program isn\'t netrev: it answered "info position" with "{"a" * 58}.."\n'
    assert (status, text) == (3, right)


def test_a_front_in_use_is_waited_for_aloud(monkeypatch: pytest.MonkeyPatch) -> None:
    there = threading.Event()

    def late(line: bytes) -> bytes:
        there.wait(10)
        return POSITION if line == b"info position" else b"fault 201 unknown command\n"

    notes: list[str] = []

    def note(_: TextPrinter, text: str) -> None:
        if text == NO_REPLY_YET:
            there.set()
        notes.append(text)

    monkeypatch.setattr(TextPrinter, "note", note)
    monkeypatch.setattr("netrev.connection.netrev.SILENCE", 0.05)
    status, _ = joined(late, request=())
    assert (status, notes[0]) == (0, NO_REPLY_YET)
    assert there.is_set()


def test_it_isnt_waited_for(folder: Path) -> None:
    program = folder / "netrev"
    program.write_text("#!/bin/sh\ncat > /dev/null\necho a fault\nexit 1\n")
    program.chmod(0o755)
    asks = f"from nrdb.cli import fault_of; print(fault_of({str(program)!r}, 'x'))"
    words = [sys.executable, "-c", asks]
    with subprocess.Popen(words, stdin=subprocess.PIPE, stdout=subprocess.PIPE, cwd=PACKAGES) as request:
        try:
            assert request.wait(timeout=60) == 0
        finally:
            request.kill()
        assert request.stdout
        assert request.stdout.read() == b"a fault\n"


LINES = (b"garbage", b"5", b"[]", b'{"a":1}', b'[["rwlock",0,0,"r"]]', b"\xff\xfe", b"[1,2]", b"null", b"[" * 9000)


def test_each_file_that_is_no_recording_is_told_in_a_sentence(folder: Path) -> None:
    header = b'{"netrev":1,"gor":4,"sock":2,"desc":2,"buf":16}'
    request = tuple(word for line in ASKED for word in ("-ex", line))
    file = folder / "x.jsonl"
    for line in LINES:
        for text in (b"\n".join([header, *[line] * 10]), b"\n".join([line, *[b'["spawn"]'] * 10])):
            file.write_bytes(text + b"\n")
            with server(behind_position(b"at 5\n")) as address:
                status, output = nrdb("--netrev", "/nowhere", "--join", address, file, "--batch", *request)
                if text.startswith(header):
                    assert "the file isn't a recording: " in output.splitlines()[-1], text[:60]
                    assert status == 3, text[:60]
                assert unseen(output) == [], text[:60]


def test_what_can_be_seen_stays() -> None:
    for text in ("", "at 5 of 10 forward", 'sock 0: "äöü" | é 漢字 \\'):
        assert plain(text) == text


def test_all_else_is_written_out() -> None:
    for text, shown in zip(
        OBEYED,
        (r"\x1b[2J", r"\x07", r"\r", r"\x7f", r"\x9b2J", r"\u202e", r"\u2066", r"\u2028", r"\u200b", r"\ufeff"),
    ):
        assert plain(f"a{text}b") == f"a{shown}b"
    assert plain("\n\t\xa0\ud800\udc9b\U000e0041") == r"\n\t\xa0\ud800\x9b\U000e0041"


def test_replies_and_values_of_a_server() -> None:
    for text in OBEYED:
        raw = text.encode()
        for answer in (raw, b"at 5" + raw, b"lock 0 = " + raw, b"marks 1\n1 watch " + raw, b"fault 202 " + raw):
            for form in ((), ("--json",)):
                _, message = joined(behind_position(answer + b"\n"), *form, request=("continue", "print lock 0"))
                assert unseen(message) == [], (text, answer, form)
                _, message = joined(lambda _: answer + b"\n", *form)
                assert unseen(message) == [], (text, answer, form)


def test_the_text_of_a_recording_that_a_server_has_another_of() -> None:
    """In a joined session, netrev has never read the file."""
    for text in OBEYED:
        spelled = json.dumps(text)[1:-1]
        steps = [f'["{spelled}",0]', f'["rwlock",0,0,"{spelled}"]', f'["tick",0,"{spelled}"]'] * 4
        with tempfile.TemporaryDirectory() as folder:
            file = Path(folder) / "x.jsonl"
            file.write_text("\n".join(['{"netrev":2}', *steps[:10]]) + "\n")
            answers = behind_position(b"at 5\n")
            with server(answers) as address:
                request = ("--batch", "-ex", "list", "-ex", "where", "-ex", "stepi")
                _, output = nrdb("--netrev", "/nowhere", "--join", address, file, *request)
        assert unseen(output) == []
        assert "next step 6" in output


def test_words_of_the_command_line() -> None:
    for text in OBEYED:
        named: tuple[object, ...] = ("--netrev", text, FIRST)
        for words in (("--join", text), (f"--{text}",), named, (f"no{text}", "--batch")):
            status, output = nrdb(*words)
            assert status in (2, 3)
            assert unseen(output) == []


@pytest.mark.parametrize(
    "does, note",
    [
        ("exec yes", ": it answered"), ("echo a; exit 77", ": it answered"), ("cat", ": it answered"), ("exit 1", "netrev has ended"),
        ("exit 77", "netrev has ended"), ("kill -9 $$", "netrev has ended"), ("echo at 0 of 10 forward; read line; exit 77", None),
    ],
)  # fmt: skip
def test_a_program_that_isnt_netrev_has_one_status(does: str, note: str | None, folder: Path) -> None:
    program = folder / "netrev"
    program.write_text(f"#!/bin/sh\n{does}\n")
    program.chmod(0o755)
    status, output = nrdb("--netrev", program, "--batch", FIRST)
    assert (status, note is None or note in output.splitlines()[-1]) == (3, True)


def test_a_recording_may_be_named_as_an_option_is(folder: Path, monkeypatch: pytest.MonkeyPatch) -> None:
    monkeypatch.chdir(folder)
    Path("-x.jsonl").write_bytes(FIRST.read_bytes())
    Path("netrev").write_text('#!/bin/sh\n[ "$2" = ./-x.jsonl ] && echo at 0 of 10 forward && cat\n')
    Path("netrev").chmod(0o755)
    assert nrdb("--netrev", "./netrev", "--batch", "--", "-x.jsonl")[1].startswith("at 0 of 10 forward\n")
