"""The text of recordings: steps are found by number, whatever lines are between them. Other tests are about the holders
of references in small recordings."""

import itertools
import json
import tempfile
from pathlib import Path

from netrev.connection.world import opened_by
from netrev.recording.recording import Recording
from netrev.text.line_starts import LineStarts

from .common.support import events, recordings

HEADER = '{"netrev":1,"gor":4,"sock":2,"desc":2,"buf":16}'


def by_reading(data):
    """The steps, found by reading each line: number, line, kind, arguments and the answer, which version 1 doesn't
    have."""
    lines = [(number, line) for number, line in enumerate(data.split(b"\n"), 1) if line.strip(b" \t\r")]
    is_second = json.loads(lines[0][1])["netrev"] == 2
    for step, (line, text) in enumerate(lines[1:], 1):
        kind, *arguments = json.loads(text)
        answer = arguments.pop() if is_second else None
        yield step, line, kind, tuple(arguments), answer


def spellings(data):
    """The same recording with other blanks and spellings."""
    yield data
    yield data.rstrip(b"\n")
    yield b"\n \n" + data.replace(b"]\n", b"]\r\n\n \t\n")
    yield data.replace(b",", b" , ").replace(b"[", b" [ ")
    yield data.replace(b'"rwlock"', b'"\\u0072wlock"')


def test_steps_by_number_kind_and_socket():
    for path in recordings():
        for way, data in enumerate(spellings(path.read_bytes())):
            recording, steps = Recording(data), list(by_reading(data))
            assert recording.length == len(steps), (path.stem, way)
            for step in steps:
                assert recording.step(step[0]) == step, (path.stem, way)
            for until in (0, 1, 5, len(steps), len(steps) + 9):
                for socket in (None, 0, 1, 3):
                    result = [step.number for step in recording.steps_of(("rwlock", "incref"), until, socket)]
                    wanted = [
                        number
                        for number, _, kind, arguments, _ in steps[:until]
                        if kind in ("rwlock", "incref") and socket in (None, arguments[1])
                    ]
                    assert result == wanted, (path.stem, way)


def test_lines_that_are_counted_in_pieces(monkeypatch):
    texts = [b"", b"\n", b"\n\n", HEADER.encode(), *(path.read_bytes()[:2000] for path in recordings())]
    for size in (1, 2, 7, 64):
        with monkeypatch.context() as patch:
            patch.setattr("netrev.text.line_starts.BLOCK", size)
            for text in texts:
                recording, lines = Recording(text), text.split(b"\n")
                numbers = range(1, len(lines) + 1)
                assert [recording.line(number) for number in numbers] == lines
                assert [recording.line(number) for number in reversed(numbers)] == lines[::-1]
                assert recording.line(len(lines) + 1) == b""
                places = range(len(text) + 1)
                at = [LineStarts(text).line_at(place) for place in places]
                assert at == [text.count(b"\n", 0, place) + 1 for place in places]


def test_open_descriptors_are_found_though_a_kind_is_spelled_with_escapes(monkeypatch):
    steps = ['["sockopen",16,16]', '["pollopen",0,0]', '["pollopen",0,0]', '["pollclose",0,0]', '["pollopen",0,0]']
    texts = ["\n".join([HEADER, *steps, ""]), "\n".join([HEADER, *steps, ""]).replace("pollo", "\\u0070ollo")]
    for text, (block, piece) in itertools.product(texts, ((16_384, 256), (4, 2), (4, 1), (2, 2), (1, 1))):
        recording = Recording(text.encode())
        with monkeypatch.context() as patch:
            patch.setattr("netrev.connection.world.BLOCK", block)
            patch.setattr("netrev.connection.world.PIECE", piece)
            found = [opened_by(recording, position) for position in (5, 0, 3, 1, 2, 4, 5)]
        assert found[1:4:2] == [({}, 0), ({}, 0)]
        assert found[4] == ({0: 0}, 1)
        assert found[2] == ({0: 0, 1: 0}, 2)
        assert found[5] == ({1: 0}, 0)
        assert (found[0], found[6]) == (({1: 0, 0: 0}, 2), ({1: 0, 0: 0}, 2))


def test_without_steps():
    for data in (b"", b"\n\n", HEADER.encode()):
        recording = Recording(data)
        assert (recording.length, recording.step_or_none(1)) == (0, None)
        assert list(recording.steps_of(("spawn",), 9)) == []


def holders(*steps):
    """The holders of references to socket 0 after these steps of three goroutines, each with the step at which it
    took the reference, and the rest of the answer."""
    made = ['["spawn"]', '["spawn"]', '["sockopen",16,16]']
    with tempfile.TemporaryDirectory() as folder:
        file = Path(folder) / "steps.jsonl"
        file.write_text("\n".join([HEADER, *made, *steps]) + "\n")
        reports = events(file, ["stepi 99", "info holders 0"])[-1]
    assert reports["topic"] == "holders"
    return [(row["goroutine"], row["step"] - len(made)) for row in reports["rows"]], reports["rest"]


def test_a_reference_is_given_up_by_whom_took_it():
    held, rest = holders('["incref",0,0]', '["incref",1,0]', '["incref",0,0]', '["decref",0,0]')
    assert held == [(0, 1), (1, 2)]
    assert rest == "lock 0 = 16: 2 references; 2 holders"
    held, _ = holders('["incref",0,0]', '["incref",1,0]', '["decref",0,0]')
    assert held == [(1, 2)]


def test_one_who_took_none_gives_up_another_s():
    held, rest = holders('["incref",0,0]', '["incref",1,0]', '["decref",2,0]')
    assert held == [(0, 1)]
    assert rest == "lock 0 = 8: 1 reference; 1 holder"


def test_locks_and_closing():
    lock, unlock = '["rwlock",{},0,"r"]', '["rwunlock",{},0,"r"]'
    held, rest = holders(lock.format(0), lock.format(1), '["incref",2,0]')
    assert (held, rest) == ([(0, 1), (2, 3)], "lock 0 = 8388626: read lock, 2 references, 1 waiting to read; 2 holders")
    closed = ['["increfclose",2,0]', '["release",2]', '["incref",2,0]']
    held, rest = holders(lock.format(0), lock.format(1), *closed)
    assert (held, rest) == ([(0, 1), (2, 3)], "lock 0 = 19: closed, read lock, 2 references; 2 holders")
    held, rest = holders(lock.format(0), '["increfclose",2,0]', unlock.format(0), '["decref",2,0]')
    assert (held, rest) == ([], "lock 0 = 1: closed, 0 references; 0 holders")
