"""NAME.where with any contents: nrdb uses it, or rejects it with the reason. Files are written atomically, and never
over the recording."""

import json
import os
import tempfile
import time
from pathlib import Path
from typing import Any

import pytest

from netrev.recording.recording import NotARecordingError, Recording
from netrev.recording.waits import Name, name_of_goid, waits_of
from netrev.recording.where import MOST_BYTES, MOST_LINE, SourceLines
from netrev.session.files import written
from netrev.session.session import UsageError
from netrev.text.files import end_of_page, has, is_page_of, unused, whole, written_together, written_whole

FIRST = {"where": 1, "steps": 2}
CALL = {"call": 1, "function": "main.main", "file": "main.go", "line": 3, "of": "program"}
STACK = {"stack": 1, "calls": [1]}
STEPS = {"step": 1, "stacks": [1, 0]}
GOOD: list[Any] = [FIRST, CALL, STACK, STEPS]
SAID = "is malformed"

# the number of a line, counted from 0, its replacement, and the message about the changed file
WRONG: tuple[tuple[int, Any, str], ...] = (
    (0, [], SAID), (0, {}, SAID), (0, {"where": 3, "steps": 2}, "another version"),
    (0, {"where": [], "steps": 2}, "another version"), (0, 7, SAID),
    (0, {"where": 1, "steps": 3}, "a recording of 3 steps, and this one has 2"), (0, {"where": 1, "steps": "\x1b"}, SAID),
    (1, CALL | {"of": []}, SAID), (1, CALL | {"of": {}}, SAID), (1, CALL | {"line": "3"}, SAID),
    (1, CALL | {"line": True}, SAID), (1, CALL | {"function": None}, SAID), (1, {"call": 1}, SAID),
    (1, CALL | {"call": []}, SAID), (1, "call", SAID), (1, None, SAID),
    (2, {"stack": 1, "calls": [2]}, SAID), (2, {"stack": 1, "calls": 1}, SAID), (2, {"stack": [], "calls": []}, SAID),
    (2, {"stack": 1, "calls": [1], "made": 9}, SAID), (2, {"stack": 1}, SAID),
    (3, {"step": 1, "stacks": [1.5, {}]}, SAID), (3, {"step": 1, "stacks": 1}, SAID), (3, {}, SAID),
    (3, {"orders": [[1]]}, SAID), (3, {"orders": [[1, "2"]]}, SAID), (3, {"orders": 1}, SAID), (3, {"orders": [[1.0, 2]]}, SAID),
    (3, {"times": [7, -1]}, SAID), (3, {"times": [7, "1"]}, SAID), (3, {"times": [7, 1.5]}, SAID), (3, {"times": 7}, SAID),
    (3, {"times": [2**63, 1]}, SAID), (3, {"times": [True, 1]}, SAID),
)  # fmt: skip
# lines, as bytes, each of which makes the file malformed
NO_JSON: tuple[bytes, ...] = (
    b"{", b"[" * 200_000, b'{"a":' * 200_000, b"9" * 5_000, b"", b'{"step":1,"stacks":[1' + b"0" * 5_000 + b"]}",
    b" " * MOST_LINE + b"1",
)  # fmt: skip


class Files:
    """A recording, and the file of lines beside it."""

    def __init__(self, folder: Path) -> None:
        self.recording = folder / "x.jsonl"
        self.recording.write_text('{"netrev":1,"gor":1,"sock":1,"desc":1,"buf":16}\n["tick",1]\n["tick",2]\n')
        self.file = self.recording.with_suffix(".where")

    def lines(self) -> SourceLines:
        return Recording.read(str(self.recording)).lines

    def fault(self, data: bytes) -> str:
        """The message about a file with these contents; checks that nrdb doesn't use a file with a fault."""
        self.file.write_bytes(data)
        lines = self.lines()
        if lines.fault:
            assert not lines
            assert (len(lines.stacks), lines.orders, lines.words(1)) == (1, None, "")
        return lines.fault


@pytest.fixture
def files(folder: Path) -> Files:
    return Files(folder)


def test_one_of_its_form_is_used(files: Files) -> None:
    assert files.fault(text_of(GOOD)) == ""
    assert files.lines().words(1) == "main.go:3 main.main"
    files.file.unlink()
    assert files.lines().fault == ""


def test_tests_and_bytes_are_known(files: Files) -> None:
    more = [{"bytes": 64}, {"test": "TestX/part", "package": "p", "steps": [1, 1]}]
    assert files.fault(text_of([*GOOD, *more])) == ""
    lines = files.lines()
    assert (lines.bytes, lines.tests_at(1), lines.tests_at(2)) == (64, ["p TestX/part"], [])
    for wrong in ({"bytes": "64"}, {"test": 1, "package": "p", "steps": [1, 1]}, {"test": "T", "package": "p"}):
        assert SAID in files.fault(text_of([*GOOD, *more, wrong]))
        assert (files.lines().bytes, files.lines().tests_at(1)) == (None, [])
    for steps in ([1], [1, "1"], 7):
        assert SAID in files.fault(text_of([*GOOD, {"test": "T", "package": "p", "steps": steps}]))


def test_a_number_that_several_goroutines_had_is_the_one_s_that_has_it_at_the_step(files: Files) -> None:
    of_go = [[42, -1, 0, 0, 0, 1, 5, 6], [99, 3, 0, 0, 0, -1, 5, -1], [7, 4, 0, 0, 0, -1, 5, -1]]
    parks = [
        [99, 0, 1, 5, 6, "a select", 1, 42, []],
        [99, 2, -1, 7, -1, "a select", 1, 0, []],
        [42, 0, 1, 5, 6, "a select", 1, 0, []],
    ]
    more = [{"taken": [[3, 0, 42], [3, 1, 99]]}, {"goroutines": of_go}, {"parks": parks}]
    assert files.fault(text_of([FIRST | {"where": 2}, *GOOD[1:], *more])) == ""
    recording = Recording.read(str(files.recording))
    lines = recording.lines
    assert [lines.goid_of(3, step) for step in (0, 1, 2)] == [42, 42, 99]
    assert (lines.goid_of(3), lines.goid_of(4, 1), lines.goid_of(4)) == (99, 7, 7)
    names = [str(name_of_goid(lines, goid, step)) for goid in (42, 99, 7) for step in (1, 2, None)]
    own, seven = "goroutine 3", ["goroutine 4"] * 3
    assert names == [own, "goid 42", "goid 42", "goid 99", own, own, *seven]
    waits = waits_of(recording).of
    spans = {str(name): [(wait.first, wait.last) for wait in some] for name, some in waits.items()}
    assert spans == {"goid 99": [(0, 1)], own: [(0, 1), (2, None)]}
    assert str(waits[Name(99, True)][0].by) == own
    for wrong in ([[3, 0]], [[3, 0, "42"]], 7, [[3, 0, 42, 1]]):
        assert SAID in files.fault(text_of([*GOOD, {"taken": wrong}]))
        assert files.lines().owners == {}


def test_one_that_is_not_is_not_used_and_that_is_said(files: Files) -> None:
    for place, value, text in WRONG:
        lines = list(GOOD)
        lines[place] = value
        fault = files.fault(text_of(lines))
        assert text in fault, value
        assert fault.isprintable(), value
        assert text != SAID or fault.startswith(f"line {place + 1} "), fault
    for data in NO_JSON:
        assert SAID in files.fault(text_of(GOOD[:3]) + data + b"\n"), data[:20]
    for beginning in (b"", text_of(GOOD)):
        assert files.fault(beginning + b"\xff") == "it isn't text"
    text = files.lines().why_unused(str(files.recording))
    assert text.startswith(
        "x.where isn't used: it isn't text. The recording works without it; docs/reference/RECORDING.md"
    ), text


def test_what_is_no_file_is_not_waited_for(files: Files) -> None:
    begun = time.monotonic()
    os.mkfifo(files.file)
    assert files.lines().fault == "it isn't a regular file"
    files.file.unlink()
    files.file.symlink_to("/dev/zero")
    assert files.lines().fault == "it isn't a regular file"
    files.file.unlink()
    files.file.mkdir()
    assert files.lines().fault == "it isn't a regular file"
    files.file.rmdir()
    files.file.symlink_to(files.file)
    assert "symbolic link" in files.lines().fault
    files.file.unlink()
    with open(files.file, "wb") as sparse:
        sparse.truncate(MOST_BYTES + 1)
    assert files.lines().fault == "it is larger than 64 MB"
    assert time.monotonic() - begun < 5


def test_a_recording_that_can_be_read_once_alone_is_refused(files: Files) -> None:
    pipe = files.recording.with_name("pipe")
    os.mkfifo(pipe)
    for path in (pipe, "/dev/zero"):
        with pytest.raises(NotARecordingError, match="isn't a regular file: nrdb reads a recording twice"):
            Recording.read(str(path))
    for path in ("a\0b", "\ud800"):
        with pytest.raises(OSError, match="no file can have that name"):
            Recording.read(path)


def test_a_file_is_written_whole_or_not_at_all(folder: Path) -> None:
    path, link = folder / "a", folder / "b"
    path.write_text("before")
    link.symlink_to(path)
    with pytest.raises(KeyboardInterrupt), whole(path) as file:
        file.write("after")
        raise KeyboardInterrupt
    assert (path.read_text(), sorted(os.listdir(folder))) == ("before", ["a", "b"])
    written_whole(link, b"after")
    assert (path.read_text(), link.is_symlink(), len(os.listdir(folder))) == ("after", True, 2)
    for name in ("nowhere/x", "", "a/x", "x" * 300, "a\0b"):
        with pytest.raises(OSError) as failed:
            written_whole(folder / name if name else folder, b"")
        assert failed.value.strerror and failed.value.filename
    assert sorted(os.listdir(folder)) == ["a", "b"]


def test_what_is_open_is_written_to_as_it_is() -> None:
    with tempfile.TemporaryFile() as file:
        written_whole(Path(f"/dev/fd/{file.fileno()}"), b"after")
        assert file.read() == b"after"
    reading, writing = os.pipe()
    written_whole(Path(f"/dev/fd/{writing}"), b"after")
    assert os.read(reading, 9) == b"after"
    os.close(reading)
    os.close(writing)


def test_the_recording_is_never_written_over(folder: Path) -> None:
    path, other = folder / "a.jsonl", folder / "b.jsonl"
    path.write_text("steps")
    path.with_suffix(".where").write_text("lines")
    other.symlink_to(path)
    for name in (path, other, path.with_suffix(".where")):
        with pytest.raises(UsageError, match="is the recording itself, or its NAME.where"):
            written(str(path), {str(folder / "c"): b"page", str(name): b"page"})
    written(str(path), {str(folder / "c"): b"page"})
    assert (path.read_text(), (folder / "c").read_text()) == ("steps", "page")


def test_a_name_that_nobody_typed_is_free_or_has_the_same_contents(folder: Path) -> None:
    recording, base = b"steps", folder / "a"
    endings = {".jsonl": has(recording), ".html": is_page_of(recording), ".where": has(b"")}
    assert unused(base, endings) == base
    (folder / "a.jsonl").write_bytes(recording)
    (folder / "a.html").write_text(f"page{end_of_page(recording)}")
    assert unused(base, endings) == base
    assert unused(base, endings, 3) == folder / "a-3"
    (folder / "a-2.jsonl").symlink_to("a.jsonl")
    (folder / "a-3.jsonl").symlink_to("nowhere")
    (folder / "a-4.html").write_text(f"page{end_of_page(b'other steps')}")
    (folder / "a-5.html").mkdir()
    (folder / "a-6.jsonl").write_bytes(b"Steps")
    for name in ("a.where", "a-7.where"):
        (folder / name).write_text("")
    assert unused(base, endings) == folder / "a-8"


def test_files_are_written_together_or_none_of_them(folder: Path) -> None:
    for name in "ab":
        (folder / name).write_text("before")
    with pytest.raises(OSError) as failed:
        written_together({folder / "a": b"after", folder / "none/c": b"after", folder / "b": b"after"})
    assert failed.value.filename == str(folder / "none/c")
    assert [(name, (folder / name).read_text()) for name in sorted(os.listdir(folder))] == [
        ("a", "before"),
        ("b", "before"),
    ]


def text_of(lines: list[Any]) -> bytes:
    return "".join(f"{json.dumps(line)}\n" for line in lines).encode()


def test_the_time_at_which_the_lines_were_written(tmp_path: Path) -> None:
    name = tmp_path / "a.where"
    name.write_text('{"where":2,"steps":3}\n')
    os.utime(name, (1_000, 2_000))
    lines = SourceLines.beside(str(tmp_path / "a.jsonl"), 3)
    assert (lines.written, lines.fault) == (2_000, "")
