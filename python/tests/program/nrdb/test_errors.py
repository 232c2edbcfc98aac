"""nrdb and its adapter answer any input and continue: numbers of any length, file names with `;`, files that are too
large, and unexpected errors."""

import io
import os
import resource
import subprocess
import sys
from pathlib import Path
from typing import Any, cast

import pytest

from netrev.session.commands import COMMANDS, parts_of
from nrdb.dap import inspection
from nrdb.dap.adapter import Adapter
from nrdb.dap.message_reader import Reading
from nrdb.dap.view.messages import EditorStreams
from nrdb.prompt.answers import ANSWERS
from nrdb.web.page_session import Running
from tests.program.support.sharing import NETREV, ROOT
from tests.support.stubs import stub

from .common.dap_client import Adapter as Editor
from .common.dap_client import RefusalError
from .common.support import EXAMPLES, NRDB, nrdb
from .editors.test_dap_port import asked, framed

FIRST = EXAMPLES / "first.jsonl"
LOST = EXAMPLES / "lost-wakeup.jsonl"
LONG = "9" * 5_000  # more digits than Python's int() takes
LINES = """steps gor {}; goto {}; list {}; history rd {}; next {}; timeline x.html {} {}; calls gor {}; explore {}; break @{}; print rd {};
    info goroutines {}; stepi {}; list a.go:{}; frame {}; finish {}; help {}; info errors {}; info holders {}; goto {}ms; until clock {};
    display rd {}; stepi 0xf{}; delete {}; commands {}; reduce x.jsonl {}""".replace(
    "\n", " "
)


def boom(*_: object) -> None:
    raise ValueError("boom\nand more")


def test_a_number_of_any_length_is_answered() -> None:
    lines = [line.strip().replace("{}", LONG) for line in LINES.split(";")]
    output = nrdb(FIRST, lines=[*lines, "goto 3"])
    assert "error in nrdb" not in output
    assert output.count("(netrev) ") == len(lines) + 1
    assert "\nat 3\n" in output


def test_the_adapter_answers_a_number_of_any_length() -> None:
    requests: list[tuple[str, dict[str, Any]]] = [
        ("readMemory", {"memoryReference": f"in {LONG}", "count": 1}),
        ("evaluate", {"expression": f"steps gor {LONG}", "context": "repl"}),
        ("evaluate", {"expression": f"lock {LONG}", "context": "hover"}),
        ("dataBreakpointInfo", {"name": f"lock {LONG}"}),
        ("setBreakpoints", {"source": {"path": str(FIRST)}, "breakpoints": [{"line": 3, "hitCondition": LONG}]}),
        (
            "setBreakpoints",
            {"source": {"path": str(FIRST)}, "breakpoints": [{"line": 3, "logMessage": f"{{lock {LONG}}}"}]},
        ),
    ]
    with Editor() as editor:
        editor.begin(str(FIRST))
        for command, arguments in requests:
            try:
                assert "error in nrdb" not in str(editor(command, **arguments))
            except RefusalError as why:
                assert "error in nrdb" not in str(why)
        assert editor("threads")["threads"]


def test_an_unexpected_error_is_one_line_and_the_session_goes_on(
    capsys: pytest.CaptureFixture[str], monkeypatch: pytest.MonkeyPatch
) -> None:
    monkeypatch.delenv("NRDB_TRACEBACK", raising=False)
    with monkeypatch.context() as patch:
        patch.setitem(cast(Any, ANSWERS), "where", boom)
        output = nrdb(FIRST, lines=["where", "goto 3"], status=3)
        assert capsys.readouterr().err == ""
        monkeypatch.setenv("NRDB_TRACEBACK", "1")
        nrdb(FIRST, lines=["where"], status=3)
    expected = (
        "| error in nrdb, not in the recording: ValueError: boom and more (set NRDB_TRACEBACK=1 to see its traceback)"
    )
    assert f"(netrev) where\n{expected}; the session goes on\n(netrev) goto 3\nat 3\n" in output
    assert "Traceback (most recent call last):" in capsys.readouterr().err


def test_an_unexpected_error_before_the_session_is_one_line(monkeypatch: pytest.MonkeyPatch) -> None:
    monkeypatch.delenv("NRDB_TRACEBACK", raising=False)
    monkeypatch.setattr("nrdb.cli.Recording.read", boom)
    assert nrdb(FIRST, status=3).splitlines() == [
        "| error in nrdb, not in the recording: ValueError: boom and more (set NRDB_TRACEBACK=1 to see its traceback)"
    ]


def test_an_unexpected_error_refuses_one_request(monkeypatch: pytest.MonkeyPatch) -> None:
    requests = (
        asked(1, "initialize"), asked(2, "launch", program=str(FIRST)), asked(3, "threads"), asked(4, "disconnect")
    )  # fmt: skip
    written = io.BytesIO()
    wire = EditorStreams(io.BytesIO(framed(*requests)), written)
    with monkeypatch.context() as patch:
        patch.setattr(inspection, "threads", boom)
        Adapter(wire, Reading(wire), NETREV).serve()
    output = written.getvalue().decode()
    assert (
        '"command": "threads", "success": false, "message": "error in nrdb, not in the recording: ValueError: boom'
        in output
    )
    assert '"command": "disconnect", "success": true' in output


def test_an_error_behind_the_response_is_told_in_the_console(monkeypatch: pytest.MonkeyPatch) -> None:
    requests = (
        asked(1, "initialize"),
        asked(2, "launch", program=str(FIRST)),
        asked(3, "configurationDone"),
        asked(4, "disconnect"),
    )
    written = io.BytesIO()
    wire = EditorStreams(io.BytesIO(framed(*requests)), written)
    with monkeypatch.context() as patch:
        patch.setattr("nrdb.dap.adapter.thread_of", boom)
        Adapter(wire, Reading(wire), NETREV).serve()
    output = written.getvalue().decode()
    assert '"category": "console", "output": "| error in nrdb' in output
    assert '"command": "disconnect", "success": true' in output


def test_an_unexpected_error_ends_no_page() -> None:
    notes: list[str] = []
    Running._guarded(stub(session=stub(printer=stub(note=notes.append))), boom)
    (note,) = notes
    assert note.startswith("error in nrdb, not in the recording: ValueError: boom and more (")


def test_a_command_that_takes_a_file_has_the_rest_of_the_line() -> None:
    taking = {name for name, command in COMMANDS.items() if "FILE" in command.usage.split() or "OUT." in command.usage}
    assert taking >= {"timeline", "trace", "reduce", "report", "source", "save"}
    for name in taking:
        assert parts_of(f"goto 3; {name} a;b.json") == ["goto 3", f"{name} a;b.json"]
    assert parts_of("goto 3;; list a.go:4 ;goto 5") == ["goto 3", "list a.go:4", "goto 5"]
    assert parts_of("tr a;b; goto 5") == ["tr a;b; goto 5"]


def test_a_file_whose_name_has_a_semicolon_is_written(tmp_path: Path) -> None:
    name = tmp_path / "a;b.json"
    nrdb("--batch", "-ex", f"trace {name}", "-ex", f"report {tmp_path / 'c;d.md'}", LOST)
    assert sorted(os.listdir(tmp_path)) == ["a;b.json", "c;d.html", "c;d.jsonl", "c;d.md"]


def test_a_recording_larger_than_memory_is_one_line(tmp_path: Path) -> None:
    large = tmp_path / "large.jsonl"
    with large.open("wb") as file:
        file.truncate(os.sysconf("SC_PHYS_PAGES") * os.sysconf("SC_PAGE_SIZE") + 1)
    expected = f"{large} is too large: nrdb keeps a recording in memory, and there isn't enough"
    assert nrdb(large, status=3) == f"| {expected}\n"


def test_a_recording_larger_than_what_is_allowed_is_one_line(tmp_path: Path) -> None:
    large = tmp_path / "large.jsonl"
    with large.open("wb") as file:
        file.truncate(2**31)
    script = "import sys; from netrev.recording.recording import Recording, NotARecordingError\n"
    script += "try: Recording.read(sys.argv[1])\nexcept NotARecordingError as why: print(why)"
    run = subprocess.run(
        [sys.executable, "-c", script, str(large)], env=os.environ | {"PYTHONPATH": str(ROOT / "python")}, text=True,
        capture_output=True, timeout=60, check=False, preexec_fn=lambda: resource.setrlimit(resource.RLIMIT_AS, (2**30, 2**30)),
    )  # fmt: skip
    assert (run.stdout, run.stderr) == (
        f"{large} is too large: nrdb keeps a recording in memory, and there isn't enough\n",
        "",
    )


def test_a_file_that_cannot_be_written_is_a_line_and_the_earlier_file_stays(tmp_path: Path) -> None:
    lines = {"timeline t.html": "t.html", "trace t.json": "t.json", "trace t.gz": "t.gz", "report t.md lock 0 *": "t-2.html", "save breakpoints t": "t"}  # fmt: skip
    for name in ("t.html", "t.json", "t.gz", "t.md", "t"):
        (tmp_path / name).write_text("earlier")
    marks = [f"watch {cell} 0" for cell in ("lock", "rg", "wg", "rd", "wd", "info", "fdseq", "gor")] * 8
    words = [word for line in (*marks, *lines) for word in ("-ex", line)]
    limited: list[str | Path] = ["sh", "-c", 'ulimit -f 1; exec "$@"', "sh", NRDB, "--netrev", NETREV, "--batch", *words, EXAMPLES / "cancelled-read.jsonl"]  # fmt: skip
    ended = subprocess.run(limited, cwd=tmp_path, capture_output=True, text=True, check=False)
    assert (ended.returncode, ended.stderr) == (0, "")
    assert [line for line in ended.stdout.splitlines() if "File too large" in line] == [f"| {name}: File too large" for name in lines.values()]  # fmt: skip
    assert {path.read_text() for path in tmp_path.iterdir() if path.name not in ("t-2.jsonl",)} == {"earlier"}
    status = subprocess.run([*limited[:7], "--timeline", "t.html", limited[-1]], cwd=tmp_path, capture_output=True).returncode  # fmt: skip
    assert status == 3
