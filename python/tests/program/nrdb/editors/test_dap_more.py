"""`nrdb --dap`: log messages, hit counts, Go files, the bytes of a buffer, shared sessions, and a pause during a
move."""

import base64
import re
import time
from contextlib import ExitStack
from pathlib import Path
from typing import Any

import pytest

from tests.program.nrdb.common.dap_client import Adapter, RefusalError
from tests.program.nrdb.common.support import EXAMPLES
from tests.program.nrdb.sessions.test_join import FIRST, Other, serving
from tests.program.nrdb.sessions.test_terminal import pairs_of_locks

pytestmark = pytest.mark.together

LOST = str(EXAMPLES / "lost-wakeup.jsonl")
HIJACKED = EXAMPLES / "real/hijacked.jsonl"
SAMPLE = EXAMPLES.parent / "tools/go/samples/hijacked"
SOON = 0.5  # seconds
LONG = 999_998  # steps after the first


@pytest.fixture
def editor(cleanups: ExitStack) -> Adapter:
    editor = Adapter()
    cleanups.callback(editor.__exit__)
    return editor


def moves(editor, way):
    """Makes a move, and returns the reason for its stop and the console's text up to then."""
    editor.events.clear()
    editor(way, threadId=1)
    result = ""
    while True:
        while editor.events:
            event = editor.events.pop(0)
            if event["event"] == "stopped":
                editor.thread = event["body"]["threadId"]
                return event["body"], result
            result += event["body"].get("output", "") if event["event"] == "output" else ""
        message = editor.message()
        assert message is not None
        editor.events.append(message)


def test_a_message_is_told_and_nothing_stops(editor):
    editor.begin(LOST, stopAt="start")
    wanted = [{"line": 9, "logMessage": "rg 0 is {rg 0} at {position}"}, {"line": 19}]
    mark = editor("setBreakpoints", source={"path": LOST}, breakpoints=wanted)["breakpoints"]
    assert [item["verified"] for item in mark] == [True, True]
    stopped, result = moves(editor, "continue")
    assert (stopped["reason"], stopped["hitBreakpointIds"]) == ("breakpoint", [mark[1]["id"]])
    assert "| at 7: rg 0 is wait at 7\n" in result
    stopped, result = moves(editor, "reverseContinue")
    assert stopped["description"] == "the recording's start"
    assert "| at 7: rg 0 is wait at 7\n" in result
    assert editor("evaluate", expression="info breakpoints", context="repl")["result"].count("\n") == 1
    wrong = [{"line": 9, "logMessage": "{nothing}"}]
    (refused,) = editor("setBreakpoints", source={"path": LOST}, breakpoints=wrong)["breakpoints"]
    assert "isn't a cell" in refused["message"]
    assert "at 7: rg" not in moves(editor, "continue")[1]


def test_times_are_counted_from_the_start_both_ways(editor):
    editor.begin(LOST, stopAt="start")
    wanted = [{"name": "blockarm", "hitCondition": "2"}]
    (mark,) = editor("setFunctionBreakpoints", breakpoints=wanted)["breakpoints"]
    assert mark["verified"]
    assert moves(editor, "continue")[0]["reason"] == "function breakpoint"
    assert editor.line() == 21  # the second breakpoint; the first is in line 8
    assert moves(editor, "continue")[0]["description"] == "the recording's end"
    assert moves(editor, "reverseContinue")[0]["hitBreakpointIds"] == [mark["id"]]
    editor("setFunctionBreakpoints", breakpoints=[])
    changed = [{"dataId": "rg 0", "hitCondition": "% 4"}]
    editor("setDataBreakpoints", breakpoints=changed)
    editor("restart")
    editor.stopped()
    places = []
    for _ in range(3):
        moves(editor, "continue")
        places.append(editor.line())
    # positions 12 and 22, which are the fourth and the eighth change; and the end
    assert places == [14, 23, 23]
    wrong = [{"name": "blockarm", "hitCondition": "often"}]
    (refused,) = editor("setFunctionBreakpoints", breakpoints=wrong)["breakpoints"]
    assert "isn't a hit count" in refused["message"]


def test_a_message_and_times_at_a_line_of_the_program(editor):
    main = {"path": str(SAMPLE / "main.go")}
    editor.begin(str(HIJACKED), stopAt="start", source="go", sourceRoot=str(SAMPLE))
    reached = editor("gotoTargets", source=main, line=39)["targets"]
    assert len(reached) > 1
    wanted = [{"line": 39, "logMessage": "here"}, {"line": 39, "hitCondition": "2"}]
    mark = editor("setBreakpoints", source=main, breakpoints=wanted)["breakpoints"]
    assert [item["verified"] for item in mark] == [True, True]
    stopped, result = moves(editor, "continue")
    assert stopped["description"] == f"at {reached[1]['id']}"
    assert result.count(": here\n") == 2


def test_bytes_of_a_buffer():
    with Adapter() as editor:
        editor.begin(LOST)
        frame = editor("stackTrace", threadId=1)["stackFrames"][0]["id"]
        scopes = {
            scopesscope["name"]: scopesscope["variablesReference"]
            for scopesscope in editor("scopes", frameId=frame)["scopes"]
        }
        rows = editor("variables", variablesReference=scopes["socket 0"])["variables"]
        named = {row["name"]: row["memoryReference"] for row in rows if "memoryReference" in row}
        assert named == {"in 0": "in 0", "out 0": "out 0"}
        dumped = editor("evaluate", expression="dump in 0", context="repl")["result"].split()[3]
        read = editor("readMemory", memoryReference="in 0", count=64)
        assert (base64.b64decode(read["data"]).hex(), read["unreadableBytes"]) == (dumped, 62)
        part = editor("readMemory", memoryReference="in 0", offset=1, count=1)
        assert (base64.b64decode(part["data"]).hex(), part["address"]) == (dumped[2:], "0x1")
        assert "unreadableBytes" not in part
        assert editor("readMemory", memoryReference="in 0", offset=9, count=3)["unreadableBytes"] == 3
        assert editor("readMemory", memoryReference="out 0", count=0) == {"address": "0x0"}
        for wrong in ("in 7", "lock 0", "in", "rq 0"):
            with pytest.raises(RefusalError):
                editor("readMemory", memoryReference=wrong, count=1)
        assert editor("evaluate", expression="in 0", context="watch")["memoryReference"] == "in 0"


def test_a_thread_has_its_function_and_line():
    with Adapter() as editor:
        editor.begin(str(HIJACKED))
        names = [thread["name"] for thread in editor("threads")["threads"]]
        assert [name for name in names if " in main." in name and " at main.go:" in name], names
        editor.begin(LOST)
        assert editor("threads")["threads"][0]["name"] == "goroutine 0: parked 0 r"


def test_files_of_go_are_found_below_its_root(folder):
    with Adapter() as editor:
        net = folder / "src/net/net.go"
        net.parent.mkdir(parents=True)
        net.write_text("package net\n" * 400)
        editor.begin(str(HIJACKED), stopAt="start", goRoot=str(folder), sourceRoot=str(SAMPLE))
        first = editor("breakpointLocations", source={"path": str(net)}, line=1, endLine=400)["breakpoints"][0]
        (mark,) = editor("setBreakpoints", source={"path": str(net)}, breakpoints=[first])["breakpoints"]
        assert mark["verified"]
        stopped = editor.move("continue", threadId=1)
        assert stopped["hitBreakpointIds"] == [mark["id"]]
        frames = editor("stackTrace", threadId=stopped["threadId"])["stackFrames"]
        assert str(net) in [frame["source"].get("path") for frame in frames if "source" in frame]
        with pytest.raises(RefusalError, match="goRoot must be a string"):
            editor("launch", program=str(HIJACKED), goRoot=7)


def test_the_console_writes_never_over_the_recording(folder):
    with Adapter() as editor:
        recording = folder / "lost.jsonl"
        recording.write_bytes(Path(LOST).read_bytes())
        editor.begin(str(recording))
        output = editor("evaluate", expression=f"timeline {recording}", context="repl")["result"]
        assert recording.read_bytes() == Path(LOST).read_bytes(), output
        output = editor("evaluate", expression=f"reduce {folder}/small.jsonl", context="repl")["result"]
        assert "accepted by netrev" in output


def test_it_is_joined_and_others_are_seen():
    with serving(fronts=2) as server, Adapter() as editor:
        other = Other(server.call(1))
        assert other.ask("stepi 6") == "at 6"
        editor("initialize", adapterID="netrev")
        editor("attach", program=str(FIRST), address=f"127.0.0.1:{server.port}")
        editor.event("initialized")
        assert editor.move("configurationDone")["description"] == "at 6"
        assert editor.line() == 8
        editor.move("stepIn", threadId=1)
        assert other.ask("info position") == "at 7 of 10 forward"
        assert other.ask("stepi 2") == "at 9"
        editor("threads")
        assert editor.stopped()["description"] == "someone else has moved: at 9"
        assert editor.line() == 11
        editor.move("reverseContinue", threadId=1)
        assert other.ask("info position") == "at 0 of 10 forward"
        editor("disconnect")
        other.leaves()


def test_what_cannot_be_joined_is_refused():
    with serving() as server, Adapter() as editor:
        editor("initialize", adapterID="netrev")
        address = f"127.0.0.1:{server.port}"
        cases: tuple[tuple[dict[str, str], str], ...] = (
            ({"program": str(FIRST), "address": "nowhere"}, "HOST:PORT"),
            ({"program": str(FIRST)}, "address must be a string"),
            ({"program": str(FIRST), "address": "127.0.0.1:1"}, "127.0.0.1:1: Connection refused"),
            ({"program": LOST, "address": address}, "the recording has 22 steps, but the session's has 10"),
        )
        for arguments, why in cases:
            with pytest.raises(RefusalError, match=why):
                editor("attach", **arguments)


# ---- a move of a million steps, and the requests that arrive during it


@pytest.fixture(scope="module")
def recording(tmp_path_factory: pytest.TempPathFactory) -> Path:
    path = tmp_path_factory.mktemp("long") / "long.jsonl"
    pairs_of_locks(path, LONG)
    return path


def responses(editor: Adapter, *numbers: int) -> tuple[dict[int, tuple[dict[str, Any], float]], list[dict[str, Any]]]:
    """The responses to these requests, each with the time at which it arrived, and the stops."""
    found: dict[int, tuple[dict[str, Any], float]] = {}
    stops: list[dict[str, Any]] = []
    while set(numbers) - set(found):
        message = editor.message()
        assert message is not None
        if message["type"] == "response":
            found[message["request_seq"]] = message, time.monotonic()
        elif message["event"] == "stopped":
            stops.append(message["body"])
    return found, stops


def send(editor: Adapter, number: int, command: str, **arguments: Any) -> None:
    editor.send({"seq": number, "type": "request", "command": command, "arguments": arguments})


def begin(editor: Adapter, recording: Path) -> None:
    """Begins a session at the start, with a breakpoint whose condition never holds, and with all filters."""
    editor.begin(str(recording), stopAt="start")
    editor("setExceptionBreakpoints", filters=["suspects", "timeouts", "errors"])
    never = [{"dataId": "lock 0", "hitCondition": "> 9999999"}]
    assert editor("setDataBreakpoints", breakpoints=never)["breakpoints"][0]["verified"]


@pytest.mark.alone
def test_a_pause_is_heard(recording: Path) -> None:
    with Adapter() as editor:
        begin(editor, recording)
        for way in ("continue", "reverseContinue"):
            send(editor, 1_000, way, threadId=1)
            time.sleep(0.6)
            send(editor, 1_001, "pause", threadId=1)
            begun = time.monotonic()
            found, stops = responses(editor, 1_000, 1_001)
            assert found[1_001][1] - begun < SOON
            assert found[1_000][0]["success"] and found[1_001][0]["success"]
            stops = stops or [editor.stopped()]
            assert stops[0]["reason"] == "pause"
        send(editor, 1_002, "evaluate", expression="info position", context="repl")
        found, _ = responses(editor, 1_002)
        assert re.search(r"at \d+ of 999999 forward", found[1_002][0]["body"]["result"])


@pytest.mark.alone
def test_an_end_is_heard(recording: Path) -> None:
    for command, soon in (("continue", SOON), ("evaluate", SOON), ("launch", 10 * SOON)):
        with Adapter() as editor:
            if command != "launch":
                begin(editor, recording)
            more: dict[str, Any] = (
                {"expression": "info suspects", "context": "repl"} if command == "evaluate" else {"threadId": 1}
            )
            send(editor, 1_000, command, program=str(recording), **more)
            time.sleep(0.2)
            send(editor, 1_001, "disconnect")
            begun = time.monotonic()
            found, _ = responses(editor, 1_001)
            assert found[1_001][1] - begun < soon, command
            assert editor.process.wait(timeout=60) == 0, command


@pytest.mark.alone
def test_a_cancel_stops_what_it_names(recording: Path) -> None:
    with Adapter() as editor:
        begin(editor, recording)
        send(editor, 1_000, "evaluate", expression="until gor 0 nonsense", context="repl")
        send(editor, 1_001, "variables", variablesReference=1)
        send(editor, 1_002, "cancel", requestId=1_001)
        send(editor, 1_003, "cancel", requestId=1_000)
        found, _ = responses(editor, 1_000, 1_001, 1_002, 1_003)
        assert found[1_001][0]["message"] == "cancelled"
        assert found[1_002][0]["success"] and found[1_003][0]["success"]
