"""`nrdb --dap`: a scripted editor runs sessions over the examples, and the form of each message is checked."""

import json
import os
import re
import signal
import subprocess
from contextlib import ExitStack, suppress
from pathlib import Path
from typing import Any

import pytest

from tests.program.nrdb.common.dap_client import Adapter, RefusalError
from tests.program.nrdb.common.dap_forms import misfit_of_message
from tests.program.nrdb.common.support import EXAMPLES, NRDB

LOST = str(EXAMPLES / "lost-wakeup.jsonl")
CAUSED = EXAMPLES.parent / "python/tests/caused/once-bad.jsonl"
HUNG = EXAMPLES / "real/hung.jsonl"
STRANGE = "\x1b]0;\u202e"


@pytest.fixture
def editor(cleanups: ExitStack) -> Adapter:
    editor = Adapter()
    cleanups.callback(editor.__exit__)
    return editor


def test_it_stops_at_the_end_and_goes_back_to_the_change(editor):
    stopped = editor.begin(LOST)
    assert (stopped["reason"], stopped["threadId"]) == ("entry", 1)
    assert (editor.line(), stopped["description"]) == (23, "the recording's end")
    info = editor("dataBreakpointInfo", name="rg 0")
    assert (info["dataId"], info["accessTypes"]) == ("rg 0", ["write"])
    (mark,) = editor("setDataBreakpoints", breakpoints=[{"dataId": "rg 0"}])["breakpoints"]
    assert mark["verified"]
    lines = []
    for _ in range(3):
        stopped = editor.move("reverseContinue", threadId=1)
        assert (stopped["reason"], stopped["hitBreakpointIds"]) == ("data breakpoint", [mark["id"]])
        lines.append(editor.line())
    assert lines == [22, 20, 18]  # at positions 20, 18 and 16: the lines of the next steps
    output = editor("evaluate", expression="info position", context="repl")["result"]
    assert output.splitlines()[0] == "at 16 of 22 forward"


def test_threads_stacks_and_variables(editor):
    editor.begin(LOST)
    threads = [(thread["id"], thread["name"]) for thread in editor("threads")["threads"]]
    assert threads == [(1, "goroutine 0: parked 0 r"), (65_536, "network and clock")]
    frames = editor("stackTrace", threadId=1)["stackFrames"]
    assert [frame["name"] for frame in frames][0] == "last: parkcommit 0"
    scopes = {
        scope["name"]: scope["variablesReference"] for scope in editor("scopes", frameId=frames[0]["id"])["scopes"]
    }
    assert list(scopes)[:4] == ["goroutine 0", "socket 0", "descriptor 0", "machine"]
    of_socket = {
        variable["name"]: variable["value"]
        for variable in editor("variables", variablesReference=scopes["socket 0"])["variables"]
    }
    assert of_socket["in 0"].split()[0] == "2"
    assert "read lock" in of_socket["lock 0"]
    sockets = editor("variables", variablesReference=scopes["all sockets"])["variables"]
    below = editor("variables", variablesReference=sockets[0]["variablesReference"])["variables"]
    assert {item["name"]: item["value"] for item in below} == of_socket
    page = editor("variables", variablesReference=scopes["socket 0"], start=1, count=2)["variables"]
    assert [item["name"] for item in page] == list(of_socket)[1:3]


def test_what_was_of_another_position_is_refused(editor):
    editor.begin(LOST)
    frame = editor("stackTrace", threadId=1)["stackFrames"][0]["id"]
    editor.move("stepBack", threadId=1)
    with pytest.raises(RefusalError, match="another position"):
        editor("scopes", frameId=frame)


def test_lines_and_kinds_have_breakpoints(editor):
    editor.begin(LOST, stopAt="start")
    mark = editor("setBreakpoints", source={"path": LOST}, breakpoints=[{"line": 10}, {"line": 99}])["breakpoints"]
    assert [(item["verified"], item.get("line")) for item in mark][0] == (True, 10)
    kinds = [{"name": "pollreset"}, {"name": "frob"}]
    of_kinds = editor("setFunctionBreakpoints", breakpoints=kinds)["breakpoints"]
    assert [kind["verified"] for kind in of_kinds] == [True, False]
    assert "frob is neither a kind of step" in of_kinds[1]["message"]
    reasons = []
    for _ in range(4):
        stopped = editor.move("continue", threadId=1)
        reasons.append((stopped["reason"], editor.line()))
    assert reasons == [("function breakpoint", 5), ("breakpoint", 10), ("function breakpoint", 19), ("pause", 23)]
    editor("setFunctionBreakpoints", breakpoints=[])
    assert editor.move("reverseContinue", threadId=1)["reason"] == "breakpoint"
    assert editor.move("reverseContinue", threadId=1)["description"] == "the recording's start"


def test_a_condition_holds_a_breakpoint_back(editor):
    editor.begin(LOST, stopAt="start")
    wanted = [{"name": "pollreset", "condition": "rg 0 == ready"}]
    assert editor("setFunctionBreakpoints", breakpoints=wanted)["breakpoints"][0]["verified"]
    assert editor.move("continue", threadId=1)["reason"] == "function breakpoint"
    assert editor.line() == 19  # not at line 5, at which the word is nil
    wrong = [{"name": "pollreset", "condition": "whenever"}]
    (refused,) = editor("setFunctionBreakpoints", breakpoints=wrong)["breakpoints"]
    assert "isn't a condition" in refused["message"]


def test_a_filter_stops_before_the_suspect(editor):
    editor.begin(LOST, stopAt="start")
    assert editor("setExceptionBreakpoints", filters=["suspects"])["breakpoints"][0]["verified"]
    stopped = editor.move("continue", threadId=1)
    assert (stopped["reason"], editor.line()) == ("exception", 19)
    assert "lost wake-up" in stopped["text"]
    result = editor("exceptionInfo", threadId=1)
    assert result["exceptionId"] == "lost wake-up"
    editor.move("continue", threadId=1)
    assert editor.move("reverseContinue", threadId=1)["reason"] == "exception"


def test_steps_of_a_goroutine(editor):
    editor.begin(LOST, stopAt=8)
    assert (editor.line(), editor.thread) == (10, 65_536)  # an arrival is the next step
    editor.move("next", threadId=1)
    assert editor.line() == 12  # parkcommit
    editor.move("stepIn", threadId=1)
    assert editor.line() == 13
    editor.move("stepBack", threadId=1)
    editor.move("stepOut", threadId=1)
    assert editor.line() == 16  # after rwunlock, which ends the Read
    (target,) = editor("gotoTargets", source={"path": LOST}, line=20)["targets"]
    stopped = editor.move("goto", threadId=1, targetId=target["id"])
    assert (stopped["reason"], editor.line()) == ("goto", 20)
    editor.move("restart")
    assert editor.line() == 2


def test_the_console_takes_lines_of_nrdb(editor):
    editor.begin(LOST)
    output = editor("evaluate", expression="history rg 0", context="repl")["result"]
    assert "pollreset 0 0 r" in output
    assert "lost wake-up" in editor("evaluate", expression="info suspects", context="repl")["result"]
    editor("evaluate", expression="goto 4", context="repl")
    assert editor.stopped()["reason"] == "goto"
    assert editor.line() == 6
    assert editor("evaluate", expression="rg 0", context="hover")["result"] == "nil"
    assert "fdMutex.rwlock" in editor("evaluate", expression="rwlock", context="hover")["result"]
    labels = [gotarget["label"] for gotarget in editor("completions", text="info go", column=8)["targets"]]
    assert labels == ["goroutines"]
    with pytest.raises(RefusalError, match="isn't a cell"):
        editor("evaluate", expression="no thing", context="watch")
    with pytest.raises(RefusalError, match="can't be changed"):
        editor("setVariable", variablesReference=1, name="rg 0", value="nil")
    editor("evaluate", expression="quit", context="repl")
    editor.event("terminated")


def test_a_breakpoint_that_was_deleted_in_the_console_can_be_set_again(editor):
    editor.begin(LOST, stopAt="start")
    for _ in range(2):
        (mark,) = editor("setFunctionBreakpoints", breakpoints=[{"name": "pollreset"}])["breakpoints"]
        output = editor("evaluate", expression="delete", context="repl")["result"]
        assert f"deleted: {mark['id']} (break pollreset)" in output


def test_lines_are_counted_as_the_editor_does(editor):
    editor("initialize", adapterID="netrev", linesStartAt1=False)
    editor("launch", program=LOST, stopAt="start")
    editor.event("initialized")
    editor.move("configurationDone")
    assert editor.line() == 1
    (mark,) = editor("setBreakpoints", source={"path": LOST}, breakpoints=[{"line": 9}])["breakpoints"]
    assert mark["line"] == 9
    editor.move("continue", threadId=1)
    assert editor.line() == 9


def test_lines_with_steps(editor):
    editor.begin(LOST)
    found = editor("breakpointLocations", source={"path": LOST}, line=1, endLine=3)["breakpoints"]
    assert found == [{"line": 2}, {"line": 3}]


def test_lines_of_another_source_have_no_steps(editor):
    editor.begin(LOST)
    for source in ({"path": __file__}, {"name": "main.go"}, {"path": "\0"}, {"path": 7}, "main.go", None):
        found = editor("breakpointLocations", source=source, line=1, endLine=3)["breakpoints"]
        assert found == [], source
        with pytest.raises(RefusalError, match="no step of the recording comes from "):
            editor("gotoTargets", source=source, line=20)
        (mark,) = editor("setBreakpoints", source=source, breakpoints=[{"line": 2}])["breakpoints"]
        assert not mark["verified"]


def test_the_program_comes_first_where_that_is_asked_for():
    with Adapter() as editor:
        editor.begin(str(HUNG), source="go", sourceRoot=str(HUNG.parents[2] / "tools/go/samples/hung"))
        threads = editor("threads")["threads"]
        stacks = [editor("stackTrace", threadId=thread["id"])["stackFrames"] for thread in threads]
        first = [frames[0] for frames in stacks if frames[0]["source"]["name"] == "main.go"]
        assert first
        for frame in first:
            assert Path(frame["source"]["path"]).is_file()
            assert frame["presentationHint"] == "normal"


def test_a_line_and_a_function_stop_both_ways():
    folder = EXAMPLES.parent / "tools/go/samples/causes"
    with Adapter() as editor:
        editor.begin(str(CAUSED), stopAt="start", source="go", sourceRoot=str(folder))
        main = {"path": str(folder / "main.go")}
        (mark,) = editor("setBreakpoints", source=main, breakpoints=[{"line": 46}])["breakpoints"]
        assert (mark["verified"], mark["line"]) == (True, 46)
        result = []
        for way in ("continue", "continue", "reverseContinue"):
            stopped = editor.move(way, threadId=1)
            assert (stopped["reason"], stopped["hitBreakpointIds"]) == ("breakpoint", [mark["id"]])
            frames = editor("stackTrace", threadId=stopped["threadId"])["stackFrames"]
            assert (frames[0]["name"], frames[0]["line"]) == ("main.echo", 46)
            result.append(stopped["description"])
        assert result[0] == result[2]
        assert result[0] != result[1]
        (target, *_) = editor("gotoTargets", source=main, line=46)["targets"]
        assert f"at {target['id']}" == result[0]
        editor("setBreakpoints", source=main, breakpoints=[])
        (of_function,) = editor("setFunctionBreakpoints", breakpoints=[{"name": "main.ask"}])["breakpoints"]
        assert of_function["verified"]
        assert editor.move("continue", threadId=1)["hitBreakpointIds"] == [of_function["id"]]
        found = editor("breakpointLocations", source=main, line=40, endLine=50)["breakpoints"]
        assert {"line": 46} in found


def test_step_out_between_calls_leaves_the_function():
    with Adapter() as editor:
        editor.begin(str(CAUSED.with_name("pool-bad.jsonl")), stopAt=67, source="go")
        assert editor("stackTrace", threadId=1)["stackFrames"][0]["name"] == "main.ask"
        assert editor.move("stepOut", threadId=1)["description"] == "at 97"


def test_threads_say_what_they_wait_for_and_stacks_are_in_the_order_of_calls():
    with Adapter() as editor:
        editor.begin(str(CAUSED.with_name("bodies-bad.jsonl")), source="go")
        threads = {thread["name"]: thread["id"] for thread in editor("threads")["threads"]}
        waiting = [name for name in threads if "waits for a connection of net/http in main.name at main.go:" in name]
        assert [name.split()[0] for name in waiting] == ["goid", "goid"]
        frames = editor("stackTrace", threadId=threads[waiting[0]])["stackFrames"]
        names = [frame["name"] for frame in frames]
        assert names[0] == "main.name"
        assert re.search(r"main.bodies.func2.\d", names[1])
        assert names[names.index("net/http.(*Transport).getConn") :][-1] == "net/http.(*Client).Get"
        inner = [frame["source"] for frame in frames if frame["name"].startswith("net/http")]
        assert {source["presentationHint"] for source in inner} == {"deemphasize"}
        with pytest.raises(RefusalError, match="makes no step in the recording"):
            editor("next", threadId=threads[waiting[0]])
    with Adapter() as editor:
        stopped = editor.begin(str(CAUSED.with_name("hub-bad.jsonl")), source="recording")
        assert re.search(r"^Goroutine 6 waits for one call: Write at main\.go:63 in \(\*room\)\.say", stopped["text"])
        threads = {thread["name"]: thread["id"] for thread in editor("threads")["threads"]}
        sleeps = next(name for name in threads if "sleeps in main.talk at main.go:" in name)
        names = [frame["name"] for frame in editor("stackTrace", threadId=threads[sleeps])["stackFrames"]]
        assert re.search(r"sleeps since step \d+", names[1])
        assert names.index("time.Sleep") < names.index("main.talk")


def test_the_recording_comes_first_otherwise():
    with Adapter() as editor:
        editor.begin(str(HUNG))
        frames = editor("stackTrace", threadId=editor("threads")["threads"][0]["id"])["stackFrames"]
        assert frames[0]["source"]["path"] == str(HUNG)
        assert len(frames) > 1
        page = editor("stackTrace", threadId=editor("threads")["threads"][0]["id"], startFrame=1, levels=1)
        assert (len(page["stackFrames"]), page["totalFrames"]) == (1, len(frames))


def test_a_refused_recording_is_told_with_what_to_mend(folder):
    with Adapter() as editor:
        bad = folder / "bad.jsonl"
        bad.write_text('{"netrev":1,"gor":1,"sock":1,"desc":1,"buf":16}\n["incref",0,0]\n')
        editor("initialize", adapterID="netrev")
        with pytest.raises(RefusalError, match="step 1: fault 107 reason 4\n(?s:.*)sockopen"):
            editor("launch", program=str(bad))
        with pytest.raises(RefusalError, match="No such file"):
            editor("launch", program=str(bad) + ".gone")
        with pytest.raises(RefusalError, match="no file can have that name"):
            editor("launch", program=LOST + "\0")
        with pytest.raises(RefusalError, match="send launch first"):
            editor("threads")
        editor("disconnect")
        assert editor.process.wait(timeout=60) == 0


def test_no_launch_names_the_program_that_is_run(folder):
    with Adapter() as editor:
        process, program = folder / "ran", folder / "program"
        program.write_text(f"#!/bin/sh\ntouch {process}\n")
        program.chmod(0o700)
        with pytest.raises(RefusalError, match="a launch can't name"):
            editor("launch", program=LOST, netrev=str(program))
        editor.begin(LOST)
        assert not process.exists()


def test_text_of_others_is_written_out(folder):
    with Adapter() as editor:
        recording = folder / "lost.jsonl"
        recording.write_bytes(Path(LOST).read_bytes())
        call = {"call": 1, "function": STRANGE, "file": STRANGE, "line": 1, "of": "program"}
        lines = [{"where": 1, "steps": 22}, call, {"stack": 1, "calls": [1]}, {"step": 1, "stacks": [1] * 22}]
        recording.with_suffix(".where").write_text("".join(f"{json.dumps(line)}\n" for line in lines))
        editor.begin(str(recording))
        *_, frame = editor("stackTrace", threadId=1)["stackFrames"]
        assert "\\x1b" in frame["name"]
        assert not [c for c in json.dumps(frame, ensure_ascii=False) if c in STRANGE[0] + STRANGE[-1]]


def test_unknown_and_wrong_requests_are_refused():
    with Adapter() as editor:
        editor.begin(LOST)
        wrong: list[tuple[str, dict[str, Any]]] = [
            ("frobnicate", {}), ("attach", {}), ("launch", {"program": 7}), ("goto", {"targetId": 99}),
            ("scopes", {"frameId": "one"}), ("stackTrace", {"threadId": 0}), ("setBreakpoints", {"breakpoints": 3}),
            ("gotoTargets", {"line": 99}), ("variables", {"variablesReference": 9}), ("exceptionInfo", {}),
            ("setExceptionBreakpoints", {"filters": [{}]}),
        ]  # fmt: skip
        for command, arguments in wrong:
            with pytest.raises(RefusalError):
                editor(command, **arguments)
        named = [{"name": {}}, {"name": []}, {"name": None}, {}]
        mark = editor("setFunctionBreakpoints", breakpoints=named)["breakpoints"]
        assert [item["verified"] for item in mark] == [False] * len(named)
        assert editor.line() == 23


def test_what_is_no_message_ends_it():
    for data in (
        b"Hello\r\n\r\n",
        b"POST / HTTP/1.1\r\nContent-Length: 2\r\n\r\n{}",
        b"Content-Length: 2\r\nOrigin: http://example.com\r\n\r\n{}",
        b"Content-Length: 2\r\nContent-Length: 3\r\n\r\n{} ",
        b"Content-Length: 3\r\n\r\n{]}",
        b"Content-Length: 99999999999\r\n\r\n",
        b"Content-Length: 2\r\n\r\n[]",
    ):
        ended = subprocess.run([NRDB, "--dap"], input=data, capture_output=True, timeout=60, check=False)
        assert (ended.returncode, ended.stdout) == (3, b""), data
        assert b"nrdb --dap: a message" in ended.stderr


def test_a_netrev_that_is_killed_ends_the_session():
    with Adapter() as editor:
        editor.begin(LOST)
        for process in children(editor.process.pid):
            os.kill(process, signal.SIGKILL)
        editor.events.clear()
        with suppress(RefusalError):  # (a long move is answered before it ends)
            editor("continue", threadId=1)
        assert editor.event("output")["output"] == "| netrev has ended\n"
        editor.event("terminated")
        with pytest.raises(RefusalError, match="send launch first"):
            editor("threads")


def test_nothing_is_left_behind(folder):
    with Adapter() as editor:
        editor.begin(LOST)
        editor("evaluate", expression=f"timeline {folder}/lost.html", context="repl")  # with the scout
        left = children(editor.process.pid)
        assert len(left) == 2
        editor("disconnect")
        assert editor.process.wait(timeout=60) == 0
        assert not [item for item in left if Path(f"/proc/{item}").exists()]


def test_an_editor_that_goes_away_leaves_nothing():
    editor = Adapter()
    editor.begin(LOST)
    left = children(editor.process.pid)
    editor.__exit__()
    assert not [item for item in left if Path(f"/proc/{item}").exists()]


def test_a_wrong_message_is_found():
    good = {"seq": 1, "type": "event", "event": "stopped", "body": {"reason": "step", "threadId": 1}}
    assert misfit_of_message(good) == ""
    for name, value in (
        ("event", "halted"),
        ("body", {"threadId": 1}),
        ("body", {"reason": 3}),
        ("body", {"reason": "step", "why": "so"}),
    ):
        assert misfit_of_message(good | {name: value}) != "", (name, value)


def children(process):
    """The child processes of a process."""
    found = subprocess.run(["ps", "-o", "pid=", "--ppid", str(process)], capture_output=True, text=True, check=False)
    return [int(word) for word in found.stdout.split()]
