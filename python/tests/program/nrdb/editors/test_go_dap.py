"""Decodes each message of the adapter with Debian's go-dap, an independent implementation of the protocol. If Go or
go-dap is missing, the tests are skipped with a message."""

import json
import os
import shutil
import subprocess
import tempfile
from functools import lru_cache
from pathlib import Path

import pytest

from dev.recorder.fetching import here
from tests.editors.test_message_reader import told_of_work
from tests.program.nrdb.common.dap_client import Adapter, Body, Client, RefusalError

from .test_dap_more import HIJACKED, LOST, SAMPLE
from .test_editors import SAYS, conversation

GOPATH = Path("/usr/share/gocode")
FETCHED = next((folder / "go" for release in ("1.19", "1.27") if (folder := here(release))), None)
GO = shutil.which("go") or (str(FETCHED) if FETCHED else None)
GO_DAP = GOPATH / "src/github.com/google/go-dap"
PROGRAM = Path(__file__).with_name("go_dap.go")
BUILT = tempfile.TemporaryDirectory()


@lru_cache(maxsize=None)
def decoder() -> Path:
    """The decoding program, which is built once."""
    assert GO
    folder = Path(BUILT.name)
    source = folder / "decoding/main.go"
    source.parent.mkdir()
    source.write_bytes(PROGRAM.read_bytes())
    settings = {"GO111MODULE": "off", "GOPATH": str(GOPATH), "GOFLAGS": "", "GOTOOLCHAIN": "local"}
    environment = os.environ | settings | {"GOCACHE": str(folder / "cache")}
    subprocess.run([GO, "build", "-o", folder / "decode", source], env=environment, check=True, timeout=300)
    return folder / "decode"


def decoded(messages: list[Body]) -> list[str]:
    """go-dap's output for messages."""
    lines = "".join(f"{json.dumps(message)}\n" for message in messages)
    ended = subprocess.run([decoder()], input=lines, capture_output=True, text=True, check=True, timeout=60)
    return ended.stdout.splitlines()


pytestmark = [
    pytest.mark.together,
    pytest.mark.skipif(not GO, reason="Go isn't here (Debian: apt-get install golang-go)"),
    pytest.mark.skipif(
        not GO_DAP.is_dir(), reason="go-dap isn't here (Debian: apt-get install golang-github-google-go-dap-dev)"
    ),
]


def messages_of_a_session() -> list[Body]:
    """The messages of a session that requests everything that the adapter offers."""
    messages: list[Body] = []
    receive = Client.message

    def keep(client: Client) -> Body | None:
        message = receive(client)
        if message is not None:
            messages.append(message)
        return message

    with Adapter() as editor, pytest.MonkeyPatch.context() as patch:
        patch.setattr(Client, "message", keep)
        play(editor)
    return messages


def play(editor: Adapter) -> None:
    main = {"path": str(SAMPLE / "main.go")}
    editor("initialize", adapterID="netrev", supportsProgressReporting=True)
    for wrong in ("attach", "threads", "nonsense"):
        with pytest.raises(RefusalError):
            editor(wrong)
    editor("launch", program=str(HIJACKED), stopAt="start", source="go", sourceRoot=str(SAMPLE))
    editor.event("initialized")
    editor.move("configurationDone")
    lines: list[Body] = [{"line": 39, "logMessage": "here"}, {"line": 34, "hitCondition": "1"}, {"line": 9999}]
    editor("setBreakpoints", source=main, breakpoints=lines)
    editor("setFunctionBreakpoints", breakpoints=[{"name": "pollreset"}, {"name": "nobody"}])
    editor("setDataBreakpoints", breakpoints=[{"dataId": "wd 2"}])
    editor("setExceptionBreakpoints", filters=["suspects", "timeouts", "errors"])
    for name in ("wd 2", "nothing"):
        editor("dataBreakpointInfo", name=name)
    editor("breakpointLocations", source=main, line=1, endLine=99)
    for way in ("continue", "continue", "reverseContinue", "stepIn", "stepBack", "next"):
        editor.move(way, threadId=1)
    target = editor("gotoTargets", source=main, line=39)["targets"][0]["id"]
    editor.move("goto", threadId=1, targetId=target)
    threads = editor("threads")["threads"]
    for thread in threads:
        frames = editor("stackTrace", threadId=thread["id"])["stackFrames"]
        for scope in editor("scopes", frameId=frames[0]["id"])["scopes"]:
            editor("variables", variablesReference=scope["variablesReference"])
    look(editor)
    editor.move("pause", threadId=1)
    editor("cancel", requestId=1)
    editor("restart")
    editor("terminate")
    editor("disconnect")


def look(editor: Adapter) -> None:
    for expression, context in (
        ("info suspects", "repl"),
        ("wd 2", "watch"),
        ("rwlock", "hover"),
        ("in 0", "watch"),
    ):
        editor("evaluate", expression=expression, context=context)
    editor("readMemory", memoryReference="in 0", count=4)
    editor("completions", text="info go", column=8)
    with pytest.raises(RefusalError):
        editor("setVariable", variablesReference=1, name="rg 0", value="nil")
    editor("evaluate", expression="goto 200", context="repl")
    editor.stopped()
    while editor.move("reverseContinue", threadId=1)["reason"] != "exception":
        pass
    editor("exceptionInfo", threadId=1)


def test_each_message_is_decoded_whole() -> None:
    messages = messages_of_a_session()
    result = decoded(messages)
    assert len(result) == len(messages)
    wrong = [(text, message) for text, message in zip(result, messages) if not text.endswith(" ")]
    assert wrong == []
    assert len({text.split()[0] for text in result}) > 25


def test_progress_is_decoded() -> None:
    messages = told_of_work("continue", True, 3)
    assert [text for text in decoded(messages) if not text.endswith(" ")] == []
    assert "progressUpdate" in [message.get("event") for message in messages]


def test_the_conversation_of_the_examples_is_decoded() -> None:
    messages: list[Body] = []
    for sender, message in conversation():
        if sender == SAYS:
            number = len(messages) + 1
            sort: Body = {"type": "event"} if "event" in message else {"type": "response", "request_seq": number}
            messages.append({"seq": number, **sort, **message})
    assert [text for text in decoded(messages) if not text.endswith(" ")] == []


def test_what_isnt_of_the_protocol_shows() -> None:
    head = {"seq": 1, "type": "event"}
    events = decoded(
        [
            head | {"event": "halted", "body": {}},
            head | {"event": "stopped", "body": {"reason": "step", "whatever": 7}},
            head | {"event": "stopped", "body": {"reason": 7}},
        ]
    )
    assert [text.endswith(" ") for text in events] == [False, False, False], events
