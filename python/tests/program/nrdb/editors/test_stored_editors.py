"""The adapter's answers to random requests about some recordings. Because the texts are long, only checksums of each
conversation's messages are stored.

    /usr/bin/python3 python tests.program.nrdb.editors.test_stored_editors            stores new checksums, with the netrev that NETREV names
    /usr/bin/python3 python tests.program.nrdb.editors.test_stored_editors NAME-3     prints a conversation, to compare it with an earlier one
"""

import hashlib
import io
import json
import os
import random
import sys
import tempfile
from pathlib import Path
from typing import Any

import pytest

from dev.fuzz.editors import framed, messages_in, request
from netrev.machine.cells import CELLS_OF_ALL, CELLS_OF_ONE
from nrdb.dap.adapter import Adapter
from nrdb.dap.message_reader import Reading
from nrdb.dap.view.messages import EditorStreams
from tests.program.support.sharing import NETREV

ROOT = Path(__file__).resolve().parents[5]
STORED = Path(__file__).with_name("editors.json")
NAMES = (
    "examples/first",
    "examples/lost-wakeup",
    "examples/real/half",
    "examples/real/hung",
    "python/tests/caused/hub-bad",
)
EACH, MOST = 10, 60  # conversations about each recording, and the greatest number of requests in a conversation
LEFT_OUT = ("attach", "cancel", "pause")  # the answers to these requests depend on the time or on another program
FUNCTIONS = ("main.main", "main.serve", "main.(*room).say", "net.Listen", "lock 0", "pollreset", "fire", "nothing")
SOURCES = ("main.go", "/samples/main.go", "half.go", "hung/main.go")
EXPRESSIONS = (
    "info goroutines",
    "info hangs",
    "goto 3",
    "lock 0",
    "rg 0",
    "clock",
    "gor 1",
    "stepi",
    "history lock 0",
    "where",
    "x",
    "info breakpoints",
)


def asked(dice: random.Random, number: int, path: str, length: int) -> dict[str, Any]:
    """A random request, which is valid half of the time."""
    cell = dice.choice((dice.choice(CELLS_OF_ALL), f"{dice.choice(CELLS_OF_ONE)} {dice.choice('001')}"))
    line, source = dice.randint(0, length + 2), {"path": dice.choice((path, path, *SOURCES))}
    point = {
        "line": line,
        "condition": dice.choice(("", "", "gor 1 parked*", "lock 0 8")),
        "hitCondition": dice.choice(("", "", ">= 2", "% 2")),
    }
    if dice.random() < 0.3:
        point["logMessage"] = dice.choice(("at {rg 0}", "it", "{nothing}"))
    good: list[tuple[str, dict[str, Any]]] = [
        ("setBreakpoints", {"source": source, "breakpoints": [point, {"line": dice.randint(1, length)}][: dice.randint(0, 2)]}),
        ("setFunctionBreakpoints", {"breakpoints": [{"name": dice.choice(FUNCTIONS)} for _ in range(dice.randint(0, 2))]}),
        ("setDataBreakpoints", {"breakpoints": [{"dataId": cell}][: dice.randint(0, 1)]}), ("dataBreakpointInfo", {"name": cell}),
        ("setExceptionBreakpoints", {"filters": dice.sample(("suspects", "timeouts", "errors"), dice.randint(0, 2))}),
        ("breakpointLocations", {"source": source, "line": line, "endLine": line + dice.randint(0, 4)}), ("threads", {}), ("exceptionInfo", {"threadId": 1}),
        ("stackTrace", {"threadId": dice.randint(0, 6), "startFrame": dice.randint(0, 1), "levels": dice.choice((0, 1, 20))}),
        ("scopes", {"frameId": dice.randint(0, 12)}), ("variables", {"variablesReference": dice.randint(0, 9)}), ("gotoTargets", {"source": source, "line": line}),
        ("goto", {"threadId": 1, "targetId": line}), ("evaluate", {"expression": dice.choice(EXPRESSIONS), "context": dice.choice(("repl", "hover", "watch"))}),
        ("completions", {"text": dice.choice(("inf", "goto ", "history l", "break p")), "column": dice.randint(1, 8)}),
        ("readMemory", {"memoryReference": dice.choice(("in 0", "out 1", "x")), "offset": dice.choice((0, 3)), "count": 20}),
        *(((name, {"threadId": dice.randint(0, 4)})) for name in ("continue", "reverseContinue", "stepIn", "stepBack", "next", "stepOut") * 2),
        ("restart", {}),
    ]  # fmt: skip
    command, arguments = dice.choice(good)
    if dice.random() < 0.25:
        other = request(dice, number, path)
        if other["command"] not in LEFT_OUT:
            return other
    return {"seq": number, "type": "request", "command": command, "arguments": arguments}


def conversation(name: str, number: int) -> str:
    """The messages of the adapter in a conversation."""
    dice, path = random.Random(f"{name} {number}"), str(ROOT / f"{name}.jsonl")
    length = len(Path(path).read_text().splitlines())
    lines_at_1 = dice.random() < 0.8
    requests: list[dict[str, Any]] = [
        {"seq": 1, "type": "request", "command": "initialize", "arguments": {"adapterID": "netrev", "linesStartAt1": lines_at_1}},
        {"seq": 2, "type": "request", "command": "launch", "arguments": {"program": path, "stopAt": dice.choice(("end", "start", 5))}},
        {"seq": 3, "type": "request", "command": "configurationDone", "arguments": {}},
    ]  # fmt: skip
    requests += [asked(dice, number, path, length) for number in range(4, MOST)]
    written = io.BytesIO()
    wire = EditorStreams(io.BytesIO(b"".join(map(framed, requests))), written)
    here = os.getcwd()
    with tempfile.TemporaryDirectory() as folder:
        os.chdir(folder)
        try:
            Adapter(wire, Reading(wire), NETREV).serve()
        finally:
            os.chdir(here)
    reports = messages_in(written.getvalue()) or []
    by_number = {request["seq"]: json.dumps(request, sort_keys=True) for request in requests}
    lines = [
        line
        for request in reports
        for line in (by_number.get(request.get("request_seq", 0), ""), json.dumps(request, sort_keys=True))
        if line
    ]
    found = "\n".join(lines).replace(str(Path(path).resolve()), "PATH").replace(path, "PATH")
    return found.replace(str(ROOT), "ROOT").replace(folder, "FOLDER")


def sums_of(name: str) -> list[str]:
    return [hashlib.sha256(conversation(name, number).encode()).hexdigest()[:12] for number in range(EACH)]


@pytest.mark.parametrize("name", NAMES)
def test_the_messages_are_what_the_sums_are_of(name: str) -> None:
    assert sums_of(name) == json.loads(STORED.read_text())[name]


def main(words: list[str]) -> None:
    for word in words:
        name, _, number = word.rpartition("-")
        print(conversation(name, int(number)))
    if not words:
        STORED.write_text(json.dumps({name: sums_of(name) for name in NAMES}, indent=0) + "\n")


if __name__ == "__main__":
    main(sys.argv[1:])
