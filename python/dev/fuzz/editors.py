"""Cases for the adapter: an editor that sends any request, with arguments of any kind, and malformed messages. Each
request must be answered once, and a malformed message must end the session."""

import io
import json
import random
from pathlib import Path
from typing import Any

from netrev.text.writer import write_plain
from nrdb.dap.adapter import Adapter
from nrdb.dap.message_reader import Reading
from nrdb.dap.view.messages import EditorStreams, MalformedMessageError

from .generators.random_steps import Author
from .nrdb_sessions import line_of

REQUESTS = (
    "initialize launch attach configurationDone terminate disconnect restart continue reverseContinue stepIn stepBack next stepOut "
    "pause gotoTargets goto setBreakpoints setFunctionBreakpoints setDataBreakpoints dataBreakpointInfo setExceptionBreakpoints "
    "exceptionInfo breakpointLocations threads stackTrace scopes variables evaluate completions setVariable setExpression "
    "readMemory cancel nonsense"
).split()
ARGUMENTS = {
    "stackTrace": "threadId startFrame levels", "scopes": "frameId", "variables": "variablesReference start count", "goto": "targetId",
    "gotoTargets": "source line", "setBreakpoints": "source breakpoints", "setFunctionBreakpoints": "breakpoints",
    "setDataBreakpoints": "breakpoints", "dataBreakpointInfo": "name", "setExceptionBreakpoints": "filters",
    "breakpointLocations": "source line endLine", "evaluate": "expression context frameId", "completions": "text column",
    "next": "threadId", "stepOut": "threadId", "launch": "program stopAt source sourceRoot goRoot token netrev",
    "attach": "program address", "readMemory": "memoryReference offset count", "cancel": "requestId progressId",
}  # fmt: skip
NAMES = "program stopAt source path line column breakpoints name condition hitCondition logMessage dataId filters expression context text".split()
TEXTS = (
    "", "lock 0", "gor 1", "rg 0", "clock", "pollreset", "x" * 5_000, "\ud800", "a\0b", "\x1b[2J\n", "/dev/null", "/", "end", "go", "repl",
    "hover", "suspects", "timeouts", "errors", "gor 1 parked*", "rg 0 == ready", '"', "²", "{}",
    "in 0", "out 1", "% 2", ">= 1", "at {rg 0}", "{nothing}", "127.0.0.1:1",
)  # fmt: skip
NUMBERS = (
    0,
    1,
    2,
    3,
    5,
    -1,
    65_536,
    10**6,
    2**31,
    2**63,
    2**64,
    -(10**18),
    10**400,
    1.5,
    1e308,
    True,
    None,
)
HEADERS = (
    b"", b"Content-Length: 2\r\n\r\n[]", b"Content-Length: -1\r\n\r\n", b"Content-Length: 99999999999\r\n\r\n", b"\r\n\r\n", b"hello\r\n\r\n",
    b"POST / HTTP/1.1\r\nHost: x\r\n\r\n", b"Content-Length: 2\r\nContent-Length: 2\r\n\r\n{}", b"a" * 5_000 + b"\r\n\r\n",
    b"Content-Length: " + b"1" * 1_000 + b"\r\n\r\n", b"Content-Length: 200000\r\n\r\n" + b"[" * 200_000, b"Content-Length: 100\r\n\r\n{",
    b'Content-Length: 7\r\n\r\n{"a":\xff}', b"Content-Length: 0\r\n\r\n",
)  # fmt: skip


def value(dice: random.Random, path: str, depth: int = 0) -> Any:
    """A value for an argument."""
    sort = dice.randrange(8 if depth < 3 else 5)
    if sort < 2:
        return dice.choice(TEXTS)
    if sort < 4:
        return dice.choice(NUMBERS)
    if sort == 4:
        return {"path": dice.choice([path, path, "main.go"])}
    if sort == 5:
        return line_of(dice, 20)
    inner = [value(dice, path, depth + 1) for _ in range(dice.randrange(3))]
    return inner if sort == 6 else {dice.choice(NAMES): item for item in inner}


def request(dice: random.Random, number: int, path: str) -> dict[str, Any]:
    """A request. Most of its arguments are those of its command."""
    command = dice.choice(REQUESTS)
    if command in ("disconnect", "terminate") and dice.random() < 0.9:
        command = "continue"
    own = [name for name in ARGUMENTS.get(command, "").split() if dice.random() < 0.9]
    arguments = {name: value(dice, path) for name in (*own, *dice.sample(NAMES, dice.choice([0, 0, 1, 2])))}
    if command == "launch" and dice.random() < 0.7:
        arguments = {"program": path, "stopAt": dice.choice(["end", "start", 3])}
    if command == "evaluate" and dice.random() < 0.6:
        arguments |= {"expression": line_of(dice, 20), "context": "repl"}
    others: list[Any] = [None, [], 7]
    given = arguments if dice.random() < 0.97 else dice.choice(others)
    return {"seq": number, "type": "request", "command": command, "arguments": given}


def framed(message: Any) -> bytes:
    data = json.dumps(message).encode("ascii")
    return b"Content-Length: %d\r\n\r\n%s" % (len(data), data)


def conversation(seed: str, path: str) -> tuple[list[dict[str, Any]], bytes]:
    """The requests of a seed, and the bytes that encode them."""
    dice = random.Random(seed)
    begun = [{"seq": 1, "type": "request", "command": "launch", "arguments": {"program": path}}]
    requests = begun if dice.random() < 0.9 else []
    requests = requests + [request(dice, number, path) for number in range(len(requests) + 1, dice.choice([5, 30, 60]))]
    return requests, dice.choice(HEADERS) if dice.random() < 0.5 else b""


def wrong(seed: str, folder: Path, program: str) -> str:
    """The fault in the messages to the editor; empty if they are right."""
    path = folder / "recording.jsonl"
    recording, _ = Author(random.Random(f"{seed} recording")).recording(20)
    path.write_bytes(write_plain(recording))
    requests, behind = conversation(seed, str(path))
    written = io.BytesIO()
    wire = EditorStreams(io.BytesIO(b"".join(map(framed, requests)) + behind), written)
    try:
        Adapter(wire, Reading(wire), program).serve()
    except MalformedMessageError:
        pass
    return answers_wrong(requests, messages_in(written.getvalue()))


def messages_in(data: bytes) -> list[dict[str, Any]] | None:
    """The messages in a stream; None if it is malformed."""
    found = []
    while data:
        head, _, data = data.partition(b"\r\n\r\n")
        length = int(head.removeprefix(b"Content-Length: "))
        found.append(json.loads(data[:length]))
        data = data[length:]
    return found


def answers_wrong(requests: list[dict[str, Any]], messages: list[dict[str, Any]] | None) -> str:
    """The fault of the answers: each request must have one answer, in the order of the requests, up to a
    `disconnect`."""
    if messages is None:
        return "the stream has something else than messages"
    wanted = [(request["seq"], request["command"]) for request in requests]
    ends = next((at for at, (_, command) in enumerate(wanted, 1) if command == "disconnect"), len(wanted))
    answered = [(message["request_seq"], message["command"]) for message in messages if message["type"] == "response"]
    if [message["seq"] for message in messages] != list(range(1, len(messages) + 1)):
        return "the messages aren't numbered"
    return "" if answered == wanted[:ends] else f"{wanted[:ends]} were asked, and {answered} were answered"
