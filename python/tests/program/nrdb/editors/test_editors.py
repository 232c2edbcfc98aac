"""examples/editors: the messages between an editor and the adapter, one by one."""

import json
from typing import Any

from tests.program.nrdb.common.dap_client import Adapter
from tests.program.nrdb.common.support import EXAMPLES

CONVERSATION = EXAMPLES / "editors/lost-wakeup.dap"
RECORDING = "lost-wakeup.jsonl"
ASKS, SAYS = "> ", "< "


def conversation() -> list[tuple[str, dict[str, Any]]]:
    """The messages, each with its sender."""
    lines = CONVERSATION.read_text(encoding="utf-8").splitlines()
    return [(line[:2], json.loads(line[2:])) for line in lines]


def as_told(message: dict[str, Any]) -> Any:
    """A message in the form that is stored: without message numbers, and with the recording's name in place of its
    path."""
    kept = {name: value for name, value in message.items() if name not in ("seq", "request_seq", "type")}
    return json.loads(json.dumps(kept).replace(json.dumps(str(EXAMPLES / RECORDING)), json.dumps(RECORDING)))


def test_it_is_said_so():
    result = conversation()
    assert len(result) > 20
    with Adapter() as editor:
        for number, (sender, message) in enumerate(result, 1):
            if sender == SAYS:
                assert as_told(editor.message() or {}) == message
                continue
            arguments = dict(message.get("arguments", {}))
            if message["command"] == "launch":
                arguments["program"] = str(EXAMPLES / RECORDING)
            editor.send({"seq": number, "type": "request", "command": message["command"], "arguments": arguments})
