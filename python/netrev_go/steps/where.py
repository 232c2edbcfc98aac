"""Writes NAME.where, the file of source lines beside a recording (docs/reference/RECORDING.md has the format)."""

from __future__ import annotations

import json
import pathlib
from collections.abc import Iterable, Sequence

from netrev.text.files import written_whole
from netrev_go.log.orders import parts
from netrev_go.log.socket_facts import Beside
from netrev_go.log.source_lines import OF_A_LIBRARY, OF_THE_PROGRAM, Calls, LineCall
from netrev_go.log.times import deltas

from .goroutine_records import HELD, Everybody

STEPS_A_LINE = 1_000
of_json = json.JSONEncoder(separators=(",", ":")).encode
Order = tuple[int, int]


class NumberedLines:
    """The lines of the file: each call and each stack once, numbered from 1 in the order of their first use."""

    def __init__(self, calls: dict[int, Calls]) -> None:
        self.stacks = calls
        self.lines: list[str] = []
        self.calls: dict[LineCall, int] = {}
        self.numbers: dict[int, int] = {}

    def add(self, value: object) -> None:
        self.lines.append(of_json(value) + "\n")

    def call(self, call: LineCall) -> int:
        if call not in self.calls:
            self.calls[call] = len(self.calls) + 1
            self.add({"call": self.calls[call], **call._asdict()})
        return self.calls[call]

    def stack(self, key: int) -> int:
        """The number of a stack; 0 for none."""
        if key not in self.stacks or not self.stacks[key].calls:
            return 0
        if key not in self.numbers:
            known = self.stacks[key]
            calls = [self.call(call) for call in known.calls]
            starter = {"made": self.call(known.made)} if known.made else {}
            self.numbers[key] = len(self.numbers) + 1
            self.add({"stack": self.numbers[key], "calls": calls, **starter})
        return self.numbers[key]

    def made(self, key: int) -> int:
        """The file's number for the call that ran the `go` statement of a stack's goroutine; 0 for none."""
        known = self.stacks.get(key)
        return self.call(known.made) if known and known.made else 0


def write_where(
    name: pathlib.Path,
    stacks: list[int],
    calls: dict[int, Calls],
    orders: list[Order] | None = None,
    beside: Beside = Beside(),
    more: Iterable[object] = (),
    times: list[int] | None = None,
    everybody: Everybody | None = None,
    permissions: int = 0o666,
) -> None:
    """Writes the file of a recording whose steps have these stacks and orders, with the log's other facts, further
    lines, the steps' times, and all goroutines. A new file gets these permissions."""
    numbered = NumberedLines(calls)
    numbered.add({"where": 1 if everybody is None else 2, "steps": len(stacks)})
    number_of = {key: str(numbered.stack(key)) for key in dict.fromkeys(stacks)}.__getitem__
    for first in range(0, len(stacks), STEPS_A_LINE):
        numbers = ",".join(map(number_of, stacks[first : first + STEPS_A_LINE]))
        numbered.lines.append(f'{{"step":{first + 1},"stacks":[{numbers}]}}\n')
    for part in parts(orders, STEPS_A_LINE) if orders is not None else ():
        numbered.add({"orders": part})
    of_sockets: dict[str, Sequence[object]] = {
        "peers": beside.peers, "ends": beside.ends, "addresses": beside.addresses, "sent": beside.sent, "sizes": beside.sizes,
        "errors": beside.errors,
    }  # fmt: skip
    for what, pairs in of_sockets.items():
        for first in range(0, len(pairs), STEPS_A_LINE):
            numbered.add({what: pairs[first : first + STEPS_A_LINE]})
    waits = [wait._replace(stack=numbered.stack(wait.stack)) for wait in beside.waits]
    for first in range(0, len(waits), STEPS_A_LINE):
        numbered.add({"waits": waits[first : first + STEPS_A_LINE]})
    for line in more:
        numbered.add(line)
    later = deltas(times or [])
    for first in range(0, len(later), STEPS_A_LINE):
        numbered.add({"times": later[first : first + STEPS_A_LINE]})
    for what, values in everybody.lines(calls, numbered.stack, numbered.made) if everybody else ():
        if what == HELD and not values:
            numbered.add({what: []})
        for first in range(0, len(values), STEPS_A_LINE):
            numbered.add({what: values[first : first + STEPS_A_LINE]})
    written_whole(name, "".join(numbered.lines).encode("ascii"), permissions)


def own_line(calls: Calls) -> tuple[LineCall, str] | None:
    """The innermost line of the program, or else of a library, and the function called there."""
    for wanted in ((OF_THE_PROGRAM,), (OF_THE_PROGRAM, OF_A_LIBRARY)):
        inner = ""
        for call in calls.calls:
            if call.of in wanted:
                return call, inner
            inner = call.function
    return None
