"""The sequence diagram of `report`: each step occurs once, in order, the steps of the story have notes, and text from a
recording is escaped."""

import re
from pathlib import Path

from netrev.recording.recording import Recording
from netrev.recording.where import SourceCall, Stack
from netrev.timeline.sequence import MOST, sequence, spelled

REAL = Path(__file__).resolve().parents[3] / "examples/real"
HOSTILE = "</text><script>alert(1)</script>\u202e--><!-- \"':;#%%{}\n    end"


def test_each_step_is_a_message_in_its_order() -> None:
    recording = Recording.read(str(REAL / "leak.jsonl"))
    diagram = sequence(recording, {"steps": [61, 71]})
    assert diagram.splitlines()[0] == "sequenceDiagram"
    messages = re.findall(r"^    (\w+)->>(\w+): (\d+) (\w+)", diagram, re.MULTILINE)
    assert [int(message[2]) for message in messages] == list(range(1, recording.length + 1))
    for sender, receiver, number, kind in messages:
        step = recording.step(int(number))
        g, s = step.argument("g"), step.argument("s")
        assert (kind, sender) == (step.kind, "net" if g is None else f"g{g}")
        assert s is None or receiver == f"s{s}"
    participants = set(re.findall(r"^    participant (\w+) as ", diagram, re.MULTILINE))
    assert {name for message in messages for name in message[:2]} <= participants
    assert len(re.findall(r"^    Note over g[24]: [12]\. ", diagram, re.MULTILINE)) == 2


def test_text_from_a_recording_is_escaped() -> None:
    recording = Recording.read(str(REAL / "lost.jsonl"))
    stacks = recording.lines.stacks
    for number, stack in stacks.items():
        stacks[number] = Stack(tuple(SourceCall(HOSTILE, HOSTILE, 7, "program") for _ in stack.calls), stack.made)
    for line in sequence(recording, None).splitlines()[1:]:
        head, _, message = line.partition(": ")
        assert not re.search(r"[<>\"{}%]|:(?! )", message if "->>" in line else "")
        assert re.match(r"    (participant|\w+->>\w+)", head)
    assert spelled("a;b#c\nd") == "a#59;b#35;c#92;nd"


def test_a_long_recording_has_no_diagram() -> None:
    recording = Recording.read(str(REAL / "hung.jsonl"))
    assert recording.length > MOST
    assert sequence(recording, None) == ""
