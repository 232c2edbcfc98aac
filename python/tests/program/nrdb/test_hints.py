"""nrdb's texts about refused recordings and faulty lines: they equal stored texts, which name what to correct."""

import json
import re
from pathlib import Path

import pytest

from netrev.recording.answers import answer_text
from netrev.recording.recording import Recording, Step

from .common.support import EXAMPLES, NETREV, nrdb, recordings

HERE = Path(__file__).parent


def kept(name):
    """The contents of a data file of these tests."""
    return json.loads((HERE / name).read_text(encoding="utf-8"))


def test_each_bad_recording_is_explained(folder):
    rows = kept("bad_recordings.json")
    assert len(rows) == 76
    file = folder / "bad.jsonl"
    for row in rows:
        file.write_bytes(bytes.fromhex(row["hex"]) if "hex" in row else row["text"].encode())
        output = nrdb("--batch", file, status=row["status"]).splitlines()
        assert output == row["said"], row["name"]
        if row["status"]:
            assert re.search(r"^(line|step) \d+: fault 10\d ", output[0]), row["name"]
            assert all(line.startswith("| ") for line in output[1:]) and len(output) > 1, row["name"]


def test_files_that_cannot_be_read(folder):
    for file, text in ((folder, "Is a directory"), (f"{folder}/none", "No such file or directory")):
        assert nrdb("--batch", file, status=3) == f"| {file}: {text}\n"


def test_without_netrev():
    output = nrdb("--batch", "--netrev", f"{NETREV}.none", EXAMPLES / "first.jsonl", status=3)
    assert re.search(
        r"nrdb needs netrev.s program: `make .*netrev` builds it; NETREV or --netrev names another one", output
    )
    assert re.search(r"; `make .*look FILE=\S+/first.jsonl` opens the recording without proofs\n", output)


def answered_steps(recording: Recording) -> list[Step]:
    """The first and the last step of each kind with each of its answers."""
    chosen: dict[tuple[str, str], list[Step]] = {}
    for step in map(recording.step, range(1, recording.length + 1)):
        chosen.setdefault((step.kind, answer_text(step.answer)), [step, step])[1] = step
    return [step for first, last in chosen.values() for step in ([first] if first is last else [first, last])]


ANSWERED = {
    path.stem: recording for path in recordings() if (recording := Recording.read(str(path))).has_answers
}  # of version 2


@pytest.mark.parametrize("name", ANSWERED)
def test_the_machines_answer_is_told(folder: Path, name: str) -> None:
    recording, file = ANSWERED[name], folder / "other.jsonl"
    for step in answered_steps(recording):
        values = [step.kind, *step.arguments, "eof" if step.answer != "eof" else "done"]
        file.write_bytes(recording.before_line(step.line) + json.dumps(values).encode())
        output = nrdb("--batch", file, status=1).splitlines()
        assert output[0] == f"step {step.number}: fault 109 answer", step
        reply = [line.split("   ")[0] for line in output[2:4]]
        assert reply == [f"| recorded: {values[-1]}", f"| machine:  {answer_text(step.answer)}"], step


def test_the_examples_have_most_kinds() -> None:
    assert len({step.kind for recording in ANSWERED.values() for step in answered_steps(recording)}) >= 25


def test_each_bad_line_is_explained():
    rows = kept("bad_lines.json")
    assert len(rows) >= 104
    ending = [row for row in rows if row["said"] == ["bye"]]
    others = [row for row in rows if row not in ending]
    lines = [line for row in others for line in ("undisplay", "goto 3", row["line"])]
    output = answered(nrdb(EXAMPLES / "first.jsonl", lines=lines))[2::3]
    for row, (line, text) in zip(others, output, strict=True):
        assert line == row["line"].rstrip(), row["line"]
        is_begun = row["said"][-1:] == [".."]
        assert ([*text[: len(row["said"]) - 1], ".."] if is_begun else text) == row["said"], row["line"]
        if text and text[0].startswith("fault"):
            assert re.search(r"^\| \S", "".join(text[1:])), row["line"]
    for row in ending:
        assert answered(nrdb(EXAMPLES / "first.jsonl", lines=[row["line"]])) == [(row["line"], ["bye"])]


def answered(text):
    """The echoed lines, each with the text about it."""
    found: list[tuple[str, list[str]]] = []
    for line in text.splitlines():
        if line.startswith("(netrev) "):
            found.append((line[len("(netrev) ") :], []))
        elif found:
            found[-1][1].append(line)
    return found
