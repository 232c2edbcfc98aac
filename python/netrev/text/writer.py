"""Recordings as text, in netrev's own form."""

import json

from .contents import Answer, Contents, Step


def header_of(recording: Contents) -> dict[str, int]:
    return {"netrev": recording.version, **recording.limits._asdict()}


def json_answer(answer: Answer) -> object:
    """The JSON value of an answer in a recording."""
    return answer[0] if len(answer) == 1 else list(answer)


def line_of(step: Step, answer: Answer | None) -> str:
    """A step as a line of compact JSON, with its recorded answer, if any."""
    parts = [part.hex() if isinstance(part, bytes) else part for part in step]
    return json.dumps(parts + ([json_answer(answer)] if answer else []), separators=(",", ":"))


def write_plain(recording: Contents) -> bytes:
    """The text of a recording as netrev writes it."""
    header = json.dumps(header_of(recording), separators=(",", ":"), sort_keys=True)
    lines = [header, *map(line_of, recording.steps, recording.answers)]
    return "".join(f"{line}\n" for line in lines).encode()
