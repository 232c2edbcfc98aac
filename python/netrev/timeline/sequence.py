"""The steps of a short recording as a sequence diagram in Mermaid, which code hosts draw: goroutines, sockets and the
network, with a message for each step."""

from collections.abc import Iterator

from netrev.recording.recording import Recording, Step
from netrev.run.index import run_of
from netrev.text.plain import plain

from .calls import Data, names_data
from .cell_runs import Window

MOST = 200  # a diagram with more steps is unreadable
NETWORK = "net"
PLAIN = frozenset(" .,-_/*()'+=")  # characters allowed besides letters and digits; Mermaid interprets all others


def sequence(recording: Recording, story: Data | None) -> str:
    """The diagram, with notes at a story's steps; empty if the recording has too many steps."""
    if recording.length > MOST:
        return ""
    return "\n".join(["sequenceDiagram", *(f"    {line}" for line in _lines(recording, story))])


def spelled(text: str) -> str:
    """Text from outside, escaped for Mermaid: each character that has a meaning in Mermaid is written as a number."""
    return "".join(
        character if character.isalnum() or character in PLAIN else f"#{ord(character)};" for character in plain(text)
    )


def _lines(recording: Recording, story: Data | None) -> Iterator[str]:
    run = run_of(recording)
    names = names_data(recording, Window(0, recording.length))
    yield from (
        f"participant g{g} as {spelled(f'g{g} {names.get(g, str())}'.strip())}"
        for g in sorted(set(run.owners.goroutines) - {-1})
    )
    yield f"participant {NETWORK} as network and clock"
    yield from (f"participant s{s} as socket {s}" for s in sorted(set(run.owners.sockets) - {-1}))
    numbers = {step: number for number, step in enumerate(story["steps"], 1)} if story else {}
    for number in range(1, recording.length + 1):
        step, g, s = recording.step(number), run.goroutine_of(number), run.socket_of(number)
        participant = NETWORK if g < 0 else f"g{g}"
        yield f"{participant}->>{participant if s < 0 else f's{s}'}: {number} {spelled(_step_text(step, recording))}"
        if number in numbers:
            line = recording.lines.words(number)
            yield f"Note over {participant}: {numbers[number]}. {spelled(line or step.kind)}"


def _step_text(step: Step, recording: Recording) -> str:
    """A step as text, with its line, if known."""
    place = recording.lines.of(step.number).own()
    return str(step) + (f" ({place[0].place()})" if place else "")
