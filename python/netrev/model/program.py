"""The model of netrev's program: the output of `run`, `check`, `upgrade`, `changes` and `suspects` for the bytes of a
recording."""

from collections.abc import Callable, Iterable
from typing import NamedTuple

from netrev.errors import NetrevError
from netrev.machine.invariants import breaches
from netrev.machine.machine import World
from netrev.machine.observer import Observer
from netrev.machine.replay import positions
from netrev.text.contents import Answer
from netrev.text.contents import Contents as Text
from netrev.text.jsontext import DoubtfulNumberError
from netrev.text.parser import FaultError, read_text
from netrev.text.writer import write_plain

from .changes import changes
from .session import ModelSession, recording_of, replies_to
from .suspects import suspects

HELD = 500  # the number of positions whose states are checked
Listed = Callable[[bytes, Observer], tuple[list[str], bool]]
LISTS: dict[str, Listed] = {
    "changes": changes,
    "suspects": suspects,
}  # subcommands that print lines and then the output of `check`


class Printed(NamedTuple):
    """An exit status, the standard output, and the reason, if any, why the output can't be right."""

    status: int
    output: bytes
    wrong: str = ""


class BrokenInvariantError(NetrevError):
    """Raised if the model reached a state that isn't well formed."""


class ReplayedRecording(NamedTuple):
    """A recording whose steps all apply, with the states of its positions and the answers."""

    text: Text
    worlds: list[World]
    answers: list[Answer]


def replay(
    recording: bytes, observer: Observer, keeps_worlds: bool = True, keeps_answers: bool = True
) -> ReplayedRecording:
    """Replays the recording. Raises FaultError if the recording has a fault, and DoubtfulNumberError if the model can't
    decide. The result has the states and the answers only if the caller asks for them."""
    text = read_text(recording)
    worlds, answers = held_together(positions(text, observer), keeps_worlds, keeps_answers)
    return ReplayedRecording(text, worlds, answers)


def held_together(
    replayed: Iterable[tuple[World, Answer | None]], keeps_worlds: bool, keeps_answers: bool
) -> tuple[list[World], list[Answer]]:
    """The states of all positions, and the answers. Checks that the first states are well formed."""
    worlds, answers = [], []
    for position, (world, answer) in enumerate(replayed):
        if position < HELD and (broken := breaches(world)):
            raise BrokenInvariantError(f"the model's state at position {position} isn't well-formed: {broken}")
        if keeps_worlds:
            worlds.append(world)
        if keeps_answers and answer is not None:
            answers.append(answer)
    return worlds, answers


def printed(program: str, recording: bytes, script: bytes, observer: Observer) -> Printed | None:
    """The output of `netrev SUBCOMMAND` over this recording, for `run` with this script; None if the model can't
    decide."""
    try:
        if program in LISTS:
            lines, is_good = LISTS[program](recording, observer)
            return Printed(0 if is_good else 1, "".join(f"{line}\n" for line in lines).encode())
        replayed = replay(recording, observer, program == "run", program == "upgrade")
    except FaultError as fault:
        observer.printed(str(fault))
        return Printed(1, f"{fault}\n".encode())
    except DoubtfulNumberError:
        return None
    except BrokenInvariantError as broken:
        return Printed(0, b"", str(broken))
    text = replayed.text
    if program == "check":
        return Printed(0, f"ok {len(text.steps)} steps\n".encode())
    if program == "upgrade":
        return Printed(0, write_plain(text._replace(version=2, answers=replayed.answers)))
    replies = replies_to(ModelSession(recording_of(text.steps, replayed.worlds), observer), script)
    return Printed(0, "".join(f"{line}\n" for line in replies).encode())
