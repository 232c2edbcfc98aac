"""Replays a parsed recording, step by step."""

from collections.abc import Callable, Iterator

from netrev.text.contents import Answer, Contents, Step
from netrev.text.parser import FaultError

from .machine import StepRefusedError, World
from .observer import Observer
from .steps import apply


def differs(recorded: Answer, answer: Answer) -> bool:
    """Whether a recorded answer differs from the machine's."""
    return recorded != answer


def answers(recording: Contents, observer: Observer, make: Callable[[Step], Answer]) -> Iterator[Answer]:
    """Makes each step and yields its answer. Raises the Fault of the first step that doesn't apply or whose recorded
    answer differs. The observer gets each step."""
    for number, (step, recorded) in enumerate(zip(recording.steps, recording.answers), 1):
        try:
            answer = make(step)
        except StepRefusedError as refused:
            observer.refused(step[0], refused.reason)
            raise FaultError(f"step {number}: fault 107 reason {refused.reason}") from refused
        if recorded is not None and differs(recorded, answer):
            observer.differed(step[0], recorded, answer)
            raise FaultError(f"step {number}: fault 109 answer")
        observer.applied(step[0], answer)
        yield answer


def positions(recording: Contents, observer: Observer) -> Iterator[tuple[World, Answer | None]]:
    """The state of each position in order, with the answer that led to it; raises the first Fault."""
    world = World(recording.limits)
    yield world, None

    def make(step: Step) -> Answer:
        nonlocal world
        world, answer = apply(world, step)
        return answer

    for answer in answers(recording, observer, make):
        yield world, answer
