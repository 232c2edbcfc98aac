"""Calls that hang. A goroutine is parked without a deadline in a call that a deadline ended in the recording. The
schedule must have set that deadline too. If the goroutine that sets the deadline hangs or waits instead, the call hangs
for another reason."""


from netrev.machine.machine import SIDES, Status, World
from netrev.run.flow import OperationType

from .control_flow import Operation, ScriptPlace
from .numbered_state import AnsweredStep
from .script import Script, operations_of

TIMED_OUT = ("code", 2)


def waits_for_ever(status: Status, world: World) -> bool:
    """Whether a parked goroutine has no deadline."""
    return not world.descs[status[1]].deadlines[SIDES.index(status[2])]


def hangs(script: Script, g: int, place: ScriptPlace, world: World, steps: list[AnsweredStep]) -> bool:
    """Whether a goroutine hangs at its place after these steps."""
    status = world.goroutines[g]
    if status[0] != "parked" or not waits_for_ever(status, world):
        return False
    ended = ended_by(script, g, place)
    return ended is not None and any(step.number == ended for step in steps)


def ended_by(script: Script, g: int, place: ScriptPlace) -> int | None:
    """The step that set the deadline which ended a goroutine's call in the recording; None if the call ended in another
    way."""
    operations = script.goroutines[g]
    operation = operations[place.operation]
    last = next((part.steps[-1] for part in reversed(operations[: place.operation + 1]) if part.steps), 0)
    if not last or script.answers[last - 1] != TIMED_OUT:
        return None
    return max((number for number in _sets(script, operation) if number < last), default=None)


def _sets(script: Script, operation: Operation) -> list[int]:
    """The steps that set a deadline for the side on which an operation waits."""
    sets = (setting for _, setting in operations_of(script, OperationType.SET))
    return [setting.steps[0] for setting in sets if setting.use == operation.use and operation.side in setting.side]


def moved_by(script: Script, g: int, place: ScriptPlace, steps: list[AnsweredStep]) -> tuple[int, int]:
    """Two of the steps before a goroutine hangs: the step that set the deadline which ended its call in the recording,
    and the step that moved this deadline."""
    ended, sets = ended_by(script, g, place), set(_sets(script, script.goroutines[g][place.operation]))
    set_at = next(at for at, step in enumerate(steps, 1) if step.number == ended)
    return set_at, max(at for at, step in enumerate(steps, 1) if step.number in sets)
