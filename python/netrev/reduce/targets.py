"""What a reduced recording must still show: a suspect, a cell with a value at the end, or some steps."""

from abc import ABC, abstractmethod
from collections.abc import Sequence
from fnmatch import fnmatchcase

from netrev.findings.suspects.ranking import suspects_of
from netrev.findings.suspects.suspect import Suspect
from netrev.machine.cells import value as value_of_cell
from netrev.machine.machine import INSIDE
from netrev.recording.cell_meanings import in_words
from netrev.run.changes import PlayedSteps
from netrev.text.vocabulary import CELLS, ObjectKind

from .events import Events
from .replay import ReplayPlayer

LETTER = {ObjectKind.GOROUTINE: "g", ObjectKind.SOCKET: "s", ObjectKind.DESCRIPTOR: "d"}


class ReductionTarget(ABC):
    """A target: what a reduced recording must show, with its goroutine, socket and use, and the steps at which it
    happens."""

    goroutine: int | None = None
    socket: int | None = None
    use: int | None = None
    steps: list[int]

    @abstractmethod
    def shows(self, player: ReplayPlayer) -> bool:
        """Whether the player's state shows the target."""


class SuspectTarget(ReductionTarget):
    """A suspect. The same rule must find it for the same objects, with no less weight and no lower rank."""

    def __init__(self, events: Events, suspect: Suspect, rank: int) -> None:
        self.suspect, self.rank = suspect, rank
        self.goroutine, self.socket = suspect.goroutine, suspect.socket
        self.use = None if suspect.descriptor is None else events.use_at(suspect.descriptor, suspect.step)
        self.steps = [suspect.step, *suspect.steps]

    def shows(self, player: ReplayPlayer) -> bool:
        ranked = suspects_of(PlayedSteps(step for step, _ in player.steps))
        found = [suspect for suspect in ranked.suspects[: self.rank] if suspect.is_shown]
        named = (("g", self.goroutine), ("s", self.socket), ("d", self.use))
        mine = [None if which is None else player.numbers[form].get(which, -1) for form, which in named]
        return any(
            suspect.rule == self.suspect.rule
            and suspect.weight >= self.suspect.weight
            and [suspect.goroutine, suspect.socket, suspect.descriptor] == mine
            for suspect in found
        )


class CellTarget(ReductionTarget):
    """A cell that has a value after the last remaining step. Numbers in the value are the recording's."""

    def __init__(self, events: Events, cell: str, wanted: str, position: int) -> None:
        name, *number = cell.split()
        self.name, self.wanted, self.steps = name, wanted, [position]
        self.which: int | None = None
        self.of = CELLS[name].of
        if self.of is ObjectKind.DESCRIPTOR:
            self.which = self.use = events.use_at(int(number[0]), position)
            self.socket = None if self.use is None else events.uses[self.use].socket
        elif number:
            self.which = int(number[0])
            self.goroutine = self.which if self.of is ObjectKind.GOROUTINE else None
            self.socket = self.which if self.of is ObjectKind.SOCKET else None
        self._descriptors = {use: descriptor_use.descriptor for use, descriptor_use in enumerate(events.uses)}

    def shows(self, player: ReplayPlayer) -> bool:
        number = None
        if self.which is None and self.of is not ObjectKind.ALL:  # the recording has no such use of a descriptor
            return False
        if self.which is not None:
            number = player.numbers[LETTER[self.of]].get(self.which)
            if number is None:
                return False
        value = self._with_recorded_numbers(player, str(value_of_cell(player.world, self.name, number)))
        return fnmatchcase(value, self.wanted) or fnmatchcase(in_words(self.name, value), self.wanted)

    def _with_recorded_numbers(self, player: ReplayPlayer, value: str) -> str:
        """A value with the recording's numbers."""
        if self.name in ("rg", "wg") and value.startswith("g"):
            return f"g{_back(player.numbers['g'], int(value[1:]))}"
        words = value.split()
        if self.name != "gor" or len(words) < 2:
            return value
        if words[0] in INSIDE:
            words[1] = str(self._descriptors[_back(player.numbers["d"], int(words[1]))])
        else:
            words[1] = str(_back(player.numbers["s"], int(words[1])))
        return " ".join(words)


class HangTarget(CellTarget):
    """A goroutine that is parked without a deadline at the end. Some steps, such as the settings of its deadline, must
    remain too."""

    def __init__(self, events: Events, g: int, steps: Sequence[int], position: int) -> None:
        super().__init__(events, f"gor {g}", "parked *", position)
        self.steps = [*steps, position]
        self.required = {number - 1 for number in steps}
        sockets = (events.socket_of(events.all[number - 1]) for number in steps)
        self.socket = next((socket for socket in sockets if socket is not None), None)

    def shows(self, player: ReplayPlayer) -> bool:
        if not self.required.issubset(player.chosen) or not super().shows(player):
            return False
        status = player.world.goroutines[player.numbers["g"][self.which or 0]]
        return not player.world.descs[status[1]].deadlines["rw".index(status[2])]


def _back(numbers: dict[int, int], number: int) -> int:
    """The object with this number. If several objects have had the number, it is the last of them."""
    return max(which for which, its in numbers.items() if its == number)
