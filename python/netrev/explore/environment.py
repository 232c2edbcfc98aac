"""The environment of the goroutines: the network at each socket, timers and the clock, and unknown goroutines. Each of
them performs its recorded actions in their recorded order."""

from collections import defaultdict
from collections.abc import Iterator

from netrev.text.contents import Step

from .control_flow import MissingObjectError
from .numbered_state import NumberedState
from .script import Action, Script

MOST_TRIES = 200
GOROUTINE, CLOCK, UNKNOWN, NETWORK = range(4)  # the kinds of actors
CHANGING = frozenset(("arrive", "peerclose", "drain", "increfclose", "pollevent"))  # the steps that `record` needs

Actor = tuple[int, int]  # a kind, and the number of a goroutine or of a socket


class Environment:
    """The progress of the environment in a run."""

    def __init__(self, script: Script) -> None:
        self.script = script
        self.performed: dict[Actor, int] = defaultdict(int)  # for each actor, the number of its actions so far
        self.events: set[int] = set()  # the events that have come, by their numbers in the recording
        # for a socket's number and side, whether bytes, space or a close came that no event has reported yet
        self.unreported: dict[tuple[int, str], bool] = {}
        self.closed: set[int] = set()  # the numbers of sockets on which no goroutine can begin to wait any more
        self.tries: dict[int, int] = {}

    def copy(self) -> "Environment":
        copy = Environment(self.script)
        copy.performed, copy.events = defaultdict(int, self.performed), set(self.events)
        copy.unreported, copy.tries, copy.closed = dict(self.unreported), dict(self.tries), set(self.closed)
        return copy

    def is_equivalent_to(self, other: "Environment") -> bool:
        """Whether both have made the same progress."""
        return self._unreported() == other._unreported() and self.performed == other.performed

    def is_identical_to(self, other: "Environment") -> bool:
        """Whether both continue in exactly the same way."""
        mine = self.performed, self.events, self.unreported, self.closed, self.tries
        return mine == (other.performed, other.events, other.unreported, other.closed, other.tries)

    def _unreported(self) -> set[tuple[int, str]]:
        return {which for which, is_new in self.unreported.items() if is_new and which[0] not in self.closed}

    def _actions(self, actor: Actor) -> list[Action]:
        kind, number = actor
        if kind == NETWORK:
            return self.script.network[number]
        return self.script.clock if kind == CLOCK else self.script.creations

    def first_due(self) -> Iterator[tuple[float, Actor]]:
        """The due time of each actor's first action."""
        for actor in [(CLOCK, 0), (UNKNOWN, 0), *((NETWORK, s) for s in self.script.network)]:
            if actions := self._actions(actor):
                yield actions[0].due, actor

    def next(self, actor: Actor) -> Action | None:
        """The next action of an actor."""
        actions, at = self._actions(actor), self.performed[actor]
        return actions[at] if at < len(actions) else None

    def finish(self, actor: Actor, action: Action) -> None:
        """Records that an actor has performed an action."""
        if action.event.kind == "pollevent":
            self.events.add(action.event.number)
        self.performed[actor] += 1

    def record(self, step: Step, state: NumberedState) -> None:
        """Updates the unreported sides and the closed sockets after a step."""
        kind = step[0]
        if kind in ("arrive", "peerclose"):
            self.unreported[step[1], "r"] = True
        elif kind == "drain":
            self.unreported[step[1], "w"] = True
        elif kind == "increfclose":
            self.closed.add(step[2])
        elif kind == "pollevent" and state.machine.is_open(step[1]):
            desc = state.machine.descs[step[1]]
            if step[2] == desc.fdseq:
                for side in step[3]:
                    self.unreported[desc.socket, side] = False

    # ---- steps

    def steps_of(self, action: Action, state: NumberedState) -> list[Step] | None:
        """The steps of an action that is due. The result is empty if the action has no place in this schedule, and None
        if the action must wait. Raises MissingObjectError if the action's object doesn't exist yet."""
        kind, arguments = action.event.kind, action.event.arguments
        if kind in ("spawn", "sockopen"):
            return [(kind, *arguments)]
        if kind == "tick":
            return [(kind, arguments[0])] if arguments[0] >= state.machine.clock else []
        if kind == "pop":
            return self._pops(action, state)
        if kind == "fire":
            return self._fires(action, state)
        if kind == "pollevent":
            return self._event(action, state)
        if arguments[0] not in state.sockets:
            raise MissingObjectError
        return self._transfer(action, state)

    def _pops(self, action: Action, state: NumberedState) -> list[Step]:
        """The steps by which timers go off, up to the timer of this action."""
        assert action.timer
        wanted = state.descriptors.get(action.timer[0]), action.timer[1]
        due = [timer for timer in state.machine.timers if timer.when <= state.machine.clock]
        at = next((at for at, timer in enumerate(due) if (timer.desc, timer.side) == wanted), None)
        return [] if at is None else [("pop",)] * (at + 1)

    def _fires(self, action: Action, state: NumberedState) -> list[Step]:
        assert action.timer
        wanted = state.descriptors.get(action.timer[0]), action.timer[1]
        places = [at for at, firing in enumerate(state.machine.firings) if (firing.desc, firing.side) == wanted]
        return [("fire", places[0])] if places else []

    def _event(self, action: Action, state: NumberedState) -> list[Step]:
        use, tag, mode, error = action.event.arguments
        if use not in state.descriptors:
            raise MissingObjectError
        offset = tag - (self.script.ordinals[use] + 1)
        return [("pollevent", state.descriptors[use], max(state.fdseqs[use] + offset, 0), mode, error)]

    def _transfer(self, action: Action, state: NumberedState) -> list[Step] | None:
        """The step by which bytes come or go, or by which the peer closes."""
        kind, (recorded, *value) = action.event.kind, action.event.arguments
        s = state.sockets[recorded]
        socket = state.machine.sockets[s]
        if kind != "drain" and socket.peer_closed:
            return []
        if kind == "arrive" and len(socket.buffers[0]) + len(value[0]) > socket.capacities[0]:
            return self._try_later(action)
        if kind == "drain" and len(socket.buffers[1]) < value[0]:
            return self._try_later(action)
        return [(kind, s, *value)]

    def _try_later(self, action: Action) -> list[Step] | None:
        """Lets an action wait for room or bytes; after some tries, drops the action."""
        number = action.event.number
        self.tries[number] = self.tries.get(number, 0) + 1
        return None if self.tries[number] < MOST_TRIES else []

    def remaining_steps(self, state: NumberedState) -> Iterator[Step]:
        """The steps that remain when no goroutine continues: due timers, and events that report bytes or a close."""
        machine = state.machine
        if machine.firings:
            yield "fire", 0
        if machine.timers and machine.timers[0].when <= machine.clock:
            yield ("pop",)
        for status in machine.goroutines:
            if status[0] == "parked" and self.unreported.get((machine.descs[status[1]].socket, status[2])):
                yield "pollevent", status[1], machine.descs[status[1]].fdseq, status[2], 0


def steps_past_deadline(state: NumberedState, step: Step) -> list[Step]:
    """The steps that let the deadline of a step's descriptor pass: the clock advances, and timers go off."""
    if step[0] != "pollreset":
        return []
    timers, clock = state.machine.timers, state.machine.clock
    own = (timer.when for timer in timers if timer.desc == step[2] and step[3] in timer.covers)
    due = max(own, default=0)
    count = sum(timer.when <= due for timer in timers)
    return [("tick", max(due, clock)), *[("pop",)] * count, *[("fire", 0)] * count] if count else []
