"""What an editor shows: goroutines as threads, their stacks, and cells as variables."""

from collections.abc import Sequence
from dataclasses import dataclass
from pathlib import Path

from netrev.connection.world import PositionValues
from netrev.messages import editors as texts
from netrev.recording.cell_meanings import status_words
from netrev.recording.waits import Name, waits_of
from netrev.recording.where import OF_THE_PROGRAM, SourceCall, Stack
from netrev.run.index import run_of
from netrev.text.plain import plain
from netrev.text.vocabulary import CELLS, KINDS, ObjectKind, cell_of
from netrev.views.goroutine_stacks import stack_of

from .debuggee import Debuggee, Maker
from .memory import reference_of
from .messages import Body, UnanswerableError
from .roots import Roots

NETWORK = 65_536  # the number of the network's thread; the number of a goroutine's thread is at most 4,096
GOIDS = 10**6  # the thread number of a goroutine without steps is this plus Go's own number
IN_QUEUES = ("acquiring", "queued", "relock", "owing")  # statuses that name a socket


def thread_of(maker: Maker) -> int:
    """A maker's thread number in the protocol, from 1."""
    return NETWORK if maker is None else maker + 1


def maker_of(thread: int) -> Maker:
    """The maker with this thread number; raises UnanswerableError if no maker has that number."""
    if thread == NETWORK:
        return None
    if thread > GOIDS:
        raise UnanswerableError(texts.GOID_IS_IDLE.format(goid=thread - GOIDS))
    if not 0 < thread < NETWORK:
        raise UnanswerableError(texts.NO_GOROUTINE)
    return thread - 1


@dataclass(frozen=True)
class Frame:
    """A frame of the stack of a goroutine, or of the network."""

    maker: Maker
    step: int


@dataclass(frozen=True)
class Cells:
    """The cells of an object: the whole machine, a goroutine, a socket or a descriptor."""

    of: ObjectKind
    number: int = 0

    def names(self) -> list[str]:
        """The names of the cells, as commands spell them."""
        return [
            cell.name if self.of is ObjectKind.ALL else f"{cell.name} {self.number}"
            for cell in CELLS.values()
            if cell.of is self.of
        ]

    @property
    def title(self) -> str:
        return "machine" if self.of is ObjectKind.ALL else f"{self.of.value} {self.number}"


@dataclass(frozen=True)
class Every:
    """All objects of a kind."""

    of: ObjectKind


Thing = Frame | Cells | Every


def place_words(stack: Stack | None) -> str:
    """The place of a stack in the program, as text."""
    own = stack.own() if stack else None
    return f" in {plain(own[0].function)} at {plain(own[0].place())}" if own else ""


class Handles:
    """The numbers by which the editor names objects. A number is valid until the next move, and is never reused."""

    def __init__(self) -> None:
        self._things: dict[int, Thing] = {}
        self._given = 0

    def give(self, thing: Thing) -> int:
        self._given += 1
        self._things[self._given] = thing
        return self._given

    def take(self, number: int) -> Thing:
        """The object with this number; raises UnanswerableError if the number was given before a move."""
        if number not in self._things:
            raise UnanswerableError(texts.OTHER_POSITION)
        return self._things[number]

    def forget(self) -> None:
        self._things.clear()


class Looks:
    """Reads values at the session's position. If `goes_first`, the program's own line, if known, comes before the
    recording's line."""

    def __init__(self, debuggee: Debuggee, goes_first: bool, roots: Roots):
        self._debuggee, self._goes_first, self._roots = debuggee, goes_first, roots
        self.handles = Handles()

    @property
    def _world(self) -> PositionValues:
        return self._debuggee.session.world()

    def threads(self) -> list[Body]:
        """The threads: first the goroutines that aren't gone, then waiting goroutines without steps, and last the
        network with the clock. The name of a goroutine's thread says what the goroutine does and, if known, its
        function and line in the program."""
        world, recording = self._world, self._debuggee.recording
        statuses = world.of_each(range(world.count(ObjectKind.GOROUTINE)), "gor")
        goroutines = [goroutine for goroutine, (status,) in statuses.items() if status != "gone"]
        waits = {wait.name: wait for wait in waits_of(recording).all_at(self._debuggee.position)}
        stacks = self._stacks(goroutines) if recording.lines else {}
        threads = []
        for goroutine in goroutines:
            wait = waits.get(Name(goroutine)) if statuses[goroutine][0] == "idle" else None
            does, stack = (wait.does, wait.stack) if wait else (statuses[goroutine][0], stacks.get(goroutine))
            goid = recording.lines.reused_goid(goroutine, self._debuggee.position)
            name = f"goroutine {goroutine}{f' (goid {goid})' if goid else ''}"
            threads.append({"id": thread_of(goroutine), "name": f"{name}: {does}{place_words(stack)}"})
        for other, wait in sorted(waits.items()):
            if other.is_goid:
                threads.append({"id": GOIDS + other.number, "name": f"{other}: {wait.does}{place_words(wait.stack)}"})
        return [*threads, {"id": NETWORK, "name": "network and clock"}]

    def _stacks(self, goroutines: Sequence[int]) -> dict[int, Stack]:
        """The stack of each goroutine's last step."""
        recording = self._debuggee.recording
        steps = run_of(recording).last_steps(goroutines, self._debuggee.position)
        return {goroutine: recording.lines.of(step) for goroutine, step in steps.items()}

    def frames_of(self, thread: int) -> list[Body]:
        """The stack of a thread."""
        if thread <= GOIDS:
            return self.frames(maker_of(thread))
        found = stack_of(self._debuggee.recording, Name(thread - GOIDS, True), self._debuggee.position)
        if found is None:
            raise UnanswerableError(texts.NO_GOROUTINE)
        frame = Frame(None, found.since)
        calls = [self._call_frame(frame, call) for call in found.stack.calls]
        return self._ordered(found.stack, calls, [self._label(frame, found.does)])

    def frames(self, maker: Maker) -> list[Body]:
        """The frames of a stack: the next or last step, the step's call as in `calls`, and the program's own calls at
        that step. If the program's calls are unknown, a frame says what the goroutine does, in words."""
        here = self._debuggee.position
        is_next = here < self._debuggee.length and self._debuggee.maker(here + 1) == maker
        frame = Frame(maker, here + 1 if is_next else self._debuggee.last_step_of(maker))
        first = self._step_frame(frame, is_next)
        if maker is None:
            return [first]
        stack, labels = self._debuggee.recording.lines.of(frame.step), []
        wait = None if is_next else waits_of(self._debuggee.recording).at(Name(maker), here)
        if wait:
            stack, labels = wait.stack, [self._label(frame, f"{wait.does} since step {wait.first}")]
        inside = run_of(self._debuggee.recording).calls_at(maker, here)
        labels += [self._label(frame, f"in {call.as_begun().words()}") for call in reversed(inside)]
        if not stack.calls:
            words = status_words(self._world.value(f"gor {maker}"))
            return [first, *labels, *([self._label(frame, words)] if words else [])]
        return self._ordered(stack, [self._call_frame(frame, call) for call in stack.calls], [first, *labels])

    def _ordered(self, stack: Stack, calls: list[Body], others: list[Body]) -> list[Body]:
        """The other frames, followed by the frames of the stack's calls. If the program's own line goes first, its
        callers follow, then the other frames, and last the calls inside Go."""
        own = next((at for at, call in enumerate(stack.calls) if call.of == OF_THE_PROGRAM), None)
        if not self._goes_first or own is None:
            return [*others, *calls]
        return [*calls[own:], *others, *calls[:own]]

    def _step_frame(self, frame: Frame, is_next: bool) -> Body:
        """The frame of a step: its line in the recording."""
        step = self._debuggee.step(frame.step)
        line = step.line if step else self._debuggee.recording.header_line
        name = "no step yet" if step is None else f"{'about to' if is_next else 'last'}: {plain(str(step))}"
        source = self._debuggee.source()
        return {"id": self.handles.give(frame), "name": name, "line": line, "column": 1, "source": source}

    def _call_frame(self, frame: Frame, call: SourceCall) -> Body:
        """The frame of a call in the program, a library or Go."""
        path = self._roots.path_of(call.file)
        where = {"path": str(path)} if path else {"origin": plain(call.file)}
        where |= {} if call.of == OF_THE_PROGRAM else {"presentationHint": "deemphasize"}
        return {
            "id": self.handles.give(frame),
            "name": plain(call.function),
            "presentationHint": "normal" if call.of == OF_THE_PROGRAM else "subtle",
            "source": {"name": plain(Path(call.file).name), **where},
            "line": call.line,
            "column": 1,
        }

    def _label(self, frame: Frame, words: str) -> Body:
        return {"id": self.handles.give(frame), "name": words, "presentationHint": "label", "line": 0, "column": 0}

    def scopes(self, frame: int) -> list[Body]:
        """The scopes of a frame: the frame's own objects, the machine, and everything."""
        thing = self.handles.take(frame)
        if not isinstance(thing, Frame):
            raise UnanswerableError(texts.NOT_A_FRAME)
        own = [] if thing.maker is None else [Cells(ObjectKind.GOROUTINE, thing.maker)]
        near = [*own, *self._about(thing)]
        scopes = [(cells.title, self.handles.give(cells), False) for cells in (*near, Cells(ObjectKind.ALL))]
        scopes += [
            (f"all {of.value}s", self.handles.give(Every(of)), True)
            for of in (ObjectKind.SOCKET, ObjectKind.DESCRIPTOR, ObjectKind.GOROUTINE)
        ]
        return [{"name": name, "variablesReference": number, "expensive": dear} for name, number, dear in scopes]

    def _about(self, frame: Frame) -> list[Cells]:
        """The cells of the socket and the descriptor that the goroutine's status or the frame's step names."""
        world = self._world
        socket, descriptor = None, None
        status = "idle" if frame.maker is None else world.value(f"gor {frame.maker}")
        name, *rest = status.split()
        if rest and name in IN_QUEUES:
            socket = int(rest[0])
        elif rest:
            descriptor = int(rest[0])
        elif step := self._debuggee.step(frame.step):
            socket, descriptor = step.argument("s"), step.argument("d")
        sockets = world.sockets_of_open()
        if socket is None and descriptor is not None:
            socket = sockets.get(descriptor)
        elif descriptor is None and socket is not None:
            descriptor = next((candidate for candidate, its in sockets.items() if its == socket), None)
        named = [(ObjectKind.SOCKET, socket), (ObjectKind.DESCRIPTOR, descriptor)]
        return [Cells(of, number) for of, number in named if number is not None]

    def variables(self, reference: int) -> list[Body]:
        """The variables of a scope, or the variables inside a variable of a scope."""
        thing = self.handles.take(reference)
        if isinstance(thing, Cells):
            return self.cells(thing.names())
        if isinstance(thing, Every):
            return self._every(thing.of)
        raise UnanswerableError(texts.NO_VARIABLE.format(reference=reference))

    def _every(self, of: ObjectKind) -> list[Body]:
        """All objects of a kind, each with its cells inside. A goroutine has only one cell."""
        world = self._world
        if of is ObjectKind.GOROUTINE:
            return self.cells([f"gor {number}" for number in range(world.count(of))])
        if of is ObjectKind.SOCKET:
            rows = [(number, f"lock {number}") for number in range(world.count(of))]
        else:
            rows = [(number, f"info {number}") for number in world.sockets_of_open()]
        shown = self.cells([cell for _, cell in rows])
        return [
            {
                "name": f"{of.value} {number}",
                "value": f"{cell} = {row['value']}",
                "variablesReference": self.handles.give(Cells(of, number)),
            }
            for (number, cell), row in zip(rows, shown)
        ]

    def cells(self, names: Sequence[str]) -> list[Body]:
        """Cells with their values and the values' meanings."""
        values = self._world.values(names)
        return [
            {"name": cell, "value": self._with_words(cell, value), "evaluateName": cell, "variablesReference": 0}
            | ({"memoryReference": cell} if reference_of(cell) and value != "absent" else {})
            for cell, value in zip(names, values)
        ]

    def _with_words(self, cell: str, value: str) -> str:
        words = self._debuggee.session.words_of(cell, value)
        return f"{value}   ({words})" if words else value

    def value(self, text: str) -> str | None:
        """The value of the cell that a text names; None if the text names no cell."""
        cell = cell_of(text.split())
        return None if cell is None else str(self.cells([cell])[0]["value"])

    def meaning(self, text: str) -> str | None:
        """The meaning of a word of the recording under the mouse pointer, which may be a cell or a kind of step."""
        word = text.strip().strip('"')
        if word in KINDS:
            return f"{KINDS[word].usage}: {KINDS[word].says}"
        return self.value(word)
