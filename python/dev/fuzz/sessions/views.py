"""Checks nrdb's output in a session against the model's values at the same positions. A session is followed event by
event, because it may be interrupted anywhere, and all output up to that point must be right. `Judge` gets the events in
order, and reports the first wrong event."""

import re
from collections.abc import Callable, Iterable, Mapping, Sequence
from fnmatch import fnmatchcase
from typing import Any

from netrev.machine.cells import look
from netrev.machine.machine import World
from netrev.model.session import ModelSession
from netrev.recording.cell_meanings import LockWord, in_words
from netrev.text.contents import Step
from netrev.text.vocabulary import CELLS, ObjectKind, cell_of

Event = Mapping[str, Any]
Rows = Sequence[Mapping[str, Any]]

QUIET = ("idle", "gone")
SOCKET_CELLS = ("lock", "rsem", "wsem", "in", "out", "shut")
DESCRIPTOR_CELLS = ("info", "rg", "wg", "rd", "wd", "fdseq")
PLACE = re.compile(r"place (\d+) of (\d+)")
TAKEN = re.compile(r"goroutine (\d+) has the lock since step (\d+)")
# texts that may be printed whenever a session is interrupted
DISTURBED = ("interrupted; the session goes on", "the netrev that looks at other positions has ended twice")


class Judge:
    """Follows a session over a recording, with the states of the model."""

    def __init__(self, steps: Sequence[Step], worlds: Sequence[World], session: ModelSession) -> None:
        self.steps, self.worlds, self.session = steps, worlds, session
        self.position = 0

    def value(self, cell: str, position: int | None = None) -> str:
        """The value of a cell as `print` shows it, at this position or another."""
        world = self.worlds[self.position if position is None else position]
        return look(world, f"print {cell}").partition(" = ")[2]

    def queue(self, dump: str, socket: int) -> list[int]:
        """The goroutines of a queue."""
        shown = look(self.worlds[self.position], f"dump {dump} {socket}").partition(" = ")[2]
        return [] if shown in ("-", "absent") else [int(word) for word in shown.split()]

    def wrong(self, line: str, event: Event) -> str:
        """The fault in an event that a line caused; empty if the event is right."""
        judge: Callable[[str, Any], str] = getattr(self, f"wrong_{event['event']}")
        return judge(line, event)

    def wrong_reply(self, line: str, event: Event) -> str:
        """Checks netrev's reply against the model's. After `goto` and `until`, the model also moves to the new
        position."""
        reply, words = list(event["reply"]), line.split()
        if (
            words[0] in ("goto", "until", "reverse-until")
            and not reply[0].startswith(("rg", "wg"))
            and "=" not in reply[0]
        ):
            goal = int(words[1]) if words[0] == "goto" else self.found(words[0], *cell_and_rest(words[1:]))
            self.session.state = self.session.state._replace(position=goal if goal is not None else -1)
            right = [f"at {goal}"]
        else:
            right = list(self.session.answer(event["line"].encode()) or ())
        self.position = self.session.state.position
        return "" if reply == right else f"{line} is answered {reply}, the model's {right}"

    def found(self, way: str, cell: str, value: str) -> int | None:
        """The nearest position in that direction after a step that gave the cell this value."""
        ways: Iterable[int] = range(self.position + 1, len(self.worlds))
        if way == "reverse-until":
            ways = range(self.position - 1, 0, -1)
        for position in ways:
            now = self.value(cell, position)
            if now != self.value(cell, position - 1) and any(
                fnmatchcase(text, value) for text in (now, in_words(cell, now))
            ):
                return position
        return None

    def wrong_place(self, line: str, event: Event) -> str:
        """Checks the position, and the steps around it."""
        numbers = [event[side] and event[side]["number"] for side in ("last", "next")]
        length = len(self.steps)
        right = [self.position or None, self.position + 1 if self.position < length else None]
        if (event["position"], event["steps"], numbers) != (self.position, length, right):
            return f"{line} tells the place {event}, and it is {self.position}"
        return ""

    def wrong_note(self, line: str, event: Event) -> str:
        """Checks a note: a move was stopped, or a search found nothing because nothing matches."""
        text, words = event["text"], line.split()
        if text in DISTURBED or text.startswith("at "):
            return ""
        if text.startswith("no ") and words[0] in ("until", "reverse-until"):
            found = self.found(words[0], *cell_and_rest(words[1:]))
            return "" if found is None else f"{line} finds nothing, and there is {found}"
        return f"{line} says {text}"

    def wrong_table(self, line: str, event: Event) -> str:
        """Checks a table, by its topic."""
        judge: Callable[[str, Rows, str], str] = getattr(self, f"wrong_{event['topic']}")
        return judge(line, event["rows"], event["rest"] or "")

    def differs(self, line: str, shown: Any, right: Any) -> str:
        """The text and the expected text, if they differ."""
        return "" if shown == right else f"{line} at {self.position} tells {shown}, and right is {right}"

    def numbers_of(self, cell: str) -> list[int]:
        """The numbers for which a cell exists."""
        numbers: list[int] = []
        while self.value(f"{cell} {len(numbers)}") != "absent":
            numbers.append(len(numbers))
        return numbers

    def wrong_goroutines(self, line: str, rows: Rows, rest: str) -> str:
        groups = [row for row in rows if "goroutines" in row]
        for row in groups:
            if wrong := self.wrong_group(row):
                return wrong
        grouped = [number for row in groups for number in row["goroutines"]]
        rows = [row for row in rows if "goroutines" not in row]
        shown = sorted(
            [(row["goroutine"], row["status"]) for row in rows]
            + [(number, self.value(f"gor {number}")) for number in grouped]
        )
        right = [(number, self.value(f"gor {number}")) for number in self.numbers_of("gor")]
        if not line.endswith("all"):
            right = [(number, status) for number, status in right if status not in QUIET]
        waits = (self.wrong_wait(row["goroutine"], row["status"], row["waits_for"]) for row in rows)
        return self.differs(line, shown, right) or next(filter(None, waits), "")

    def wrong_group(self, row: Mapping[str, Any]) -> str:
        """Checks goroutines that are listed together because they sleep in the same way: each must have that status,
        and queued goroutines must be queued for the same lock."""
        statuses = {self.value(f"gor {number}") for number in row["goroutines"]}
        is_single = len(statuses) == 1 if row["status"] == "queued" else True
        if is_single and all(status.split()[0] == row["status"] for status in statuses):
            return ""
        return f"a group of {row} at {self.position} has {sorted(statuses)}"

    def wrong_wait(self, goroutine: int, status: str, words: str) -> str:
        """Checks a place in a queue, which goroutine has the lock, and since when."""
        name, *rest = status.split()
        if name not in ("acquiring", "queued", "relock"):
            return ""
        socket, side = int(rest[0]), rest[1]
        queue = self.queue({"r": "rq", "w": "wq"}[side], socket)
        place = [queue.index(goroutine) + 1, len(queue)] if goroutine in queue else []
        found = PLACE.search(words)
        shown = [int(found[1]), int(found[2])] if found else []
        word = LockWord.of(int(self.value(f"lock {socket}")))
        taken = TAKEN.search(words)
        if bool(taken) != (word.read_locked if side == "r" else word.write_locked):
            return f"goroutine {goroutine} at {self.position}: {words}"
        if taken:
            step = self.steps[int(taken[2]) - 1]
            if step != ("rwlock", int(taken[1]), socket, side):
                return f"goroutine {goroutine} at {self.position}: {words}, and that step is {step}"
        return self.differs(f"goroutine {goroutine}", shown, place)

    def wrong_sockets(self, line: str, rows: Rows, rest: str) -> str:
        right = [self.socket(number) for number in self.numbers_of("lock")]
        if not line.endswith("all"):
            right = [row for row in right if says_something(row)]
        names = ("socket", *SOCKET_CELLS, "rq", "wq")
        return self.differs(line, [{name: row[name] for name in names} for row in rows], right)

    def socket(self, number: int) -> dict[str, Any]:
        """The fields of a socket."""
        cells = {name: self.value(f"{name} {number}") for name in SOCKET_CELLS}
        return {"socket": number, **cells, **{dump: self.queue(dump, number) for dump in ("rq", "wq")}}

    def wrong_descriptors(self, line: str, rows: Rows, rest: str) -> str:
        world = self.worlds[self.position]
        right: list[dict[str, Any]] = [
            {"descriptor": number} | {name: self.value(f"{name} {number}") for name in DESCRIPTOR_CELLS}
            for number in self.numbers_of("fdseq")
            if line.endswith("all") or world.is_open(number)
        ]
        names = ("descriptor", *DESCRIPTOR_CELLS)
        return self.differs(line, [{name: row[name] for name in names} for row in rows], right)

    def wrong_timers(self, line: str, rows: Rows, rest: str) -> str:
        right = {name: self.value(name) for name in ("clock", "timers", "least", "firings")}
        world = self.worlds[self.position]
        due = sorted(
            (int(self.value(f"{side}d {number}")), number, side)
            for number in self.numbers_of("fdseq")
            for side in "rw"
            if world.is_open(number)
        )
        shown = [(row["deadline"], row["descriptor"], row["side"]) for row in rows[1:]]
        return self.differs(line, [rows[0], shown], [right, [timer for timer in due if timer[0] > 0]])

    def wrong_holders(self, line: str, rows: Rows, rest: str) -> str:
        shown = self.value(f"lock {line.split()[-1]}")
        right = 0 if shown == "absent" else LockWord.of(int(shown)).references
        statuses = [row["status"] for row in rows]
        now = [self.value(f"gor {row['goroutine']}") for row in rows]
        if "take care" in rest:
            return f"{line} at {self.position}: {rest}"
        return self.differs(line, [len(rows), statuses], [right, now])

    def wrong_history(self, line: str, rows: Rows, rest: str) -> str:
        cell, rest = cell_and_rest(line.split()[1:])
        most = rest or "40"
        values = [self.value(cell, position) for position in range(self.position + 1)]
        changes = [(at, values[at - 1], values[at]) for at in range(1, len(values)) if values[at - 1] != values[at]]
        right = changes if most == "all" else changes[-int(most) :]
        return self.differs(line, [(row["step"], row["old"], row["new"]) for row in rows], right)

    def wrong_marks(self, line: str, rows: Rows, rest: str) -> str:
        watched = [row for row in rows if row["sort"] == "watch"]
        shown = [(row["old"], row["new"]) for row in watched]
        right = [(self.value(row["what"], self.position - 1), self.value(row["what"])) for row in watched]
        return self.differs(line, shown, right)

    def wrong_changed(self, line: str, rows: Rows, rest: str) -> str:
        """Checks the cells that nrdb prints for the last step. They must be exactly the cells whose values the step
        changed."""
        shown = sorted((row["cell"], row["old"], row["new"]) for row in rows)
        numbers = {
            ObjectKind.ALL: [""],
            ObjectKind.GOROUTINE: [f" {number}" for number in self.numbers_of("gor")],
            ObjectKind.SOCKET: [f" {number}" for number in self.numbers_of("lock")],
            ObjectKind.DESCRIPTOR: [f" {number}" for number in self.numbers_of("fdseq")],
        }
        cells = [f"{cell.name}{number}" for cell in CELLS.values() for number in numbers[cell.of]]
        both = [(cell, self.value(cell, self.position - 1), self.value(cell)) for cell in cells]
        return self.differs(line, shown, sorted(change for change in both if change[1] != change[2]))

    def wrong_timer(self, line: str, rows: Rows, rest: str) -> str:
        """Checks the owners of the timers in the steps around the position, and the steps that set them."""
        shown, right = [], []
        for row in rows:
            number = row["step"]
            kind, *arguments = self.steps[number - 1]
            at = self.worlds[number if kind == "pop" else number - 1]
            timer = at.firings[-1 if kind == "pop" else arguments[0]]
            shown.append([row[name] for name in ("sides", "descriptor", "due")])
            right.append([timer.covers, timer.desc, timer.when])
            setting = self.steps[row["set_at"] - 1]
            shown.append([row["set_by"], row["descriptor"]])
            right.append(list(setting[1:3]) if setting[0] == "setdeadline" else [setting[0]])
        return self.differs(line, shown, right)

    def wrong_display(self, line: str, rows: Rows, rest: str) -> str:
        return self.differs(line, [row["value"] for row in rows], [self.value(row["cell"]) for row in rows])

    def wrong_list(self, line: str, rows: Rows, rest: str) -> str:
        shown = [(row["step"], row["does"].split()[0]) for row in rows]
        return self.differs(line, shown, [(step, self.steps[step - 1][0]) for step, _ in shown])


def cell_and_rest(words: Sequence[str]) -> tuple[str, str]:
    """The cell at the beginning of these words, and the remaining words."""
    length = 2 if cell_of(list(words[:2])) else 1
    return " ".join(words[:length]), " ".join(words[length:])


def says_something(row: Mapping[str, Any]) -> bool:
    """Whether a socket is in use."""
    word = LockWord.of(int(row["lock"]))
    return word.references > 0 or bool(row["rq"] or row["wq"]) or (not word.closed and row["in"] != "0")
