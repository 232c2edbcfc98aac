"""The changes of cells: `history CELL`, the changes at which a watch hits, and those that the last step made to
goroutines, sockets, descriptors, the clock and the counts."""

from collections.abc import Collection, Iterator, Sequence
from itertools import islice

from netrev.connection.output import Row, Table, Values
from netrev.connection.shapes import ListedMark
from netrev.recording.cell_meanings import in_words
from netrev.recording.recording import Recording
from netrev.recording.step_changes import RecordedChanges, value_at_start
from netrev.run.timers import timer_words, timers_beside
from netrev.text.vocabulary import CELLS, ObjectKind

MOST = 40
ORDER = (ObjectKind.GOROUTINE, ObjectKind.SOCKET, ObjectKind.DESCRIPTOR, ObjectKind.ALL)
NAMES = list(CELLS)
NOTHING = "changed: nothing that a cell shows"


def history_table(
    changes: RecordedChanges, recording: Recording, cell: str, position: int, most: int | None = MOST
) -> Table:
    """The last changes of the cell up to the position: at most `most` changes, or all if `most` is None."""
    found = list(islice(changes.back(cell, position), None if most is None else most + 1))
    before = [value for _, value in found[1:]] + [value_at_start(cell)]
    shown = [(step, old, new) for (step, new), old in zip(found, before)][:most]
    rows = [_row(recording, cell, *change) for change in reversed(shown)]
    if len(shown) < len(found):
        rest = f"earlier ones: history {cell} all"
    else:
        rest = "" if rows else f"{cell} hasn't changed up to position {position}"
    return Table("history", rows, rest)


def _row(recording: Recording, cell: str, number: int, old: str, new: str) -> Row:
    step = recording.step(number)
    words = in_words(cell, new)
    values = {"cell": cell, "step": number, "line": step.line, "does": str(step), "old": old, "new": new}
    text = f"{number:>7}  {str(step):<30} {old} -> {new}"
    behind = [f"({words})" if words else "", timer_words(recording, step)]
    return Row({**values, "words": words or None}, "   ".join([text, *filter(None, behind)]))


def marks_table(changes: RecordedChanges, marks: Sequence[ListedMark], position: int) -> Table:
    """The table of these marks. Each row has the place of a break, or the change that the last step made to a watched
    cell."""
    watched = [mark.what for mark in marks if mark.sort == "watch"]
    before = dict(zip(watched, changes.values(position - 1, watched))) if position else {}
    now = dict(zip(watched, changes.values(position, watched)))
    rows = []
    for mark in marks:
        number, sort, what = mark
        values: Values = {"mark": int(number), "sort": sort, "what": what}
        if what in before:
            values.update(old=before[what], new=now[what])
            words = in_words(what, now[what])
            text = f"mark {number}: {what}: {before[what]} -> {now[what]}" + (f"   ({words})" if words else "")
        else:
            text = f"mark {number}: {sort} {what}"
        rows.append(Row(values, text))
    return Table("marks", rows)


def tables_beside(
    changes: RecordedChanges, recording: Recording, position: int, hit: Sequence[ListedMark]
) -> Iterator[Table]:
    """The tables after a move to a position: the timers of the last and the next step, with their owners, the marks
    that were hit, and the changes made by the last step."""
    if (timers := timers_beside(recording, position)).rows:
        yield timers
    if hit:
        yield marks_table(changes, hit, position)
    watched = [mark.what for mark in hit if mark.sort == "watch"]
    if (changed := changed_table(changes, position, watched)) and changed.rows:
        yield changed


def changed_table(changes: RecordedChanges, position: int, watched: Collection[str] = ()) -> Table | None:
    """One line with the changes made by the step that led to the position, without the changes that were printed
    already; None at the start."""
    if not position:
        return None
    cells = sorted((cell for cell, _ in changes.at(position)), key=_order)
    changed = [(cell, *(changes.value(cell, at) for at in (position - 1, position))) for cell in cells]
    texts = dict.fromkeys(_spelled(*change) for change in changed if change[0] not in watched)
    if not texts:
        return Table("changed", [] if changed else [Row({}, NOTHING)])
    rows = [Row({"cell": cell, "old": old, "new": new}, "") for cell, old, new in changed]
    rows[0] = Row(rows[0].values, f"changed: {', '.join(texts)}")
    return Table("changed", rows)


def _order(cell: str) -> tuple[int, int, int]:
    """The sort key of a cell: the kind of its object, the object's number, and the cell's name."""
    name, *number = cell.split()
    return ORDER.index(CELLS[name].of), int(number[0]) if number else 0, NAMES.index(name)


def _spelled(cell: str, old: str, new: str) -> str:
    """A change in words. For a new object, only the new value is named."""
    name, *number = cell.split()
    if number and old == "absent":
        return f"{CELLS[name].of.value} {number[0]} is made"
    return f"{cell}: {old} -> {new}"
