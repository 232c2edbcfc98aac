"""The colours of the timeline. The colours of one kind of row differ in brightness too, so that readers can tell them
apart without colour."""

from dataclasses import dataclass

from netrev.recording.cell_meanings import LockWord
from netrev.text.vocabulary import ObjectKind


@dataclass(frozen=True)
class Shade:
    """A shade: its colour on a light background, its colour on a dark background, its meaning, and the rows that use
    it."""

    light: str
    dark: str
    says: str
    of: ObjectKind


def _shades(of: ObjectKind, rows: str) -> dict[str, Shade]:
    shades = {}
    for row in rows.strip().splitlines():
        name, light, dark, says = row.split(None, 3)
        shades[name] = Shade(light, dark, says, of)
    return shades


SHADES = {
    **_shades(
        ObjectKind.GOROUTINE,
        """
        gone #ffffff #11151b gone
        idle #e9edf1 #222a35 idle
        entering #d4e3f4 #27384c entering a wait
        armed #b0cfee #2d4966 armed
        parking #7fb0df #336190 parking
        parked #2b62a8 #3f80cf parked
        swapping #bfe3a8 #609046 woken, takes the word
        checking #6dae50 #78b557 woken, checks why
        acquiring #f5d4a0 #7d6431 about to acquire
        relock #eaae55 #b0863c tries the lock again
        queued #b4500f #d2853a queued for a lock
        owing #7d2a88 #cf84d4 owes a release
        """,
    ),
    **_shades(
        ObjectKind.DESCRIPTOR,
        """
        nil #edf0f3 #222a35 nil
        ready #f0d57a #a0893a an event came
        wait #9cc3e6 #2f5c8c about to park
        held #2b62a8 #3f80cf a parked goroutine
        """,
    ),
    **_shades(
        ObjectKind.SOCKET,
        """
        free #edf0f3 #222a35 no reference
        referred #d3e8d6 #2c4a3a references
        read #8cc79b #35744f read lock
        write #4b9f8c #34a08f write lock
        both #1f6d52 #9ad68e both locks
        closing #a81c28 #ff6b74 closed, with references
        closed #d6d9de #2c323b closed, no reference
        """,
    ),
}


def shade(name: str, value: str) -> str:
    """The name of the shade for a cell's value; empty if the cell's object doesn't exist yet."""
    if value == "absent":
        return ""
    if name == "gor":
        return value.split()[0]
    if name == "lock":
        return lock_shade(LockWord.of(int(value)))
    return "held" if value.startswith("g") else value


def lock_shade(word: LockWord) -> str:
    """The shade of a lock word."""
    if word.closed:
        return "closing" if word.references else "closed"
    if word.read_locked or word.write_locked:
        return "both" if word.read_locked and word.write_locked else "read" if word.read_locked else "write"
    return "referred" if word.references else "free"
