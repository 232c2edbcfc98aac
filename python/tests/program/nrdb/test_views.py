"""nrdb's views of netrev's replies agree with plain `print`s, at various positions of each recording."""

import random
import re
from collections import Counter
from pathlib import Path

import pytest

from .common.support import events, recordings, shown

pytestmark = pytest.mark.together

AT = 4  # the number of positions of each recording that are tested besides its ends
CELLS = 8  # the number of cells of each recording that are tested
SEED = 20261125


FIELDS = (r"^\d+ references?$", r"waiting to read$", r"waiting to write$")


def lock_fields(value):
    """The lock word's fields, computed by shifts: closed, locks, references, waiting readers and writers."""
    word = int(value)
    return [word & 1, word >> 1 & 1, word >> 2 & 1, word >> 3 & 0xFFFFF, word >> 23 & 0xFFFFF, word >> 43 & 0xFFFFF]


def told_fields(words):
    """The same fields, read from nrdb's text about the word."""
    parts = words.split(", ")
    counted = [next((int(part.split()[0]) for part in parts if re.search(what, part)), 0) for what in FIELDS]
    return [int("closed" in parts), int("read lock" in parts), int("write lock" in parts), *counted]


def open_descriptors(recording, position):
    """The open descriptors, found by counting openings and closings in the text of the steps, each with the socket for
    which it was last opened."""
    count: dict[int, int] = {}
    socket: dict[int, int] = {}
    free: list[int] = []
    made = 0
    for number in range(1, position + 1):
        step = recording.step(number)
        if step.kind == "pollopen":
            descriptor = free.pop() if free else made
            made = max(made, descriptor + 1)
            count[descriptor] = count.get(descriptor, 0) + 1
            socket[descriptor] = step.arguments[1]
        elif step.kind == "pollclose":
            count[step.arguments[1]] -= 1
            free.append(step.arguments[1])
    return {descriptor: socket[descriptor] for descriptor, times in count.items() if times}


def balance(recording, words, position):
    """How many references to a socket each goroutine holds, found from how the goroutine's steps change the count in
    the lock word."""
    references = [0 if word == "absent" else lock_fields(word)[3] for word in words]
    held: Counter[int] = Counter()
    for step in range(1, position + 1):
        if change := references[step] - references[step - 1]:
            held[recording.step(step).argument("g")] += change
    return +held


@pytest.fixture
def dice() -> random.Random:
    return random.Random(SEED)


def places_of(dice: random.Random, path: Path) -> list[int]:
    """Random positions of a recording, and its first and last position."""
    length = shown(path).length
    return sorted({0, length, *(dice.randint(0, length) for _ in range(AT))})


def test_tables_show_what_print_shows(dice: random.Random) -> None:
    topics = ["goroutines all", "sockets all", "descriptors all", "timers"]
    for path in recordings():
        world = shown(path)
        places = places_of(dice, path)
        lines = [line for at in places for line in (f"goto {at}", *(f"info {topic}" for topic in topics))]
        tables = [event for event in events(path, lines) if event["event"] == "table"]
        assert len(tables) == len(places) * len(topics)
        for number, at in enumerate(places):
            compare(world, at, *(table["rows"] for table in tables[4 * number : 4 * number + 4]))


def compare(world, at, goroutines, sockets, descriptors, timers):
    """Compares the tables with the cells at the position."""
    values = world.at(at)
    result = {row["goroutine"]: row["status"] for row in goroutines}
    assert result == {number: values[f"gor {number}"] for number in world.made("gor", at)}
    assert [row["socket"] for row in sockets] == world.made("lock", at)
    for row in sockets:
        for cell in ("lock", "rsem", "wsem", "in", "out"):
            assert row[cell] == values[f"{cell} {row['socket']}"]
        for queue in ("rq", "wq"):
            assert (" ".join(map(str, row[queue])) or "-") == values[f"{queue} {row['socket']}"]
    assert [row["descriptor"] for row in descriptors] == world.made("fdseq", at)
    opened = open_descriptors(world.recording, at)
    for row in descriptors:
        assert row["socket"] == opened.get(row["descriptor"])
        assert row["open"] == (row["descriptor"] in opened)
        for cell in ("info", "rg", "wg", "rd", "wd", "fdseq"):
            assert row[cell] == values[f"{cell} {row['descriptor']}"]
    for cell in ("clock", "timers", "least", "firings"):
        assert timers[0][cell] == values[cell]
    due = [(row["deadline"], row["descriptor"]) for row in timers[1:]]
    wanted = [(int(values[f"{cell} {number}"]), number) for number in opened for cell in ("rd", "wd")]
    assert due == sorted(pair for pair in wanted if pair[0] > 0)


def test_what_is_left_out_is_idle_gone_or_at_rest(dice: random.Random) -> None:
    for path in recordings():
        world, places = shown(path), places_of(dice, path)
        lines = [line for at in places for line in (f"goto {at}", "info goroutines", "info sockets")]
        tables = [event["rows"] for event in events(path, lines) if event["event"] == "table"]
        for at, goroutines, sockets in zip(places, tables[::2], tables[1::2], strict=True):
            values = world.at(at)
            result = [number for row in goroutines for number in row.get("goroutines", [row.get("goroutine")])]
            left = set(world.made("gor", at)) - set(result)
            assert {values[f"gor {number}"] for number in left} <= {"idle", "gone"}, (path.stem, at)
            for row in goroutines:
                assert row["status"] not in ("idle", "gone"), (path.stem, at)
            for number in set(world.made("lock", at)) - {row["socket"] for row in sockets}:
                assert (values[f"rq {number}"], values[f"wq {number}"]) == ("-", "-"), (path.stem, at)
                assert lock_fields(values[f"lock {number}"])[3] == 0, (path.stem, at)


def test_history_shows_each_change(dice: random.Random) -> None:
    for path in recordings():
        world = shown(path)
        cells = dice.sample(world.made_cells(), CELLS)
        series = world.series(cells)
        at = dice.randint(world.length // 2, world.length)
        lines = [f"goto {at}", *(f"history {cell} {most}" for cell in cells for most in ("all", 3))]
        tables = [event["rows"] for event in events(path, lines) if event["event"] == "table"]
        for cell, every, last in zip(cells, tables[::2], tables[1::2], strict=True):
            values = series[cell]
            wanted = [(p, values[p - 1], values[p]) for p in range(1, at + 1) if values[p - 1] != values[p]]
            for rows, some in ((every, wanted), (last, wanted[-3:])):
                assert [(row["step"], row["old"], row["new"]) for row in rows] == some, (path.stem, cell, at)
                for row in rows:
                    assert row["does"] == str(world.recording.step(row["step"])), (path.stem, cell, at)


def test_until_goes_to_the_nearest_change_to_the_value(dice: random.Random) -> None:
    for path in recordings():
        world = shown(path)
        cells = dice.sample(world.made_cells(), CELLS)
        places, lines = [], []
        for cell, values in world.series(cells).items():
            at, value = dice.randint(0, world.length), dice.choice(values)
            changes = [p for p in range(1, world.length + 1) if values[p - 1] != values[p] == value]
            places += [at, *[p for p in changes if p > at][:1], at, *[p for p in changes if p < at][-1:]]
            lines += [f"goto {at}", f"until {cell} {value}", f"goto {at}", f"reverse-until {cell} {value}"]
        stops = [event["position"] for event in events(path, lines) if event["event"] == "place"]
        assert stops == places, (path.stem, lines)


def test_holders_are_as_many_as_the_references(dice: random.Random) -> None:
    for path in recordings():
        world = shown(path)
        request = [(at, socket) for at in places_of(dice, path) for socket in world.made("lock", at)]
        lines = [line for at, socket in request for line in (f"goto {at}", f"info holders {socket}")]
        tables = [event for event in events(path, lines) if event["event"] == "table"]
        for (at, socket), table in zip(request, tables, strict=True):
            compare_holders(world, at, socket, table)


def compare_holders(world, at, socket, table):
    """Compares the holders with the lock word, and each holder with the step that it names."""
    value = world.at(at)[f"lock {socket}"]
    _, read, write, references, *_ = lock_fields(value)
    assert f"lock {socket} = {value}: " in table["rest"]
    assert len(table["rows"]) == references
    took = [row["took"].split() for row in table["rows"]]
    for locked, side in ((read, "r"), (write, "w")):
        assert locked == sum(step[0] == "rwlock" and step[3] == side for step in took)
    for row, step in zip(table["rows"], took):
        assert (int(step[1]), int(step[2])) == (row["goroutine"], socket)
        assert str(world.recording.step(row["step"])) == row["took"]
        assert row["status"] == world.at(at)[f"gor {row['goroutine']}"]


def test_holders_are_those_whose_steps_took_more_than_they_gave(dice: random.Random) -> None:
    count = 0
    for path in recordings():
        world = shown(path)
        held = [(at, socket) for at in places_of(dice, path) for socket in world.made("lock", at)]
        held = [(at, socket) for at, socket in held if lock_fields(world.at(at)[f"lock {socket}"])[3]]
        request = dice.sample(held, min(3, len(held)))
        lines = [line for at, socket in request for line in (f"goto {at}", f"info holders {socket}")]
        tables = [event["rows"] for event in events(path, lines) if event["event"] == "table"]
        series = world.series([f"lock {socket}" for _, socket in request])
        for (at, socket), rows in zip(request, tables, strict=True):
            result = Counter(row["goroutine"] for row in rows)
            assert result == balance(world.recording, series[f"lock {socket}"], at), (path.stem, at, socket)
            count += 1
    assert count > 9


def test_words_behind_lock_words(dice: random.Random) -> None:
    for path in recordings():
        world = shown(path)
        request = [(at, socket) for at in places_of(dice, path) for socket in world.made("lock", at)]
        lines = [line for at, socket in request for line in (f"goto {at}", f"print lock {socket}")]
        reports = [event for event in events(path, lines) if event.get("line", "").startswith("print")]
        for (at, socket), event in zip(request, reports, strict=True):
            value = world.at(at)[f"lock {socket}"]
            assert event["reply"] == [f"lock {socket} = {value}"], (path.stem, at, socket)
            assert told_fields(event["words"]) == lock_fields(value), (path.stem, at, socket)
