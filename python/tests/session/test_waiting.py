"""The goroutines that wait for a lock, and its holder: the numbers of queries and of searches in the recording's text
don't grow with the number of waiters, and a search from the end of the recording has the same result as a search of all
steps."""

import io
import json
import random
from collections import Counter
from collections.abc import Iterator
from pathlib import Path
from typing import Any

import pytest

from dev.fuzz.nrdb_sessions import visit
from netrev.connection.output import JsonPrinter
from netrev.connection.scout import Scout
from netrev.connection.world import PositionValues
from netrev.recording.recording import Recording
from netrev.run.searches import OF_A_GOROUTINE, holders_of, last_steps, takings
from netrev.session.session import Session
from netrev.system.interrupts import Interrupts
from netrev.views.goroutines import goroutines_table
from nrdb.prompt.answers import ANSWERS
from tests.support.model_sessions import Modelled, changes_at, changes_in, recording_at


def waiters(count: int, sockets: int = 1) -> str:
    """A recording in which this many goroutines wait for the read lock of each socket, a few for the write lock of
    socket 0, and some are done. Then the clock ticks, a hundred times for each waiter."""
    steps = ['["spawn"]'] * (count * sockets + 3) + ['["sockopen",1,1]'] * sockets
    steps += [f'["rwlock",0,{socket},"r"]' for socket in range(sockets)] + ['["rwlock",1,0,"w"]']
    steps += [
        step
        for number in range(count * sockets)
        for step in (f'["rwlock",{number + 4},{number % sockets},"r"]', f'["acquire",{number + 4}]')
    ]
    steps += ['["rwlock",2,0,"w"]', '["acquire",2]', '["rwunlock",1,0,"w"]', '["release",1]', '["acquire",2]']
    steps += [f'["tick",{time}]' for time in range(1, 100 * count * sockets)]
    header = '{"netrev":1,"gor":%d,"sock":%d,"desc":1,"buf":1}' % (count * sockets + 4, sockets)
    return "\n".join([header, *steps]) + "\n"


class Waiting:
    """Sessions over recordings in which goroutines wait."""

    def __init__(self, folder: Path) -> None:
        self.folder = folder

    def session(self, text: str, request: Counter[str]) -> tuple[Session, io.StringIO]:
        """A session at the end of a recording, its output, and a count of the queries sent to netrev."""
        path = self.folder / "recording.jsonl"
        path.write_text(text)
        model, interrupts, out = recording_at(path), Interrupts(), io.StringIO()

        class Counting(Modelled):
            def _send(self, text: bytes) -> None:
                request.update(text.decode().splitlines())
                super()._send(text)

        def opened() -> Modelled:
            return Counting(model, interrupts, lambda _: None)

        recording, scout = Recording.read(str(path)), Scout(opened)
        session = Session(opened(), recording, scout, JsonPrinter(out), interrupts, ANSWERS, recorded=changes_at(path))
        session.begin(session.ask("info position"))
        session.run(f"goto {session.length}")
        return session, out

    def asked(self, text: str, line: str) -> tuple[str, Counter[str]]:
        """The output of a line in a new session, and the lines that it sends to netrev."""
        request: Counter[str] = Counter()
        session, out = self.session(text, request)
        request.clear()
        session.run(line)
        return out.getvalue(), request

    def searched(self, count: int, sockets: int, with_lines: bool) -> tuple[int, int, int]:
        """How much work `info goroutines` does with `count` waiters at each of `sockets` sockets. Returns three
        numbers: queries other than those for statuses, searches of the recording's text, and pieces of text that are
        searched.
        """
        request, work = Counter[str](), Counter[str]()
        text = waiters(count, sockets)
        if with_lines:
            steps = text.count("\n") - 1
            call = {"call": 1, "function": "main.main", "file": "main.go", "line": 3, "of": "program"}
            lines: list[Any] = [{"where": 1, "steps": steps}, call, {"stack": 1, "calls": [1]}]
            lines.append({"step": 1, "stacks": [1] * steps})
            (self.folder / "recording.where").write_text("\n".join(map(json.dumps, lines)))
        session, out = self.session(text, request)
        request.clear()
        searched = Recording.found_back

        class Pieces:
            """A pattern that counts its searches."""

            def __init__(self, spelled: Any):
                self.spelled = spelled

            def finditer(self, *words: Any) -> Any:
                work["pieces"] += 1
                return self.spelled.finditer(*words)

        def counted(recording: Recording, spelled: Any, until: int) -> Iterator[Any]:
            work["searches"] += 1
            return searched(recording, Pieces(spelled), until)  # type: ignore[arg-type]

        with pytest.MonkeyPatch.context() as patch:
            patch.setattr(Recording, "found_back", counted)
            session.run("info goroutines")
        rows = json.loads(out.getvalue().splitlines()[-1])["rows"]
        result = [goroutine for row in rows for goroutine in row.get("goroutines", [row.get("goroutine")])]
        assert (len(result), len(set(result))) == (count * sockets + 1, count * sockets + 1)
        assert {"at" in row for row in rows if "goroutine" in row} == {with_lines}
        questions = sum(times for line, times in request.items() if not line.startswith("print gor "))
        return questions, work["searches"], work["pieces"]


@pytest.fixture
def waiting(folder: Path) -> Waiting:
    return Waiting(folder)


def test_a_number_that_is_used_again_has_gos_own_beside_it(waiting: Waiting) -> None:
    session, out = waiting.session(waiters(3), Counter())
    assert session.recording
    last = session.length
    for owners, goid in (
        ([[5, 0, 41]], 41),
        ([[5, 0, 41], [5, last - 1, 42]], 42),
        ([[5, 0, 41], [5, last, 42]], 41),
    ):
        session.recording.lines.owners.clear()
        session.recording.lines.add_owners(owners)
        session.run("info goroutines")
        rows = {row["goroutine"]: row for row in json.loads(out.getvalue().splitlines()[-1])["rows"]}
        assert (rows[5]["goid"], "goid" in rows[4]) == (goid, False)
        texts = [row.text for row in goroutines_table(session.world()).rows]
        assert f"gor 5    (goid {goid}) queued 0 r " in "\n".join(texts)


def test_a_group_has_gos_own_numbers_of_those_that_are_used_again(waiting: Waiting) -> None:
    session, out = waiting.session(waiters(5), Counter())
    assert session.recording
    session.recording.lines.add_owners([[5, 0, 41], [6, 0, 43]])
    session.run("info goroutines")
    (group,) = [row for row in json.loads(out.getvalue().splitlines()[-1])["rows"] if "goroutines" in row]
    assert (group["goroutines"], group["goids"]) == ([4, 5, 6, 7, 8], {"5": 41, "6": 43})


def test_a_lock_is_asked_for_once_however_many_wait(waiting: Waiting) -> None:
    request: dict[int, Counter[str]] = {}
    for count in (3, 60):
        shown, asked_for_groups = waiting.asked(waiters(count), "info goroutines")
        shown_all, request[count] = waiting.asked(waiters(count), "info goroutines all")
        assert asked_for_groups == request[count]
        assert f"place {count} of {count}, goroutine 0 has the lock since step {count + 5}" in shown + shown_all
        assert "relock 0 w" in shown + shown_all
        is_group = f"queued for socket 0's read lock, which goroutine 0 has since step {count + 5}" in shown
        assert is_group == (count == 60)
    few, many = (
        {line: times for line, times in item.items() if not line.startswith("print gor ")} for item in request.values()
    )
    assert few == many
    assert "dump rq 0" in many


@pytest.mark.parametrize("with_lines", [False, True])
def test_the_text_is_searched_once_however_many_wait_for_however_many_locks(waiting: Waiting, with_lines: bool) -> None:
    few, many = (waiting.searched(count, 4, with_lines) for count in (2, 12))
    assert few[:2] == many[:2]
    assert many[2] <= few[2] + 2 * 3  # a text of twice the length has one more piece
    item, sixteen = (waiting.searched(3, sockets, with_lines) for sockets in (1, 16))
    assert (item[1], sixteen[1]) == (1 + with_lines, 1 + with_lines)
    assert sixteen[0] - item[0] <= 15 * 2  # each socket's lock word, and its queue


def worlds() -> Iterator[PositionValues]:
    """Worlds at various positions of recordings, some of which are written with additional blanks or with
    escapes."""
    dice = random.Random("taken")
    for number in range(60):
        text = visit(f"taken-nrdb-{number}").recording
        if number % 3 == 0:
            text = text.replace(b",", b" ,\t").replace(b"\n", b"\n \n")
        if number % 3 == 1:
            text = text.replace(b'"rwlock"', b'"\\u0072wlock"')
        recording = Recording(text)
        for position in {recording.length, *(dice.randint(0, recording.length) for _ in range(6))}:
            yield PositionValues(Modelled.__new__(Modelled), recording, position)


def test_takings_are_those_of_all_steps() -> None:
    coverage: Counter[bool] = Counter()
    for world in worlds():
        changes = changes_in(world.recording.data)
        right = {}
        for socket in range(4):
            held = holders_of(world.recording, changes, socket, world.position)
            for side in "rw":
                found = [item.step for item in held if item.side == [side]][-1:]
                # (a `decref` by a goroutine that only has a lock counts as releasing the lock's reference)
                if found:
                    right[socket, side] = found[0]
                coverage[bool(found)] += 1
        assert takings(world.recording, world.position, list(right)) == right, world.position
        for lock in right:
            assert takings(world.recording, world.position, [lock]) == {lock: right[lock]}
    assert min(coverage.values()) > 50, coverage


def test_last_steps_are_those_of_all_steps() -> None:
    coverage: Counter[bool] = Counter()
    for world in worlds():
        right = dict.fromkeys(range(5), 0)
        for number in range(1, world.position + 1):
            step = world.recording.step(number)
            if step.kind in OF_A_GOROUTINE and step.argument("g") in right:
                right[step.argument("g")] = number
        assert last_steps(world.recording, world.position, range(5)) == right
        coverage.update(number > 0 for number in right.values())
    assert min(coverage.values()) > 50, coverage
