"""The recorder's logs can be read even if they are damaged, and the stored logs become the stored recordings and
lines."""

import io
import pathlib
import random
import struct
import tempfile

import pytest

from dev.fuzz.generators.logs import STACKS, binary, from_text, packed
from netrev.recording.where import SourceLines
from netrev_go.log import source_lines
from netrev_go.log.logfile import HEADER_BYTES, Header, NotALogError, read_log
from netrev_go.log.points import Log, Point, PointKind
from netrev_go.log.source_lines import Calls, LineCall, SourceRoots, lines_of, looked_up
from netrev_go.steps import conversion
from netrev_go.steps.conversion import RecordingOptions, convert, read_whole
from netrev_go.steps.recording_builder import NothingRecordedError, UnconvertibleError, make, write
from netrev_go.steps.report import Conversion, next_line, wait_of
from netrev_go.steps.where import own_line, write_where
from tests.session.test_foreign_servers import OBEYED, unseen
from tests.support.stubs import stub

REAL = pathlib.Path(__file__).resolve().parents[3] / "examples/real"
NAMES = ("half", "hijacked", "hung", "leak", "lost", "older", "past")
RELEASES = {"older": "1.19"}  # the other logs are from 1.27
DAMAGED = 2_000
SEED = 20_261_127


def read(data: bytes) -> Log:
    with tempfile.TemporaryDirectory() as folder:
        path = pathlib.Path(folder, "log.1")
        path.write_bytes(data)
        return read_log(path)


def opened(count: int) -> list[Point]:
    """Points of sockets that are opened one after another."""
    points = []
    for i in range(count):
        points.append(Point(2 * i, PointKind.INIT, 1, 1000 + 16 * i, 4, 0, 0, 0, 0))
        points.append(Point(2 * i + 1, PointKind.OPEN, 1, 9000 + 300 * i, 4, 1, 1, 0, 0))
    return points


def test_stored_logs_give_the_stored_recordings() -> None:
    assert tuple(sorted(path.stem for path in REAL.glob("*.log"))) == NAMES
    for name in NAMES:
        with tempfile.TemporaryDirectory() as folder:
            data, _ = from_text((REAL / f"{name}.log").read_text())
            log = pathlib.Path(folder, "log.1")
            log.write_bytes(data)
            made_file = pathlib.Path(folder, "made.jsonl")
            write(make(read_log(log)), made_file)
            assert made_file.read_text() == (REAL / f"{name}.jsonl").read_text(), name


def test_stored_logs_give_the_stored_lines(monkeypatch: pytest.MonkeyPatch) -> None:
    for name in NAMES:
        with tempfile.TemporaryDirectory() as folder:
            data, symbols = from_text((REAL / f"{name}.log").read_text())
            log = read(data)
            recording = make(log)
            here = pathlib.Path("/samples") / (name if name in ("hung", "hijacked") else "")
            sources = pathlib.Path(f"/usr/lib/go-{RELEASES.get(name, '1.27')}/src")
            with monkeypatch.context() as patch:
                patch.setattr(source_lines, "shift", lambda *_, **__: 0)
                patch.setattr(source_lines, "looked_up", lambda *_, **__: symbols)
                calls = lines_of(log, set(recording.stacks), io.BytesIO(), ["go"], SourceRoots(sources, here))
            made_file = pathlib.Path(folder, "made.where")
            write_where(made_file, recording.stacks, calls)
            assert made_file.read_text() == (REAL / f"{name}.where").read_text(), name


def timed(times: list[int]) -> Log:
    """A log of sockets whose points have these times."""
    log = read(binary(opened(len(times) // 2)))
    log.points = [point._replace(time=time) for point, time in zip(log.points, times)]
    log.begin = 1_000
    return log


def test_each_step_has_the_time_of_its_point() -> None:
    assert make(timed([1_010, 1_020, 1_300, 1_305])).times == [10, 20, 300, 305]


def test_a_time_before_the_one_before_is_taken_for_that() -> None:
    assert make(timed([990, 1_020, 1_015, 1_305])).times == [0, 20, 20, 305]


def test_without_the_time_of_a_point_there_are_none() -> None:
    assert make(timed([1_010, 0, 1_300, 1_305])).times is None
    for name in NAMES:
        assert make(read(from_text((REAL / f"{name}.log").read_text())[0])).times is None


def test_in_a_sparse_log_a_point_without_a_time_has_that_of_the_point_before() -> None:
    times = [0, 1_020, 0, 1_015, 0, 1_300]
    points = [point._replace(time=time) for point, time in zip(opened(3), times)]
    assert [point.time for point in read(binary(points, begin=1_000)).points] == times
    log = read(binary(points, begin=1_000, is_sparse=True))
    assert [point.time for point in log.points] == [1_000, 1_020, 1_020, 1_015, 1_020, 1_300]
    assert make(log).times == [0, 20, 20, 20, 20, 300]


def test_if_the_point_before_is_lost_it_has_the_next_one_s() -> None:
    times = [0, 1_020, 0, 0, 1_300, 0]
    points = [point._replace(time=time) for point, time in zip(opened(3), times)]
    log = read(binary(points[2:], begin=1_000, room=4, is_sparse=True))
    assert [(point.number, point.time) for point in log.points] == [(2, 1_300), (3, 1_300), (4, 1_300), (5, 1_300)]


def test_of_a_sparse_log_so_do_those_behind_a_point_that_is_missing() -> None:
    times = [1_010, 0, 5_000, 0, 1_300, 0]
    points = [point._replace(time=time) for point, time in zip(opened(3), times)]
    log = read(binary(points[:2] + points[3:], begin=1_000, is_sparse=True))
    assert [(point.number, point.time) for point in log.points] == [
        (0, 1_010),
        (1, 1_010),
        (3, 1_010),
        (4, 1_300),
        (5, 1_300),
    ]


def test_steps_that_a_point_brings_besides_have_its_time() -> None:
    points = [*timed([1_010, 1_020]).points]
    points.append(Point(2, PointKind.SET_DEADLINE, 1, points[1].at, ord("r") + ord("w"), 500, 0, 1_700, 0))
    log = timed([1_010, 1_020])
    log.points = points
    recording = make(log)
    kinds = [str(line).split('"')[1] for line in recording.lines]
    assert kinds == ["sockopen", "pollopen", "tick", "setdeadline"]
    assert recording.times == [10, 20, 700, 700]


def test_nrdb_reads_the_times_that_were_written(folder: pathlib.Path) -> None:
    times = [17 * at * at for at in range(2_500)]
    name = folder / "x.where"
    write_where(name, [0] * len(times), {}, times=times)
    lines = SourceLines.beside(str(name.with_suffix(".jsonl")), len(times))
    assert (lines.fault, list(lines.times)) == ("", times)
    write_where(name, [0] * len(times), {}, times=times[:-1])
    assert list(SourceLines.beside(str(name.with_suffix(".jsonl")), len(times)).times) == []


def stacks(*points: tuple[PointKind, int, int, int]) -> list[int]:
    """The stacks of the steps for these points, which follow the opening of two sockets. A point is a kind, a
    goroutine, a socket and a stack."""
    made_file = opened(2)
    for kind, g, socket, stack in points:
        at = made_file[2 * socket].at if kind != PointKind.RESET else made_file[2 * socket + 1].at
        made_file.append(Point(len(made_file), kind, g, at, ord("r") if kind == PointKind.RESET else 0, 8, 2, 0, stack))
    recording = make(Log(made_file))
    steps = [stack for line, stack in zip(recording.lines, recording.stacks) if "spawn" not in str(line)]
    return steps[-len(points) :]


def test_a_later_step_of_the_call_has_it() -> None:
    lock, reset, unlock = (PointKind.RW_LOCK, 1, 0, 5), (PointKind.RESET, 1, 0, 0), (PointKind.RW_UNLOCK, 1, 0, 0)
    assert stacks(lock, reset, unlock) == [5, 5, 5]


def test_a_call_at_another_socket_meanwhile_keeps_its_own() -> None:
    lock, unlock = (PointKind.RW_LOCK, 1, 0, 5), (PointKind.RW_UNLOCK, 1, 0, 0)
    inner = (PointKind.INCREF, 1, 1, 6), (PointKind.DECREF, 1, 1, 0)
    assert stacks(lock, *inner, unlock) == [5, 6, 6, 5]


def test_a_call_of_another_goroutine_too() -> None:
    assert stacks((PointKind.RW_LOCK, 1, 0, 5), (PointKind.INCREF, 1, 0, 0), (PointKind.DECREF, 1, 0, 0)) == [5, 5, 5]
    first, second = (PointKind.INCREF, 2, 0, 6), (PointKind.INCREF, 3, 0, 7)
    assert stacks(first, second, (PointKind.DECREF, 2, 0, 0)) == [6, 7, 6]


@pytest.mark.parametrize(
    "asked, namespace, is_copy, size, said",
    [
        (0, 1, 0, 0, []), (0, 1, 0, -1, ["the log was truncated while the program ran: recording ended then"]), (0, 1, 1, -1, []), (0, 0, 0, -1, []),
        (2**64 - 1, 1, 0, 0, ["NETREV_POINTS isn't a number, so the log has {points} points"]), (2**25, 1, 0, 0, ["the log has {points} points, because it can't have 33554432"]),
        (1, 1, 0, 0, ["the log has {points} points, because it can't have 1"]),
        (2**20, 1, 0, 0, ["the log has {points} points instead of 1048576, because its file system had no room for more"]),
    ],
)  # fmt: skip
def test_what_a_log_lacks_by_its_header(asked: int, namespace: int, is_copy: int, size: int, said: list[str]) -> None:
    text = bytearray(binary(opened(3)))
    struct.pack_into("<Q", text, 17 * 8, is_copy)
    struct.pack_into("<2Q", text, 19 * 8, asked, namespace)
    header = Header(bytes(text))
    assert header.notes(header.end + size) == [line.format(points=header.points) for line in said]


def test_what_is_no_log_is_said() -> None:
    whole = binary(opened(3))
    for data, text in (
        (b"", "it is empty"),
        (whole[:100], "too short"),
        (b"\0" * 5000, "not a log"),
        (b"NR 3 1 7 4 0 0\n" * 400, "not a log"),
        (whole[:16] + b"\xff" * 8 + whole[24:], "header is damaged"),
    ):
        with pytest.raises(NotALogError, match=text):
            read(data)
    with pytest.raises(NotALogError, match="can't be read"):
        read_log(pathlib.Path("/nowhere/log.1"))


def test_a_copy_that_a_program_couldn_t_make_says_why(folder: pathlib.Path) -> None:
    copy = folder / "log.1.snapshot"
    copy.with_name(copy.name + ".failed.028").touch()
    copy.with_name("log.2.snapshot.failed.005").touch()
    with pytest.raises(NotALogError, match="couldn't copy its log: No space left on device"):
        read_whole(copy)
    with pytest.raises(NotALogError, match="can't be read: No such file"):
        read_whole(copy.with_name("log.3.snapshot"))
    copy.write_bytes(binary(opened(2)))
    assert len(read_whole(copy).log.points) == 4


def test_a_log_that_is_cut_short_gives_what_is_whole() -> None:
    data = binary(opened(200))
    ring = HEADER_BYTES + STACKS * 256
    log = read(data[: ring + 64 * 100 + 30])
    assert [point.number for point in log.points] == list(range(100))
    assert "the log is cut short or damaged: 100 of its 400 points can be used" in log.notes
    assert make(log).sockets == 50


def test_points_under_way_are_left_out_and_said() -> None:
    points = opened(20)
    log = read(binary(points[:30] + points[31:]))
    assert len(log.points) == 39
    assert "1 point wasn't finished when the log ended, and is left out" in log.notes


def test_so_many_may_be_missing_together_as_were_under_way() -> None:
    points = opened(100)
    for kept, first in (
        (points[:30] + points[30 + 63 :], 0),
        (points[:30] + points[30 + 64 :], 30 + 64),
        (points[:30] + points[30 + 40 : 90] + points[90 + 40 :], 0),
    ):
        assert read(binary(kept)).points[0].number == first


def test_a_ring_keeps_the_newest_and_the_sockets_that_were_opened_since() -> None:
    log = read(binary(opened(100), room=65))
    assert [point.number for point in log.points] == list(range(135, 200))
    assert "the log keeps the newest 65 points of 200" in log.notes
    assert make(log).sockets == 32
    later = [point._replace(number=point.number + 100, kind=PointKind.INCREF) for point in opened(3)]
    with pytest.raises(NothingRecordedError, match="before the oldest point in the log"):
        make(read(binary(later, room=3)))


def test_points_that_were_overwritten_in_part_are_left_out() -> None:
    data = bytearray(binary(opened(20)))
    at = HEADER_BYTES + STACKS * 256 + 64 * 7 + 16
    data[at] ^= 1
    assert 7 not in [point.number for point in read(bytes(data)).points]


def test_no_damage_is_more_than_a_sentence() -> None:
    whole = from_text((REAL / "hijacked.log").read_text())[0]
    chance = random.Random(SEED)
    for number in range(DAMAGED):
        data = damaged(whole, chance)
        try:
            make(read(data))
        except (NotALogError, NothingRecordedError, UnconvertibleError) as fault:
            assert str(fault)
        except Exception as fault:
            pytest.fail(f"damaged log {number} of seed {SEED}: {fault!r}")


def damaged(whole: bytes, chance: random.Random) -> bytes:
    """A log that was cut off, or has changed bytes, or whose points were removed, moved or mixed with each other."""
    data = bytearray(whole)
    ring = HEADER_BYTES + STACKS * 256
    sort = chance.randrange(5)
    if sort == 0:
        return bytes(data[: chance.randrange(len(data))])
    for _ in range(chance.randrange(1, 6)):
        here = ring + 64 * chance.randrange((len(data) - ring) // 64)
        if sort == 1:
            data[chance.choice([chance.randrange(88), here + chance.randrange(64)])] = chance.randrange(256)
        elif sort == 2:
            data[here : here + 64] = bytes(64)
        else:
            changed(data, here, chance, sort == 4)
    return bytes(data)


def changed(data: bytearray, at: int, chance: random.Random, is_kind: bool) -> None:
    """Changes the contents of a point, with a correct checksum."""
    word, goroutine, place, a, b, c, time, last = struct.unpack_from("<Q6qQ", data, at)
    point = Point((word >> 8) - 1, word & 255, goroutine, place, a, b, c, time, last & 2**32 - 1)
    name = "kind" if is_kind else chance.choice(["goroutine", "at", "a", "b", "c", "time"])
    values = list(map(int, PointKind)) if is_kind else [0, -1, 1, 5, 2**62, -(2**63), getattr(point, name) + 8]
    data[at : at + 64] = packed(point._replace(**{name: chance.choice(values)}))


CALLS = (
    LineCall("io.ReadAll", "io/io.go", 661, "go"),
    LineCall("ext.Read", "/m/pkg/mod/ext@v1/e.go", 5, "library"),
    LineCall("main.f", "main.go", 14, "program"),
    LineCall("main.main", "main.go", 20, "program"),
)


@pytest.mark.parametrize(
    "here, file, of",
    [
        ("/usr/share/gocode/src/p", "/usr/share/gocode/src/p/a.go", "program"),
        ("/go/pkg/mod/p@v1", "/go/pkg/mod/p@v1/a.go", "program"),
        ("/home/p", "/home/p/vendor/q/a.go", "library"),
        ("/home/p", "/usr/share/gocode/src/q/a.go", "library"),
        ("/home/p", "/go/pkg/mod/q@v1/a.go", "library"),
        ("/home/p", "/home/q/a.go", "program"),
        ("/home/p", "example.org/q@v1.2.0/a.go", "library"),  # of a program that was built with -trimpath
    ],
)
def test_what_is_below_the_commands_folder_is_the_programs(here: str, file: str, of: str) -> None:
    call = SourceRoots(pathlib.Path("/go/src"), pathlib.Path(here)).call("p.f", file, 7)
    assert (call.of, call.file) == (of, file.removeprefix(f"{here}/"))


def test_the_programs_line_comes_before_a_librarys() -> None:
    assert own_line(Calls(CALLS, None)) == (CALLS[2], "ext.Read")
    assert own_line(Calls(CALLS[:2], None)) == (CALLS[1], "io.ReadAll")
    assert own_line(Calls(CALLS[:1], None)) is None


def test_nrdb_reads_the_lines_that_were_written(folder: pathlib.Path) -> None:
    made_file = LineCall("main.main", "main.go", 18, "program")
    name = folder / "a.where"
    write_where(name, [7, 0, 9, 7] * 600, {7: Calls(CALLS, made_file), 9: Calls((), None)})
    result = SourceLines.beside(str(name.with_suffix(".jsonl")), 2_400)
    assert not SourceLines.beside(str(name.with_suffix(".jsonl")), 2_399)
    assert result.words(1) == "main.go:14 ext.Read"
    assert (result.words(2), result.words(3), result.words(2_400)) == ("", "", "main.go:14 ext.Read")
    made_at = result.of(1).made
    assert (made_at and made_at.place()) == "main.go:18"


def test_lines_of_another_form_are_none() -> None:
    for text in (
        "",
        "{",
        "[]",
        '{"where":2,"steps":1}',
        '{"where":1,"steps":1}\n{"call":1}',
        '{"where":1,"steps":1}\n7',
    ):
        assert not SourceLines(text, 1)


def test_a_programs_words_are_not_obeyed_by_a_terminal() -> None:
    calls = Calls((LineCall("main.\x1b[2Jf", "m\u202e.go", 3, "program"),), None)
    assert (
        wait_of(1, "parked 0 r", 9, "step 9", calls).sentences[0]
        == "m\\u202e.go:3: main.\\x1b[2Jf waits to read (goroutine 1, since step 9)"
    )


def test_a_logs_name_is_not_obeyed_by_a_terminal() -> None:
    for text in OBEYED:
        with tempfile.TemporaryDirectory() as folder:
            log = pathlib.Path(folder, f"log{text}.1")
            log.write_bytes(b"nothing")
            outcome = convert(log, log.with_suffix(".jsonl"), None, RecordingOptions())
        assert not outcome.taken
        assert unseen("\n".join(outcome.lines)) == []
        assert "too short for a log" in outcome.lines[0]


def test_the_next_line_has_the_commands_of_the_first_suspect() -> None:
    for evidence, words in (
        ((), "a.jsonl -ex continue -ex 'info goroutines'"),
        (("goto 7", "history wd 2"), "a.jsonl -ex 'goto 7' -ex 'history wd 2'"),
    ):
        assert next_line(pathlib.Path("a.jsonl"), evidence).endswith(f"nrdb {words}")
        explores = next_line(pathlib.Path("a.jsonl"), evidence, True).endswith("nrdb --explore a.jsonl")
        assert explores == (not evidence)


def test_addresses_become_lines(monkeypatch: pytest.MonkeyPatch) -> None:
    result = "main.f\n/p/main.go:14\n?\n?:0\n"
    monkeypatch.setattr(source_lines.subprocess, "run", lambda *_, **__: stub(stdout=result))
    with tempfile.TemporaryFile() as program:
        assert looked_up(program, ["go"], [5, 4], 0) == {4: ("main.f", "/p/main.go", 14)}


def test_without_go_there_is_a_recording_without_lines(folder: pathlib.Path, monkeypatch: pytest.MonkeyPatch) -> None:
    monkeypatch.setattr(conversion, "report", lambda *_: Conversion(True, []))
    log, name = folder / "log.1", folder / "made.jsonl"
    log.write_bytes(from_text((REAL / "past.log").read_text())[0])
    assert convert(log, name, None, RecordingOptions()).taken
    assert name.exists()
    assert not name.with_suffix(".where").exists()
