"""Reads the log of a process (go/log/runtime.go describes the format). A log may be incomplete, because its process was
killed or is still running. Complete points are used, and notes say what is missing."""

from __future__ import annotations

import io
import os
import pathlib
import stat
import struct
import sys
from array import array
from collections.abc import Callable, Iterable
from functools import lru_cache, partial
from itertools import accumulate, compress, takewhile
from operator import xor
from typing import BinaryIO, cast

from netrev.errors import NetrevError
from netrev.messages import recorder as messages

from .points import KINDS, Log, LoggedHolder, Point, PointStack

MAGIC = 0x31676F6C7665726E
HEADER_BYTES = 4096
STACK_WORDS = 32
HOLDER_WORDS = 16
HOLDER_CALL = 4  # the index of a row's first call, in the table of locked mutexes
POINT_WORDS = 8
WORD = 8
PAGE = 4_096
HEADER_WORDS = 21
ROW_WORDS, WAITER_WORDS = 16, 8  # in the tables of descriptors, and of goroutines that are queued for their locks
STACK_BYTES, HOLDER_BYTES, POINT_BYTES = STACK_WORDS * WORD, HOLDER_WORDS * WORD, POINT_WORDS * WORD
ROW_BYTES, WAITER_BYTES = ROW_WORDS * WORD, WAITER_WORDS * WORD
AT_ONCE = 2**16  # points
MOST_POINTS = 2**24
CHUNK_POINTS = 2**14  # the header's count of points is at most about this old
NOT_A_NUMBER = 2**64 - 1  # what was asked for, if that wasn't a number
MOST_STACKS = 2**20
MOST_HOLDERS = 2**20  # rows of the table of locked mutexes
HOLDER_BEGUN = 1  # a row's address while the row is being written
# While one point is written, this many points may be unfinished on other processors.
UNDER_WAY = 64
LOW = 2**32 - 1
NEVER, UNKNOWN = -1, 0  # instead of a time
OF_KINDS = bytes(KINDS)


class NotALogError(NetrevError):
    """The file isn't a log, or contains nothing."""


class Header:
    """The first words of a log."""

    def __init__(self, text: bytes) -> None:
        if len(text) < HEADER_WORDS * WORD:
            raise NotALogError(messages.TOO_SHORT if text else messages.EMPTY)
        words = struct.unpack_from(f"<{HEADER_WORDS}Q", text)
        if words[0] != MAGIC:
            raise NotALogError(messages.NOT_A_LOG)
        self.passed, self.points, self.stacks = words[1:4]
        self.begin, self.process, self.text = words[4:7]
        self.program = f"{words[7]}.{words[8]}"
        self.ended, self.stacks_lost = words[9:11]
        self.has_orders = words[11] == 1
        self.holders = words[12]
        self.knows_holders = words[14] == 1 and not words[13]
        self.rows, self.queue = words[15:17]  # 0 in older logs
        self.is_copy = words[17] == 1  # made while the program wrote
        self.is_sparse = words[18] == 1  # points without a time have the previous point's time
        self.asked = words[19]  # the number of points that was asked for, if the ring has another number
        self.has_full_size = words[20] != 0 and not self.is_copy  # (since logs name their PID namespace)
        are_possible = 0 < self.points <= MOST_POINTS and self.stacks <= MOST_STACKS and self.holders <= MOST_HOLDERS
        are_possible = are_possible and self.rows <= MOST_POINTS and self.queue <= MOST_POINTS
        if not are_possible or self.begin >= 2**63:
            raise NotALogError(messages.BAD_HEADER)
        self.rows_begin = HEADER_BYTES + self.stacks * STACK_BYTES + self.holders * HOLDER_BYTES
        self.ring = self.rows_begin + self.rows * ROW_BYTES + self.queue * WAITER_BYTES
        self.end = self.ring + self.points * POINT_BYTES

    def counted(self, file: BinaryIO) -> Header:
        """The header, which also counts the points that were logged after it was last written."""
        newest = self.passed
        while newest < self.passed + self.points:
            place = newest % self.points
            file.seek(self.ring + place * POINT_BYTES)
            text = file.read(min(CHUNK_POINTS, self.points - place) * POINT_BYTES)
            found = points_of(text[: len(text) // POINT_BYTES * POINT_BYTES], newest)
            if not found:
                break
            newest = found[-1].number + 1
        self.passed = min(newest, self.ended - 1) if self.ended else newest
        return self

    def notes(self, size: int) -> list[str]:
        """What a log of this many bytes lacks by its header."""
        found = [messages.LOG_IS_FULL] if self.ended else []
        if self.has_full_size and size < self.end:
            found.append(messages.LOG_IS_CUT)
        if self.asked == NOT_A_NUMBER:
            found.append(messages.NO_NUMBER_OF_POINTS.format(points=self.points))
        elif self.asked > MOST_POINTS or 0 < self.asked < self.points:
            found.append(messages.OTHER_POINTS.format(asked=self.asked, points=self.points))
        elif self.asked:
            found.append(messages.FEWER_POINTS.format(asked=self.asked, points=self.points))
        return found


def read_stacks(file: BinaryIO, count: int) -> dict[int, PointStack]:
    """The table of this many stacks, each by its number. A stack that was still being written has no calls."""
    stacks = {}
    for slot in range(count):
        text = file.read(STACK_BYTES)
        if len(text) < STACK_BYTES:
            break
        filled, calls, go_statement, started = struct.unpack_from("<4Q", text)
        if filled and calls <= STACK_WORDS - 4:
            stacks[slot + 1] = PointStack(go_statement, started, struct.unpack_from(f"<{calls}Q", text, 4 * WORD))
    return stacks


def stack_at(file: BinaryIO, number: int) -> PointStack | None:
    """One stack of the table, by its number."""
    file.seek(HEADER_BYTES + (number - 1) * STACK_BYTES)
    return next(iter(read_stacks(file, 1).values()), None)


def read_holders(file: BinaryIO, count: int, stacks: dict[int, PointStack]) -> list[LoggedHolder]:
    """The table of locked mutexes, which has this many rows. Their stacks are added to the stacks of points, with
    numbers of their own."""
    found: dict[tuple[int, int], LoggedHolder] = {}
    for row in range(count):
        text = file.read(HOLDER_BYTES)
        if len(text) < HOLDER_BYTES:
            break
        address, whose, passed, calls = struct.unpack_from("<4Q", text)
        if address in (0, HOLDER_BEGUN) or calls > HOLDER_WORDS - HOLDER_CALL:
            continue
        number = MOST_STACKS + 1 + row if calls else 0
        if calls:
            stacks[number] = PointStack(0, 0, struct.unpack_from(f"<{calls}Q", text, HOLDER_CALL * WORD))
        holder = LoggedHolder(address, whose >> 1, whose & 1 == 1, passed, number)
        key = address, row if holder.is_reader else -1
        # (the memory of a mutex that was left locked may have been reused)
        if key not in found or found[key].passed < passed:
            found[key] = holder
    return list(found.values())


def whole_points(file: BinaryIO, header: Header) -> tuple[list[Point], int]:
    """The complete points, ordered by number, and the number of places in the ring. The ring is read piece by piece,
    because a file with holes is mostly empty."""
    ring = header.ring
    held = (file.seek(0, 2) - ring) // POINT_BYTES
    held = max(0, min(held, header.passed, header.points))
    first = max(0, header.passed - header.points)
    turn = first % header.points
    points: list[Point] = []
    latest = NEVER
    if header.is_sparse:
        latest = header.begin if not first else UNKNOWN
    for begin, end, number in ((turn, held, first), (0, min(turn, held), first + header.points - turn)):
        end = min(end, begin + max(0, header.passed - number))
        for place in range(begin, end, AT_ONCE):
            file.seek(ring + place * POINT_BYTES)
            text = file.read(min(AT_ONCE, end - place) * POINT_BYTES)
            if text != bytes(len(text)):
                found = points_of(text[: len(text) // POINT_BYTES * POINT_BYTES], number + place - begin, latest)
                points += found
                if header.is_sparse and found:
                    latest = max(latest, found[-1].time)
    return with_first_times(points) if header.is_sparse else points, held


def with_first_times(points: list[Point]) -> list[Point]:
    """The points. If the first points have no time, they get the time of the next point with a time, because the point
    before them is lost."""
    untimed = len(list(takewhile(lambda point: point.time == UNKNOWN, points)))
    if untimed in (0, len(points)):
        return points
    return [point._replace(time=points[untimed].time) for point in points[:untimed]] + points[untimed:]


# Makes a point as Point._make does, but without checking the number of values.
made = cast(Callable[[tuple[int, ...]], Point], partial(tuple.__new__, Point))


def points_of(text: bytes, first: int, latest: int = NEVER) -> list[Point]:
    """The complete points of a part of the ring, whose first point has this number. Points without a time get the
    previous point's, if the `latest` time before them is known. (Column by column, because there may be millions.)"""
    signed = array("q", text)
    heads, *columns, lasts = (signed[column::POINT_WORDS] for column in range(POINT_WORDS))
    numbers = range(first, first + len(heads))
    kinds, stacks = (
        text[::POINT_BYTES],
        array("I", text)[14::16],
    )  # the lowest byte of the head, the lower half of the last word
    seen, times = columns[:-1], columns[-1]
    if are_whole(first, heads, columns, lasts):
        points = map(made, zip(numbers, kinds, *seen, timed(times, latest), stacks))
        return (
            list(points) if not kinds.translate(None, OF_KINDS) else [point for point in points if point.kind in KINDS]
        )
    words = array("Q", text)
    sums: Iterable[int] = numbers
    for column in range(1, 7):
        sums = map(xor, sums, words[column::POINT_WORDS])
    whole = [
        head >> 8 == number + 1 and head & 255 in KINDS and (total ^ total >> 32) & LOW == last >> 32
        for number, head, total, last in zip(numbers, words[0::POINT_WORDS], sums, words[7::POINT_WORDS])
    ]
    rows = (numbers, kinds, *seen, timed(array("q", compress(times, whole)), latest), stacks)
    kept = [row if row is rows[-2] else compress(row, whole) for row in rows]
    return list(map(made, zip(*kept)))


def timed(times: array[int], latest: int) -> Iterable[int]:
    """The times, with each 0 replaced by the greatest earlier time, if any."""
    if latest == NEVER:
        return times
    greatest = accumulate(times, max, initial=latest)
    return [time or before for time, before in zip(times, greatest)]


def are_whole(first: int, heads: array[int], columns: list[array[int]], lasts: array[int]) -> bool:
    """Whether all these points are complete. Each column is tested as one large number, which is much faster than point
    by point."""
    kinds, low, ones, counted = masks(len(heads))
    total = counted + first * ones
    if as_one(heads) & ~kinds != total + ones << 8:
        return False
    for column in columns:
        total ^= as_one(column)
    return (total ^ total >> 32) & low == as_one(lasts) >> 32 & low


@lru_cache(2)
def masks(count: int) -> tuple[int, int, int, int]:
    """Masks for this many words, each as one large number: the lowest byte of each word, the lower half of each, a one
    in each, and in each word its index."""
    kinds, low, ones = (as_one(array("Q", (word,)) * count) for word in (255, LOW, 1))
    return kinds, low, ones, as_one(array("Q", range(count)))


def as_one(column: array[int]) -> int:
    return int.from_bytes(column.tobytes(), sys.byteorder)


def after_last_gap(points: list[Point]) -> list[Point]:
    """The points after the last gap that is too large to be explained by unfinished points."""
    if points and points[-1].number - points[0].number < len(points) - 1 + UNDER_WAY:
        return points  # all missing points may be unfinished ones
    for index in range(len(points) - 1, 0, -1):
        if points[index].number - points[index - 1].number > UNDER_WAY:
            return points[index:]
    return points


def read_log(path: pathlib.Path, is_written: bool = False) -> Log:
    """A log's points and stacks, with notes on what is missing. A log that a program is still writing is copied first."""
    try:
        if not stat.S_ISREG(path.stat().st_mode):
            raise NotALogError(messages.NOT_A_FILE)
        with path.open("rb") as file:
            return log_of(copy_of(file), is_written) if is_written else log_of(file)
    except OSError as fault:
        raise NotALogError(messages.UNREADABLE.format(why=fault.strerror)) from None


def copy_of(file: BinaryIO) -> BinaryIO:
    """A copy of a growing log: the ring first, after the header, because new points replace the oldest. The other parts
    only grow."""
    room = bytearray(os.fstat(file.fileno()).st_size)
    room[::PAGE] = bytes(len(room[::PAGE]))  # (otherwise the system would allocate each page while the ring is copied)
    view = memoryview(room)
    size = os.preadv(file.fileno(), [view[:HEADER_BYTES]], 0)
    header = Header(bytes(view[:size]))
    end = ring = header.ring
    while end < len(room) and (read := os.preadv(file.fileno(), [view[end:]], end)):
        end += read
    os.preadv(file.fileno(), [view[HEADER_BYTES:ring]], HEADER_BYTES)
    return io.BytesIO(view[:end])


def log_of(file: BinaryIO, is_written: bool = False) -> Log:
    """The log in an open file. While the file was copied, the oldest points may have been replaced."""
    header = Header(file.read(HEADER_BYTES)).counted(file)
    is_written = is_written or header.is_copy
    size = file.seek(0, io.SEEK_END)
    file.seek(HEADER_BYTES)
    stacks = read_stacks(file, header.stacks)
    holders = read_holders(file, header.holders, stacks)
    read, held = whole_points(file, header)
    points = after_last_gap(read)
    kept = min(header.passed, header.points)
    log = Log(points, stacks, header.begin, header.process, header.text, header.program)
    log.has_orders = header.has_orders
    log.holders = holders if header.knows_holders else None
    log.from_the_start = header.passed <= header.points and len(points) == len(read)
    log.notes += header.notes(size)
    if header.passed > header.points:
        log.notes.append(messages.NEWEST_POINTS.format(kept=header.points, all=header.passed))
    if (len(points) + UNDER_WAY < kept or held < kept) and not (is_written and header.passed > header.points):
        log.notes.append(messages.LOG_IS_DAMAGED.format(usable=len(points), kept=kept))
    elif len(points) < kept and not (is_written and header.passed > header.points):
        missing = kept - len(points)
        log.notes.append(messages.ONE_UNFINISHED if missing == 1 else messages.UNFINISHED.format(count=missing))
    if header.stacks_lost:
        log.notes.append(messages.NO_STACKS.format(count=header.stacks_lost))
    return log
