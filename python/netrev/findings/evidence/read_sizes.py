"""The number of bytes that each Read asked for. These numbers show which Reads belong to one io.ReadFull."""

from functools import lru_cache

from netrev.recording.call import Call
from netrev.recording.recording import Recording
from netrev.run.index import RunIndex, run_of

SYSREAD = "sysread"


class ReadSizes:
    """For each Read, the number of bytes that its first system call asked for, and the goroutine's previous Read on
    that socket."""

    def __init__(self, index: RunIndex) -> None:
        self._sizes: dict[int, int] = {}  # keyed by the first step of the Read
        self._before: dict[int, Call] = {}
        begun: dict[int, int] = {}  # the number of calls that each goroutine had begun
        by_goroutine, sizes = index.by_goroutine, self._sizes
        for number, values in index.recording.arrays_like((SYSREAD,), index.recording.length):
            if values[0] != SYSREAD:
                continue
            _, g, _, count, *_ = values
            calls, after = by_goroutine.get(g, ()), begun.get(g, 0)
            while after < len(calls) and calls[after].first <= number:
                after += 1
            begun[g] = after
            call = calls[after - 1] if after else None
            if call is not None and call.name == "Read" and (not call.last or call.last >= number):
                sizes.setdefault(call.first, count)
        latest: dict[tuple[int, int], Call] = {}
        for call in index.calls:
            if call.name == "Read":
                key = call.goroutine, call.socket
                if key in latest:
                    self._before[call.first] = latest[key]
                latest[key] = call

    def of(self, call: Call) -> int | None:
        """The number of bytes that a Read asked for; None if the Read made no system call that asks for bytes."""
        return self._sizes.get(call.first)

    def before(self, call: Call) -> Call | None:
        """The previous Read of the same goroutine and socket."""
        return self._before.get(call.first)

    def begin_of(self, call: Call) -> Call:
        """The first Read of the io.ReadFull that a Read belongs to; outside an io.ReadFull, the Read itself. Each later
        Read of an io.ReadFull asks for the bytes that the previous Read left."""
        while (before := self.before(call)) and self.is_next(before, call):
            call = before
        return call

    def is_next(self, before: Call, call: Call) -> bool:
        """Whether a Read asks for exactly the bytes that the previous Read left."""
        size, rest = self.of(before), self.of(call)
        return size is not None and rest is not None and bool(before.moved) and rest == size - (before.moved or 0) > 0


@lru_cache(maxsize=2)
def read_sizes_of(recording: Recording) -> ReadSizes:
    """The numbers of bytes that the Reads of a recording asked for."""
    return ReadSizes(run_of(recording))
