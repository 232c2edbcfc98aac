"""The only tables of the vocabulary of recordings and commands: kinds of steps with their arguments, cells, dumps,
reasons, faults and the header's keys. docs/internals/MACHINE.md, docs/reference/RECORDING.md and
docs/reference/COMMANDS.md explain them."""

from collections.abc import Sequence
from dataclasses import dataclass
from enum import Enum

MOST = 4_294_967_295
MOST_LINE = 256
MOST_STANDING = 64
VERSIONS = (1, 2)


class ObjectKind(Enum):
    """The owner of a cell: the whole machine, or each goroutine, socket or descriptor."""

    ALL = "machine"
    GOROUTINE = "goroutine"
    SOCKET = "socket"
    DESCRIPTOR = "descriptor"


@dataclass(frozen=True)
class Kind:
    """A kind of step: its name, the names of its arguments, the names of its possible answers, a short description,
    and the first version whose recordings can have it."""

    name: str
    arguments: tuple[str, ...]
    answers: tuple[str, ...]
    says: str
    since: int

    @property
    def usage(self) -> str:
        return " ".join((self.name, *self.arguments))


@dataclass(frozen=True)
class Cell:
    """A cell of `print` and `watch`, its owner, and the meaning of its value."""

    name: str
    of: ObjectKind
    says: str


def _kind(usage: str, answers: str, says: str, since: int = 1) -> Kind:
    name, *arguments = usage.split()
    return Kind(name, tuple(arguments), tuple(answers.split()), says, since)


KINDS = {
    kind.name: kind
    for kind in (
        _kind("spawn", "number", "a goroutine starts"),
        _kind("exit g", "done", "goroutine g ends"),
        _kind("sockopen rc wc", "number", "a socket is made, with buffers of rc and wc bytes"),
        _kind("arrive s bytes", "done", "bytes come from the network"),
        _kind("peerclose s", "done", "the peer closes"),
        _kind("sysread g s n", "got eof again", "the system call that reads up to n bytes"),
        _kind("syswrite g s bytes", "put again pipe", "the system call that writes"),
        _kind("drain s n", "done", "the network takes n bytes"),
        _kind("incref g s", "yes no", "fdMutex.incref"),
        _kind("increfclose g s", "yes no", "fdMutex.increfAndClose: closes the socket"),
        _kind("decref g s", "last notlast", "fdMutex.decref"),
        _kind("rwlock g s side", "yes no wait", "fdMutex.rwlock: requests the read or write lock"),
        _kind("rwunlock g s side", "last notlast", "fdMutex.rwunlock"),
        _kind("acquire g", "yes wait", "runtime_Semacquire"),
        _kind("release g", "done", "runtime_Semrelease: makes one of the releases that g owes"),
        _kind("pollopen g s", "number", "runtime_pollOpen: opens a descriptor for socket s"),
        _kind("pollclose g d", "done", "runtime_pollClose: frees descriptor d"),
        _kind("pollreset g d side", "code", "runtime_pollReset: prepareRead, prepareWrite"),
        _kind("waitbegin g d side", "code", "runtime_pollWait begins"),
        _kind("blockarm g", "wait code", "netpollblock arms the word"),
        _kind("blockcheck g", "code", "netpollblock checks again"),
        _kind("parkcommit g", "yes no", "netpollblockcommit: g parks, unless an event came first"),
        _kind("blockswap g", "yes no", "netpollblock continues and takes the word"),
        _kind("waitcheck g", "code", "runtime_pollWait checks why it was woken"),
        _kind("setdeadline g d mode time", "done", "runtime_pollSetDeadline"),
        _kind("evict g d", "done", "pd.evict: sets closing and wakes goroutines that wait"),
        _kind("pollevent d tag mode err", "done stale", "netpollready: the poller reports an event"),
        _kind("tick time", "done", "the clock moves"),
        _kind("pop", "done", "the first due timer's function is started"),
        _kind("fire i", "done stale", "the started timer function at place i runs"),
        _kind("closewrite g s", "done", "CloseWrite: closes the write side, shutdown(SHUT_WR)", since=2),
    )
}

OF_A_GOROUTINE = tuple(name for name, kind in KINDS.items() if kind.arguments[:1] == ("g",))  # which one makes

NUMBERS = {name: number for number, name in enumerate(KINDS, 1)}  # a kind's number is its index in the table

# a recorded answer is one of these names, or an array of a name from the next table and a number
PLAIN_ANSWERS = ("done", "yes", "no", "wait", "last", "notlast", "eof", "again", "stale", "pipe")
COUNTED_ANSWERS = ("number", "code", "got", "put")


def is_answer(value: object) -> bool:
    """Whether a value of a recording is an answer, even if the step's kind can't give it."""
    if isinstance(value, str):
        return value in PLAIN_ANSWERS
    if not (isinstance(value, list) and len(value) == 2 and isinstance(value[0], str)):
        return False
    return value[0] in COUNTED_ANSWERS and type(value[1]) is int and 0 <= value[1] <= MOST


CELLS = {
    cell.name: cell
    for cell in (
        Cell("clock", ObjectKind.ALL, "the time, in nanoseconds"),
        Cell("waiters", ObjectKind.ALL, "the number of parked goroutines"),
        Cell("timers", ObjectKind.ALL, "the number of armed timers"),
        Cell("firings", ObjectKind.ALL, "the number of started timer functions that haven't run"),
        Cell("least", ObjectKind.ALL, "when the first timer is due"),
        Cell("gor", ObjectKind.GOROUTINE, "the goroutine's status"),
        Cell("lock", ObjectKind.SOCKET, "the lock word"),
        Cell("rsem", ObjectKind.SOCKET, "the count of the read semaphore"),
        Cell("wsem", ObjectKind.SOCKET, "the count of the write semaphore"),
        Cell("in", ObjectKind.SOCKET, "the number of bytes in the input"),
        Cell("out", ObjectKind.SOCKET, "the number of bytes in the output"),
        Cell("rg", ObjectKind.DESCRIPTOR, "the word for reading"),
        Cell("wg", ObjectKind.DESCRIPTOR, "the word for writing"),
        Cell("rd", ObjectKind.DESCRIPTOR, "the read deadline"),
        Cell("wd", ObjectKind.DESCRIPTOR, "the write deadline"),
        Cell("rseq", ObjectKind.DESCRIPTOR, "the sequence of the read timer"),
        Cell("wseq", ObjectKind.DESCRIPTOR, "the sequence of the write timer"),
        Cell("fdseq", ObjectKind.DESCRIPTOR, "the number of this use of the descriptor"),
        Cell("info", ObjectKind.DESCRIPTOR, "closing, event error and passed deadlines in one number"),
        Cell("shut", ObjectKind.SOCKET, "1 if the write side is closed, else 0"),
    )
}

DUMPS = {
    "in": "the bytes in the input",
    "out": "the bytes in the output",
    "rq": "the goroutines queued for the read lock",
    "wq": "the goroutines queued for the write lock",
}


class Written(Enum):
    """The form of an argument in a recording."""

    NUMBER = "a whole number from 0 to 4294967295"
    TAG = "a whole number from 0 to 18446744073709551615"
    SIDE = '"r" or "w"'
    MODE = '"r", "w" or "rw"'
    BIT = "0 or 1"
    BYTES = "a string of hexadecimal digits, two for each byte, at most 65536 bytes"
    DEADLINE = "a whole number of nanoseconds from now, 0 for none"
    CLOCK = "a whole number of nanoseconds, 0 or more"


_WRITTEN = {
    "tag": Written.TAG,
    "side": Written.SIDE,
    "mode": Written.MODE,
    "err": Written.BIT,
    "bytes": Written.BYTES,
    "time": Written.CLOCK,
}


def written(kind: Kind, argument: str) -> Written:
    """The form of this argument in steps of this kind: a deadline's time may be negative, but a clock's time may
    not."""
    if kind.name == "setdeadline" and argument == "time":
        return Written.DEADLINE
    return _WRITTEN.get(argument, Written.NUMBER)


@dataclass(frozen=True)
class Limit:
    """A key of the header, the least and the greatest value, and what it counts."""

    least: int
    greatest: int
    says: str


def _header(most_bytes: int) -> dict[str, Limit]:
    return {
        "netrev": Limit(VERSIONS[0], VERSIONS[-1], "the version"),
        "gor": Limit(1, 4096, "goroutines"),
        "sock": Limit(1, 256, "sockets"),
        "desc": Limit(1, 256, "descriptors"),
        "buf": Limit(1, most_bytes, "bytes a buffer holds"),
    }


# the header's keys by the version
HEADERS = {1: _header(65_536), 2: _header(1_048_576)}
HEADER_EXAMPLE = '{"netrev":1,"gor":4,"sock":2,"desc":2,"buf":16}'

REASONS = (
    "out of memory",
    "no such goroutine, or it has ended",
    "the goroutine has another status",
    "the header's limit is reached",
    "no such socket",
    "no such open descriptor",
    "a field or a count is full",
    "the lock word is wrong for this operation",
    "another goroutine is in this wait",
    "pollclose before evict",
    "the descriptor is already closing",
    "a goroutine is inside a wait",
    "the clock would go back",
    "no timer is due",
    "the list of firings is full: twice the limit of descriptors",
    "no firing at this place",
    "no room for the bytes",
    "the buffer holds fewer bytes",
    "a sequence, fdseq or arming number is at its last value",
    "a size is out of range",
    "the peer has closed",
    "the descriptor contradicts itself",
)


def cell_of(words: Sequence[str]) -> str | None:
    """The cell that the words name, spelled as in replies, or None."""
    cell = CELLS.get(words[0]) if words else None
    if cell is None:
        return None
    if cell.of is ObjectKind.ALL:
        return cell.name if len(words) == 1 else None
    number = number_of(words[1]) if len(words) == 2 else None
    return None if number is None else f"{cell.name} {number}"


def number_of(word: str) -> int | None:
    """The number that a word means, or None."""
    digits = word.lstrip("0") or word[:1]
    if not (word.isascii() and word.isdigit()) or len(digits) > len(str(MOST)):  # int() rejects 4,301 digits
        return None
    number = int(digits)
    return number if number <= MOST else None


def break_of(words: Sequence[str]) -> str | None:
    """The target of a break that the words name, spelled as in `info breakpoints`: a kind, or `@` and a step. None if
    the words name neither."""
    if len(words) != 1:
        return None
    word = words[0]
    if word in KINDS:
        return word
    step = number_of(word[1:]) if word.startswith("@") else None
    return f"@{step}" if step else None
