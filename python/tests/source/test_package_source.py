"""Facts from the source of a package: types of variables and fields, and functions that write into buffers and
flush them."""

from pathlib import Path

import pytest

from netrev.findings.pools.leaking_paths import paths_with_an_error
from netrev.findings.source.functions import is_inside
from netrev.findings.source.package import place_of_variable
from netrev.findings.streams.left_in_buffers import names_of, unflushed_in
from netrev.recording.goroutines import FOR_ROOM, At
from netrev.recording.recording import Recording
from netrev.recording.waits import Name, ObjectWait
from netrev.recording.where import OF_THE_PROGRAM, SourceCall, Stack
from tests.hangs.test_needs import stored

NODE = """\
package main

type Node struct {
	mu, other sync.Mutex
	peers     map[string]*Node
	*log.Logger
}

func (n *Node) Round() {
	n.mu.Lock()
}
"""
SERVICE = """\
package main

type Service struct{ node *Node; name string }

func (s *Service) Fetch(one *Node, count int) {
	s.node.mu.Lock()
	one.other.Lock()
	n := s.node
	n.mu.Lock()
	made := &Node{}
	made.mu.Lock()
	free.mu.Lock()
	count.mu.Lock()
}
"""
LINK = """\
package main

type link struct {
	out *bufio.Writer
}

func (l *link) write(s string) { l.out.WriteString(s) }
func (l *link) push()          { l.out.Flush() }

func (l *link) put() {
	l.write("put")
	l.push()
	l.read()
}

func (l *link) commit() {
	l.write("commit")
	l.read()
}

func (l *link) later() {
	defer l.push()
	go l.write("later")
	l.read()
}
"""
HALL = """\
package main

func (h *hall) enter(name string) error {
	h.seats <- struct{}{}
	if name == "" {
		<-h.seats
		return errors.New("no name")
	}
	if name == "guest" {
		return errors.New("no guests")
	}
	return nil
}

func (h *hall) sit() error {
	h.seats <- struct{}{}
	return errors.New("no chair")
}
"""


@pytest.fixture
def recording(tmp_path: Path) -> Recording:
    """A recording of a program with these files."""
    files = {
        "node": NODE, "service": SERVICE, "link": LINK, "hall": HALL, "node_test": "package main\n",
    }  # fmt: skip
    for name, text in files.items():
        (tmp_path / f"{name}.go").write_text(text, encoding="utf-8")
    found = stored("kept-bad")
    found.lines.written = float("inf")
    return found


def call(folder: Path, file: str, function: str, text: str, nth: int = 1) -> SourceCall:
    """The nth call in the line of a file that contains this text."""
    lines = (folder / f"{file}.go").read_text(encoding="utf-8").splitlines()
    number = [at for at, line in enumerate(lines, 1) if text in line][nth - 1]
    return SourceCall(f"main.{function}", str(folder / f"{file}.go"), number, OF_THE_PROGRAM)


@pytest.mark.parametrize(
    "file, function, text, expression, place",
    [
        ("node", "(*Node).Round", "n.mu", "n.mu", "Node.mu"), ("service", "(*Service).Fetch", "s.node.mu", "s.node.mu", "Node.mu"),
        ("service", "(*Service).Fetch", "one.other", "one.other", "Node.other"), ("service", "(*Service).Fetch", "n.mu.L", "n.mu", "Node.mu"),
        ("service", "(*Service).Fetch", "made.mu", "made.mu", "Node.mu"), ("service", "(*Service).Fetch", "free.mu", "free.mu", None),
        ("service", "(*Service).Fetch", "one.other", "mu", None), ("service", "(*Service).Fetch", "one.other", "s.name.mu", "string.mu"),
        ("service", "(*Service).Fetch", "one.other", "s.nothing.mu", None),
    ],
)  # fmt: skip
def test_which_field_of_which_struct_is_named(
    recording: Recording, tmp_path: Path, file: str, function: str, text: str, expression: str, place: str
) -> None:
    assert place_of_variable(recording, call(tmp_path, file, function, text), expression) == place


def test_who_writes_into_a_buffer_and_who_flushes_it() -> None:
    named = names_of((tuple(LINK.splitlines()),))
    assert (named.buffers, named.writes, named.flushes) == ({"out"}, {"write"}, {"push", "put", "later"})


@pytest.mark.parametrize("function, is_left", [("put", False), ("commit", True), ("later", False)])
def test_a_write_that_nothing_flushes(recording: Recording, tmp_path: Path, function: str, is_left: bool) -> None:
    nth = ("put", "commit", "later").index(function) + 1
    frame = call(tmp_path, "link", f"(*link).{function}", "l.read()", nth)
    place = f"{frame.file}:{frame.line - 1}" if is_left else ""
    assert unflushed_in(recording, frame) == place


@pytest.mark.parametrize("nth, is_kept", [(1, True), (2, False)])
def test_a_way_that_returns_an_error_and_keeps_a_seat(
    recording: Recording, tmp_path: Path, nth: int, is_kept: bool
) -> None:
    at = call(tmp_path, "hall", "(*hall).enter" if nth == 1 else "(*hall).sit", "h.seats <- struct{}{}", nth)
    wait = ObjectWait(Name(0), 1, None, "room in a channel", Stack((at,), None), objects=(At(1, FOR_ROOM),))
    says = paths_with_an_error(recording, wait)
    assert says == ([f"Perhaps (*hall).enter keeps it on this way: {at.file}:10 returns without {at.file}:6, which gives it back."] if is_kept else [])  # fmt: skip


def test_who_only_starts_a_goroutine_is_not_inside() -> None:
    source = ("package main", "", "func run() {", "\tgo func() {", "\t\twork()", "\t}()", "\tclose(quit)", "}")
    inside = {
        name: is_inside(source, SourceCall(f"main.run{name}", "a.go", line, OF_THE_PROGRAM), range(3, 9))
        for name, line in (("", 4), (".func1", 5), (".gowrap1", 4))
    }
    assert inside == {"": True, ".func1": False, ".gowrap1": False}
