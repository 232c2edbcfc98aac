"""Checks each kind of wait outside the poller, and the uses of channels, in a program's NAME.where. The program is
recorded with each installed release of Go (dev.recorder.fetching), or with the `go` on the PATH if no release is
installed. `make real` runs it."""

import os
from contextlib import ExitStack
from pathlib import Path

import pytest

from dev.recorder.fetching import SUITES, here, is_here
from netrev.recording import goroutines as where
from netrev.recording.goroutines import GoGoroutine, ObjectUse, Park, Timer
from netrev.recording.where import SourceLines

from .go_programs import Tool, program

HOUR = 3600 * 10**9
FUNCTIONS = """
func receives(c chan int)             { <-c }
func sends(c chan int)                { c <- 1 }
func selects(a, b, c, d, e chan int)  {
	select {
	case <-a:
	case <-b:
	case c <- 1:
	case <-d:
	case e <- 1:
	}
}
func awaits(c *sync.Cond)             { c.L.Lock(); c.Wait() }
func sleeps()                         { time.Sleep(time.Hour) }
func locks(m *sync.Mutex)             { m.Lock() }
func readLocks(m *sync.RWMutex)       { m.RLock() }
func writeLocks(m *sync.RWMutex)      { m.Lock() }
func pends(m *sync.RWMutex)           { m.Lock() }
func reads(m *sync.RWMutex)           { m.RLock() }
func receivesOfMade(c chan int)       { <-c }
func makes() chan int                 { return make(chan int, 3) }
func isRefused()                      { net.Dial("tcp", "127.0.0.1:1") }
func isCancelled() {
	ctx, cancel := context.WithCancel(context.Background())
	ctx.Done() // that has a channel of its own from then on
	cancel()
	new(net.Dialer).DialContext(ctx, "tcp", "127.0.0.1:1")
}
func waits(g *sync.WaitGroup)         { g.Wait() }
func receivesOfNil()                  { var c chan int; <-c }
func hasNoCases()                     { select {} }
func ticks()                          { <-time.NewTimer(time.Hour).C }
func waitsAfter()                     { <-time.After(time.Hour) }
func calls()                          { time.AfterFunc(time.Hour, hasNoCases); select {} }
func ends(c chan int)                 { <-c }
func closes(c chan int)               { close(c) }
"""
BODY = """
	var mutex, unlocked sync.Mutex
	var shared, read sync.RWMutex
	var group sync.WaitGroup
	condition := sync.NewCond(new(sync.Mutex))
	mutex.Lock()
	shared.Lock()
	unlocked.Lock()
	unlocked.Unlock()
	reads(&read)
	reads(&read)
	made := makes()
	isRefused()
	isCancelled()
	group.Add(1)
	full, done := make(chan int, 2), make(chan int)
	for i := 0; i < 2; i++ {
		sends(full)
	}
	five := [5]chan int{}
	for i := range five {
		five[i] = make(chan int)
	}
	for i := 0; i < 2; i++ {
		go locks(&mutex)
		go awaits(condition)
		go waits(&group)
		go receives(five[0])
	}
	go readLocks(&shared)
	go pends(&read)
	go receivesOfMade(made)
	time.Sleep(50 * time.Millisecond)
	go writeLocks(&shared)
	go sends(full)
	go selects(five[0], five[1], five[2], five[3], five[4])
	go sleeps()
	go receivesOfNil()
	go hasNoCases()
	go ticks()
	go waitsAfter()
	go calls()
	go ends(done)
	time.Sleep(50 * time.Millisecond)
	go closes(done)
	time.Sleep(200 * time.Millisecond)
	a.Write([]byte("x"))
	b.Read(make([]byte, 1))"""
PROGRAM = program(BODY, "context", "sync", "time").replace("\nfunc main", FUNCTIONS + "\nfunc main")

# For each function: what it waits for, the kind of the object, a channel's capacity, and how the function uses the
# channel.
WAITS: dict[str, tuple[str, list[tuple[str, int, str]]]] = {
    "receives": (where.A_VALUE, [("channel", 0, where.FOR_VALUE)]),
    "receivesOfMade": (where.A_VALUE, [("channel", 3, where.FOR_VALUE)]),
    "sends": (where.ROOM, [("channel", 2, where.FOR_ROOM)]),
    "selects": (where.A_SELECT, [("channel", -1, use) for use in ("room", "room", "value", "value", "value")]),
    "awaits": (where.A_CONDITION, [("condition", -1, "")]),
    "sleeps": (where.A_SLEEP, []),
    "locks": (where.A_MUTEX, [("mutex", -1, "")]),
    "readLocks": (where.A_READ_LOCK, [("RWMutex", -1, "")]),
    "writeLocks": (where.A_WRITE_LOCK, [("RWMutex", -1, "")]),
    "pends": (where.A_WRITE_LOCK, [("RWMutex", -1, "")]),
    "waits": (where.A_WAIT_GROUP, [("WaitGroup", -1, "")]),
    "receivesOfNil": (where.A_NIL_CHANNEL, []),
    "hasNoCases": (where.NO_CASES, []),
    "calls": (where.NO_CASES, []),
    "ticks": (where.A_VALUE, [("channel", 1, where.FOR_VALUE)]),
    "waitsAfter": (where.A_VALUE, [("channel", 1, where.FOR_VALUE)]),
}
TWICE = ("locks", "awaits", "waits", "receives")  # with one object each


class Waits(Tool):
    """A folder with the program of this module, and the `lines` beside its recording, at which these methods look."""

    lines: SourceLines

    def function_of(self, stack: int) -> str:
        """The innermost function of the program in a stack."""
        calls = self.lines.stacks[stack].calls if stack in self.lines.stacks else ()
        return next((call.function.removeprefix("main.") for call in calls if call.of == "program"), "")

    def parks(self) -> dict[str, list[Park]]:
        """The waits that last to the end, by function."""
        found: dict[str, list[Park]] = {}
        for parks in self.lines.parks.values():
            for park in parks:
                if park.last == where.STILL:
                    found.setdefault(self.function_of(park.stack), []).append(park)
        return found

    def look_at_waits(self) -> None:
        found = self.parks()
        assert {name: len(parks) for name, parks in found.items()} == {name: 1 + (name in TWICE) for name in WAITS}
        for name, (reason, objects) in WAITS.items():
            for park in found[name]:
                objects_there = [(self.lines.objects[at.object], at.use) for at in park.objects]
                described = sorted(
                    (of.sort, -1 if reason == where.A_SELECT else of.room, use) for of, use in objects_there
                )
                assert (name, park.reason, described) == (name, reason, sorted(objects))
        numbers = {name: {at.object for park in parks for at in park.objects} for name, parks in found.items()}
        assert [len(numbers[name]) for name in TWICE] == [1] * len(TWICE)
        assert numbers["readLocks"] == numbers["writeLocks"]
        assert numbers["receives"] < numbers["selects"]
        assert len(numbers["selects"]) == 5
        (sleep,) = found["sleeps"]
        assert sleep.due - sleep.begin == pytest.approx(HOUR, abs=HOUR / 100)

    def look_at_timers(self) -> None:
        found = self.parks()
        timers = [timer for timers in self.lines.timers.values() for timer in timers]
        by_function: dict[str, list[Timer]] = {}
        for timer in timers:
            by_function.setdefault(self.function_of(timer.stack), []).append(timer)
        for name in ("ticks", "waitsAfter", "calls"):
            (timer,) = by_function[name]
            assert timer.due - timer.time == pytest.approx(HOUR, abs=HOUR / 100)
            (park,) = found[name]
            assert ([at.object for at in park.objects] or [0]) == [timer.object]
            assert timer.goid == park.goid

    def look_at_channels(self) -> None:
        uses: dict[tuple[str, str], list[ObjectUse]] = {}
        for several in self.lines.uses.values():
            for use in several:
                uses.setdefault((self.function_of(use.stack), use.what), []).append(use)
        (put,) = uses["sends", where.PUT]
        assert put.often == 2
        (closed,) = uses["closes", where.CLOSED]
        (ended,) = self.ended_goroutines("ends")
        assert ended.end >= closed.begin
        assert self.ended_goroutines("locks") == []

    def look_at_makings(self) -> None:
        found = self.parks()
        makers = {
            name: self.lines.made[found[name][0].objects[0].object] for name in ("receivesOfMade", "receives", "ticks")
        }
        functions = {name: self.function_of(making.stack) for name, making in makers.items()}
        assert functions == {"receivesOfMade": "makes", "receives": "main", "ticks": "ticks"}
        assert makers["ticks"].goid == found["ticks"][0].goid
        assert makers["receives"].goid == makers["receivesOfMade"].goid
        for making in makers.values():
            assert making.time > 0

    def look_at_holders(self) -> None:
        """The locks at the end: two mutexes that main has locked, and an RWMutex with one of its two readers and a
        writer that waits for the readers."""
        found, held = self.parks(), self.lines.held
        assert held is not None
        (at,) = {park.objects[0].object for park in found["locks"]}
        (shared,) = {park.objects[0].object for park in found["readLocks"]}
        (read,) = {park.objects[0].object for park in found["pends"]}
        functions = {
            number: sorted((holder.how, self.function_of(holder.stack)) for holder in rows)
            for number, rows in held.items()
        }
        readers = [(where.READ, "reads"), (where.READ, "reads")]
        assert functions == {at: [("", "main")], shared: [("", "main")], read: [("", "pends"), *readers]}
        main = {holder.goid for rows in held.values() for holder in rows if self.function_of(holder.stack) != "pends"}
        assert main == {maker.goid for maker in self.lines.made.values() if self.function_of(maker.stack) == "makes"}
        assert found["pends"][0].goid in {holder.goid for holder in held[read]}

    def look_at_dials(self) -> None:
        dials = [dial for several in self.lines.failed_dials.values() for dial in several]
        found = {self.function_of(dial.stack): (dial.why, dial.address) for dial in dials}
        assert found == {"isRefused": ("ECONNREFUSED", "127.0.0.1:1"), "isCancelled": ("cancelled", "")}
        (cancelled,) = (dial for dial in dials if self.function_of(dial.stack) == "isCancelled")
        (closed,) = (use for use in self.lines.uses[cancelled.context] if use.what == where.CLOSED)
        assert self.function_of(closed.stack) == "isCancelled"
        assert closed.end <= cancelled.time

    def ended_goroutines(self, name: str) -> list[GoGoroutine]:
        """The goroutines that waited in a function and have ended."""
        goids = {
            park.goid for parks in self.lines.parks.values() for park in parks if self.function_of(park.stack) == name
        }
        return [goroutine for goid in goids if (goroutine := self.lines.goroutines[goid]).end >= 0]


@pytest.fixture
def tool(folder: Path, cleanups: ExitStack) -> Waits:
    """A folder with the program of this module."""
    tool = Waits(folder, cleanups)
    tool.write(PROGRAM)
    return tool


@pytest.mark.parametrize("release", [release for release in SUITES if is_here(release)] or ["on the PATH"])
def test_each_release_has_all_waits_and_their_objects(tool: Waits, release: str) -> None:
    path = f"{here(release) or ''}:{os.environ['PATH']}"
    status, output = tool.call("run", "main.go", PATH=path, GOTOOLCHAIN="local")
    assert status == 0, output
    steps = len((tool.folder / "recording.jsonl").read_text().splitlines()) - 1
    tool.lines = SourceLines.beside(str(tool.folder / "recording.jsonl"), steps)
    tool.look_at_waits()
    tool.look_at_timers()
    tool.look_at_channels()
    tool.look_at_makings()
    tool.look_at_holders()
    tool.look_at_dials()
