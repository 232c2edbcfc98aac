"""What goroutines need, according to the program's source: a file of a few lines."""

from pathlib import Path

import pytest

from netrev.findings.pools.senders import later_giver
from netrev.findings.source.functions import is_same_variable, range_of
from netrev.findings.source.locks import held_at
from netrev.recording.goroutines import FOR_VALUE, At
from netrev.recording.waits import Name, ObjectWait
from netrev.recording.where import SourceCall as LineCall
from netrev.recording.where import Stack
from tests.failed_calls.test_causes import TWO_ENDS, with_lines

from .test_needs import line

SOURCE = """\
package main

func (b *bank) move(from, to *account) error {
	from.mu.Lock()
	defer from.mu.Unlock()
	b.log.Lock()
	if b.closed {
		b.log.Unlock()
		return errClosed
	}
	b.note(from, to)
	b.log.Unlock()
	go func() {
		to.mu.Lock()
		to.mu.Unlock()
	}()
	to.mu.Lock()
	return nil
}

func run(jobs chan int, done chan bool) {
	go func() {
		for job := range jobs {
			work(job)
		}
		close(done)
	}()
	jobs <- 1
	wait()
	jobs <- 2
	<-done
}
"""
NOTE, SECOND, LITERAL, LOOP, LAST_PUT, DONE = 11, 17, 14, 23, 30, 31


class Bank:
    """A recording of a program whose source is bank.go."""

    def __init__(self, folder: Path) -> None:
        (folder / "bank.go").write_text(SOURCE, encoding="utf-8")
        self.file = str(folder / "bank.go")
        self.recording = with_lines(TWO_ENDS)
        self.recording.lines.written = float("inf")

    def at(self, number: int, function: str) -> LineCall:
        return line(number, function, self.file)

    def waiting(self, number: int, function: str) -> ObjectWait:
        stack = Stack((self.at(number, function),), None)
        return ObjectWait(Name(7), 1, None, "a value from a channel", stack, objects=(At(1, FOR_VALUE),))

    def held(self, number: int, function: str) -> list[tuple[str, int]]:
        return [(held.name, held.line) for held in held_at(self.recording, self.at(number, function))]


@pytest.fixture
def bank(folder: Path) -> Bank:
    return Bank(folder)


def test_the_mutexes_that_a_function_holds_at_a_line(bank: Bank) -> None:
    """A mutex that is unlocked only on a path that returns counts as held; a mutex that another function literal
    locks doesn't."""
    assert bank.held(NOTE, "(*bank).move") == [("from.mu", 4), ("b.log", 6)]
    assert bank.held(SECOND, "(*bank).move") == [("from.mu", 4)]
    assert bank.held(LITERAL + 1, "(*bank).move.func1") == [("to.mu", 14)]


def test_the_lines_of_a_function_and_of_a_literal(bank: Bank) -> None:
    lines = tuple(SOURCE.split("\n"))
    assert range_of(lines, bank.at(NOTE, "(*bank).move")) == range(3, 20)
    assert range_of(lines, bank.at(LITERAL, "(*bank).move.func1")) == range(13, 17)
    assert range_of(lines, bank.at(2, "(*bank).move")) is None


def test_variables_that_may_be_the_same() -> None:
    for item, other, is_near, is_same in (
        ("a.mu", "b.mu", False, True), ("a.mu", "b.lock", True, False), ("done", "done", True, True), ("done", "done", False, False),
    ):  # fmt: skip
        assert is_same_variable(item, other, is_near) == is_same, (item, other)


def test_a_goroutine_that_puts_a_value_later(bank: Bank) -> None:
    wait, before = bank.waiting(LOOP, "run.func1"), Stack((bank.at(LAST_PUT - 1, "run"),), None)
    need = later_giver(bank.recording, wait, [(Name(2), before)])
    how = f"perhaps {{by}} puts a value there later, at {bank.file}:{LAST_PUT}"
    assert need is not None and (need.by, need.how) == (Name(2), how)
    behind = Stack((bank.at(DONE, "run"),), None)
    assert later_giver(bank.recording, wait, [(Name(2), behind)]) is None
