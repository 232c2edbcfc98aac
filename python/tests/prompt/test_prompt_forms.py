"""Command forms that other debuggers have: `apropos`, `delete` without an argument, `list` and `break` with a function,
and completion of places with Tab. A model takes netrev's part."""

import io

import pytest

from netrev.recording.where import SourceCall
from netrev.session.line_hints import hint
from netrev.session.line_index import is_function
from netrev.text.vocabulary import KINDS, ObjectKind
from nrdb.prompt.answers import all_help, help_of
from nrdb.prompt.completion import candidates, completions
from tests.failed_calls.test_causes import in_the_folder_of_the_source
from tests.trials.go_caused import SOURCE

from .test_program_places import session_of

UNKNOWN = "fault 201 unknown command"


class Prompt:
    """A session at the start of a recording, and its output."""

    def __init__(self) -> None:
        self.printed = io.StringIO()
        self.session = session_of(self.printed)

    def __call__(self, line: str) -> str:
        self.printed.seek(0)
        self.printed.truncate()
        self.session.run(line)
        return self.printed.getvalue()


@pytest.fixture
def prompt() -> Prompt:
    return Prompt()


def test_apropos_lists_what_has_the_word_in_its_description(prompt: Prompt) -> None:
    output = prompt("apropos DEADLINE").splitlines()
    assert any(line.startswith("| step setdeadline") for line in output)
    assert any(line.startswith("| cell rd:") for line in output)
    assert any(line.startswith("| info timers:") for line in output)
    assert all("deadline" in line.lower() for line in output)
    assert prompt("apropos no such word") == "| no description contains no such word; help lists all commands\n"
    assert prompt("apropos").startswith("| apropos WORD: ")


def test_delete_alone_deletes_all_marks_and_says_which(prompt: Prompt) -> None:
    for line in ("break rwlock", "watch rd 2", "break main.echo"):
        prompt(line)
    assert prompt("delete") == "| deleted: 1 (break rwlock), 2 (watch rd 2), p1 (break main.echo)\n"
    assert "p1" not in prompt("info breakpoints") and not prompt.session.netrev.marks()
    assert prompt("d") == "| there are no marks\n"


def test_list_shows_the_source_of_a_function(prompt: Prompt) -> None:
    prompt.session.text().lines.written = float("inf")  # (a clone's files are newer than the recording)
    lines = SOURCE.read_text(encoding="utf-8").splitlines()
    begin = next(number for number, line in enumerate(lines, 1) if line.startswith("func echo("))
    with in_the_folder_of_the_source(SOURCE):
        for name in ("main.echo", "echo"):
            assert lines[begin - 1] in prompt(f"list {name}"), name


@pytest.mark.parametrize(
    ("function", "name", "is_meant"),
    [
        ("main.(*hub).broadcast", "hub.broadcast", True),
        ("main.(*hub).broadcast", "main.hub.broadcast", True),
        ("main.(*hub).broadcast", "(*hub).broadcast", True),
        ("example.org/a/b.(*hub).broadcast", "b.hub.broadcast", True),
        ("main.hub.broadcast", "(*hub).broadcast", False),
        ("main.(*ahub).broadcast", "hub.broadcast", False),
        ("main.(*hub).broadcast", "hub", False),
    ],
)
def test_a_method_is_spelled_with_or_without_its_pointer(function: str, name: str, is_meant: bool) -> None:
    assert is_function(SourceCall(function, "main.go", 7, "program"), name) == is_meant


def test_tab_completes_functions_and_lines(prompt: Prompt) -> None:
    for name in ("break", "tbreak", "goto", "list", "until", "reverse-until", "history"):
        assert completions(f"{name} main.ec", prompt.session) == ["main.echo"], name
        assert "main.go:46" in completions(f"goto 3; {name} main.go:4", prompt.session), name
    assert set(KINDS) < set(completions("break ", prompt.session))
    assert "gor" in completions("until ", prompt.session)
    assert candidates(["break"], lambda _: []) == list(KINDS)
    assert candidates(["print"], lambda _: [], lambda: ["main.echo"])[0] != "main.echo"


def test_each_place_that_tab_offers_is_one(prompt: Prompt) -> None:
    places = [word for word in candidates(["goto"], lambda _: [], lambda: completions("goto ", prompt.session))]
    assert len(places) > 3
    for place in places:
        assert "no step" not in prompt(f"break {place}"), place


def test_a_topic_without_info_is_offered_with_it() -> None:
    assert hint(["goroutines"], UNKNOWN).startswith("did you mean info goroutines? ")
    assert hint(["threads"], UNKNOWN).startswith("did you mean info goroutines? ")
    assert hint(["suspects"], UNKNOWN).startswith("did you mean info suspects? ")


def test_help_has_nrdbs_own_forms() -> None:
    for usage in ("break FILE:LINE | FUNCTION", "delete [pN]"):
        assert any(line.strip().startswith(usage) for line in all_help())
        assert any(line.startswith(f"{usage}: ") for line in help_of([usage.split()[0]]))


def test_numbers_are_asked_for_only_if_they_are_completed() -> None:
    def numbers(_: ObjectKind) -> list[str]:
        raise AssertionError

    assert candidates(["goto"], numbers) == []
