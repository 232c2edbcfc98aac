"""The prompt's output if a line is too long for the terminal, or an answer for the screen; saved settings; and help and
hints for other debuggers' words."""

import io
import os
import pty
from collections.abc import Iterator
from pathlib import Path

import pytest

from netrev.connection.output import TextPrinter
from netrev.messages.lines import FOREIGN
from netrev.session.commands import COMMANDS, whole_words
from netrev.session.line_hints import hint
from netrev.text.vocabulary import CELLS, KINDS
from netrev.text.wrapping import width_of, wrapped
from nrdb.prompt.answers import help_of
from nrdb.prompt.pager import MORE, Paged
from nrdb.web.shared_session import OF_THE_PAGE, WITH_FILES

from .test_program_places import READS, Prompt, session_of

UNKNOWN, BAD = "fault 201 unknown command", "fault 202 bad argument"


def test_lines_are_broken_between_words() -> None:
    text = "  1. deadline left behind: the write deadline of descriptor 2 that passed at step 186"
    lines = wrapped(text, 40)
    assert len(lines) > 2
    assert all(len(line) <= 40 for line in lines)
    assert " ".join(line.strip() for line in lines) == text.strip()
    assert lines[0].startswith("  1.") and all(line.startswith(" " * 6) for line in lines[1:])


def test_what_has_room_or_no_blank_stays_whole() -> None:
    for text, width in (
        ("short", 40),
        ("a  b" * 30, 0),
        ("x" * 90, 40),
        ("", 40),
        (" " * 90, 40),
        ("a b " * 20, 10),
    ):
        assert wrapped(text, width) == [text]


def test_only_a_terminal_has_a_width(monkeypatch: pytest.MonkeyPatch) -> None:
    monkeypatch.setenv("COLUMNS", "33")
    assert width_of(io.StringIO()) == 0
    ours, theirs = pty.openpty()
    with open(ours, "rb"), open(theirs, "w") as out:
        assert width_of(out) == 33
        del os.environ["COLUMNS"]
        assert width_of(out) == os.get_terminal_size(theirs).columns


def test_netrevs_own_lines_are_left_alone(monkeypatch: pytest.MonkeyPatch) -> None:
    out = io.StringIO()
    with monkeypatch.context() as patch:
        patch.setattr("netrev.connection.output.width_of", lambda _: 40)
        printer = TextPrinter(out)
        printer.write("x y " * 20)
        printer.add("x y " * 20)
    first, *added = out.getvalue().splitlines()
    assert first == "x y " * 20
    assert len(added) > 1 and all(line.startswith("| ") and len(line) <= 40 for line in added)


class Screen(io.StringIO):
    """A terminal of 10 lines and 40 columns."""

    def fileno(self) -> int:
        return 7


class Paging:
    """A terminal at which answers are shown in parts."""

    def __init__(self, monkeypatch: pytest.MonkeyPatch) -> None:
        self.screen, self.is_on = Screen(), True
        monkeypatch.setattr("os.get_terminal_size", lambda _: os.terminal_size((40, 10)))

    def shown(self, text: str, *words: str) -> str:
        """The screen after an answer, with these keys typed at its pauses."""
        answers: Iterator[str] = iter(words)
        pager = Paged(self.screen, lambda: next(answers), lambda: self.is_on)
        pager.begins()
        for line in text.splitlines(keepends=True):
            pager.write(line)
        assert list(answers) == [], "a word was left"
        return self.screen.getvalue()


@pytest.fixture
def paging(monkeypatch: pytest.MonkeyPatch) -> Paging:
    return Paging(monkeypatch)


def test_a_longer_answer_waits(paging: Paging) -> None:
    text = "".join(f"line {number}\n" for number in range(25))
    output = paging.shown(text, "\n", "\n")
    assert output.replace(MORE, "") == text
    assert [part.count("\n") for part in output.split(MORE)] == [9, 9, 7]


def test_the_rest_may_be_left_out_or_come_at_once(paging: Paging) -> None:
    text = "line\n" * 25
    assert paging.shown(text, "q\n").count("line") == 9
    paging.screen.truncate(0)
    assert paging.shown(text, "c\n").count("line") == 25


def test_the_next_answer_is_shown(paging: Paging) -> None:
    pager = Paged(paging.screen, lambda: "q", lambda: True)
    pager.begins()
    pager.write("line\n" * 20)
    pager.begins()
    pager.write("next\n")
    assert paging.screen.getvalue().endswith("next\n")


def test_a_long_line_takes_several(paging: Paging) -> None:
    output = paging.shown(("x" * 100 + "\n") * 5, "")
    assert output.split(MORE)[0].count("\n") == 3


def test_ctrl_c_leaves_the_rest_out(paging: Paging) -> None:
    def pressed() -> str:
        raise KeyboardInterrupt

    pager = Paged(paging.screen, pressed, lambda: True)
    pager.write("line\n" * 25)
    assert paging.screen.getvalue().count("line") == 9


def test_it_is_off_where_that_is_said_or_the_screen_is_not_known(
    monkeypatch: pytest.MonkeyPatch, paging: Paging
) -> None:
    paging.is_on = False
    assert paging.shown("line\n" * 25).count("line") == 25
    monkeypatch.setattr("os.get_terminal_size", lambda _: os.terminal_size((0, 0)))
    paging.is_on = True
    assert paging.shown("line\n" * 25).count("line") == 50
    assert whole_words(["set", "pag", "off"]) == ["pagination", "off"]
    assert whole_words(["set", "exec", "rev"]) == ["set", "exec-direction", "reverse"]


@pytest.fixture
def marks(folder: Path) -> Path:
    return folder / "marks.txt"


@pytest.fixture
def prompt() -> Prompt:
    return Prompt()


def test_what_is_saved_is_set_again(prompt: Prompt, marks: Path) -> None:
    for line in (
        "break rwlock",
        "watch gor 1",
        "commands",
        "print clock",
        "end",
        "tbreak @9",
        f"break {READS}",
        f"tbreak {READS}",
    ):
        prompt.reply(line)
    wanted = prompt.reply("info breakpoints")
    assert f"{marks}: 5 marks; source {marks} sets them" in prompt.reply(f"save breakpoints {marks}")
    assert marks.read_text().splitlines() == [
        "break rwlock",
        "watch gor 1",
        "commands",
        "  print clock",
        "end",
        "tbreak @9",
        f"break {READS}",
        f"tbreak {READS}",
    ]
    prompt.session = session_of(prompt.output)
    prompt.reply(f"source {marks}")
    assert prompt.reply("info breakpoints") == wanted
    assert "mark 2 runs: print clock" in wanted.replace("  print", "print")


def test_it_says_how_it_is_called_and_what_cannot_be_written(prompt: Prompt, marks: Path) -> None:
    for line in ("save", "save breakpoints", "save marks x", f"save {marks} breakpoints"):
        assert "save breakpoints FILE: " in prompt.reply(line), line
    assert "No such file" in prompt.reply(f"save breakpoints {marks}/none")
    assert "is the recording itself" in prompt.reply(f"save breakpoints {prompt.session.path}")
    assert not marks.exists()


def test_the_page_saves_nothing(prompt: Prompt, marks: Path) -> None:
    assert "save" in WITH_FILES
    prompt.session.answers = OF_THE_PAGE
    prompt.reply(f"save breakpoints {marks}")
    assert not marks.exists()


def test_a_word_turns_the_pager_off(prompt: Prompt) -> None:
    for line, is_on in (("pagination off", False), ("set pagination on", True), ("set pag off", False)):
        prompt.reply(line)
        assert prompt.session.printer.is_paged == is_on, line
    assert "pagination on|off: " in prompt.reply("pagination")


def test_help_has_all_that_a_word_means() -> None:
    result = list(help_of(["info"]))
    assert "info goroutines [all|G]: what each goroutine does, without those that are idle or have ended" in result
    assert result[-1].startswith("cell info: ")
    for word in (*KINDS, *CELLS, *COMMANDS):
        assert list(help_of([word])), word
    assert list(help_of(["nonsense"])) == []
    assert next(help_of(["rwlock"])).startswith("step rwlock")


def test_words_of_other_debuggers_are_no_commands_and_have_advice() -> None:
    for word, advice in FOREIGN.items():
        assert word not in COMMANDS, word
        assert hint([word], UNKNOWN) == advice
    for word in ("find", "locals", "rewind"):
        assert "did you mean" not in hint([word], UNKNOWN)


def test_words_of_other_debuggers_for_goroutines_and_stacks_are_taken() -> None:
    for line, wanted in (
        ("thread 3", "goroutine 3"), ("gr goid 41", "goroutine goid 41"), ("goroutines", "info goroutines"), ("threads all", "info goroutines all"),
        ("stack", "where"), ("bt", "where"), ("g 12", "goto 12"), ("go 12", "goto 12"), ("goro 2", "goroutine 2"),
    ):  # fmt: skip
        assert " ".join(whole_words(line.split())) == wanted


def test_each_advice_names_what_there_is() -> None:
    for word, advice in FOREIGN.items():
        named = {item.strip(":;,") for item in advice.split()} & set(COMMANDS)
        assert named or "nrdb" in advice or "netrev-go" in advice, (word, advice)


def test_a_condition_of_a_watch_is_advised_rightly() -> None:
    for line, wanted in (
        ("watch rd 2 if gor 2 parked*", "until rd 2 * and gor 2 parked* goes"),
        ("watch rd 2 if gor 2 == parked", "until rd 2 * and gor 2 parked* goes"),
        ("watch lock 0 if lock 0 == 8", "until lock 0 8* goes"),
        ("watch lock 0 if closed", "until lock 0 closed* goes"),
        ("watch rg 0 nil*", "until rg 0 nil* goes"),
    ):
        assert wanted in hint(line.split(), BAD), line
