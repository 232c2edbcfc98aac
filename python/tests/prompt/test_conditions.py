"""`condition` makes a mark stop only if a cell has a certain value. The tests move in both directions, with netrev's
marks and with breaks at places of the program, and use a model of netrev."""

from pathlib import Path

import pytest

from netrev.session.mark_conditions import Condition
from nrdb.web.shared_session import OF_THE_PAGE

from .test_prompt_forms import Prompt

STATUS = "gor 2"


@pytest.fixture
def prompt() -> Prompt:
    return Prompt()


def positions_at(prompt: Prompt, kind: str) -> list[int]:
    """The positions from which a step of this kind is made."""
    text = prompt.session.text()
    return [step.number - 1 for step in text.steps_of((kind,), text.length)]


def value_at(prompt: Prompt, position: int) -> str:
    return prompt.session.changes().value(STATUS, position)


def stops(prompt: Prompt, line: str) -> list[int]:
    """The positions at which the session stops when it repeats this move until it reaches an end of the recording."""
    found = []
    while not prompt(line).splitlines()[0].endswith((" end", " start")):
        found.append(prompt.session.known_position)
        assert len(found) < 500
    return found


def test_a_mark_stops_only_if_its_condition_holds_both_ways(prompt: Prompt) -> None:
    every = positions_at(prompt, "rwlock")
    wanted = [at for at in every if value_at(prompt, at) == "idle"]
    assert wanted and len(wanted) < len(every)
    assert prompt("break rwlock").startswith("mark 1")
    assert prompt(f"condition 1 {STATUS} idle") == f"| mark 1 stops if {STATUS} is idle\n"
    assert stops(prompt, "continue") == wanted
    assert stops(prompt, "reverse-continue") == wanted[::-1]
    assert prompt("condition 1") == "| mark 1 always stops\n"
    assert stops(prompt, "continue") == every


def test_another_mark_at_the_same_position_stops(prompt: Prompt) -> None:
    for line in ("break rwlock", f"condition 1 {STATUS} nothing", "break rwlock"):
        prompt(line)
    every = positions_at(prompt, "rwlock")
    assert stops(prompt, "continue") == every


def test_a_break_at_a_place_has_a_condition_too(prompt: Prompt) -> None:
    prompt("break main.echo")
    every = stops(prompt, "continue")
    values = [value_at(prompt, at) for at in every]
    value = min(set(values), key=values.count)
    prompt("goto 0")
    assert prompt(f"condition p1 {STATUS} = {value}") == f"| mark p1 stops if {STATUS} is {value}\n"
    assert stops(prompt, "continue") == [at for at, there in zip(every, values) if there == value]


def test_lines_of_a_mark_run_only_where_its_condition_holds(prompt: Prompt) -> None:
    for line in ("break rwlock", "commands 1", "print clock", "end", f"condition 1 {STATUS} nothing"):
        prompt(line)
    assert "print clock" not in prompt("continue")


def test_conditions_are_listed_and_saved(prompt: Prompt, tmp_path: Path) -> None:
    lines = "break rwlock", f"condition 1 {STATUS} parked*", "break main.echo", f"condition p1 {STATUS} idle"
    for line in lines:
        prompt(line)
    listed = prompt("info breakpoints")
    assert f"| mark 1 stops if {STATUS} is parked*\n" in listed and f"| mark p1 stops if {STATUS} is idle\n" in listed
    prompt(f"save breakpoints {tmp_path / 'marks'}")
    other = Prompt()
    other("watch clock")  # so the numbers differ there
    other(f"source {tmp_path / 'marks'}")
    assert other.session.conditions == {"2": Condition(STATUS, "parked*"), "p1": Condition(STATUS, "idle")}
    prompt("delete")
    assert prompt.session.conditions == {}


def test_what_is_no_condition_is_explained(prompt: Prompt) -> None:
    assert "the marks are none" in prompt("condition 1 gor 2 idle")
    for line in ("break rwlock", "tbreak sysread"):
        prompt(line)
    for line in (
        "condition",
        "condition 7 gor 2 idle",
        "condition 1 nonsense",
        "condition 1 gor 2",
        "condition p9 gor 2 idle",
    ):
        assert prompt(line).startswith("| condition N [CELL VALUE]: "), line
    assert "is a tbreak" in prompt("condition 2 gor 2 idle")
    assert prompt.session.conditions == {}


def test_the_page_refuses_conditions() -> None:
    prompt = Prompt()
    prompt.session.answers = OF_THE_PAGE
    prompt("break rwlock")
    assert "at nrdb's prompt" in prompt("condition 1 gor 2 idle")
