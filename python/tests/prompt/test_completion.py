"""Completions at the prompt, and other debuggers' names for nrdb's commands."""


from netrev.session.commands import is_answered_here, whole_words
from netrev.text.vocabulary import KINDS, ObjectKind
from nrdb.prompt.completion import candidates


def numbers(of: ObjectKind) -> list[str]:
    """The numbers in use, different for each kind."""
    return [{ObjectKind.GOROUTINE: "87", ObjectKind.SOCKET: "4", ObjectKind.DESCRIPTOR: "11"}[of]]


def test_subjects_of_steps_and_calls() -> None:
    assert candidates(["steps"], numbers) == ["gor", "sock", "desc", *KINDS]
    assert candidates(["calls"], numbers) == ["gor", "sock", "desc"]
    for subject, number in (("gor", "87"), ("sock", "4"), ("desc", "11")):
        assert candidates(["steps", subject], numbers) == [number]
        assert candidates(["calls", subject], numbers) == [number]
    for name in ("next", "n", "fin", "reverse-next", "reverse-finish"):
        assert candidates([name], numbers) == ["87"]
    assert "errors" in candidates(["info"], numbers)


def test_a_second_condition() -> None:
    assert candidates(["until", "rd", "11"], numbers) == []
    assert candidates(["until", "rd", "11", "-1"], numbers) == ["and"]
    assert "gor" in candidates(["until", "rd", "11", "-1", "and"], numbers)
    assert candidates(["until", "rd", "11", "-1", "and", "gor"], numbers) == ["87"]
    assert "parked" in candidates(["until", "rd", "11", "-1", "and", "gor", "87"], numbers)


def test_settings_and_files_of_marks() -> None:
    assert candidates(["set", "pagination"], numbers) == ["on", "off"]
    assert candidates(["pagination"], numbers) == ["on", "off"]
    assert candidates(["set", "exec-direction"], numbers) == ["reverse", "forward"]
    assert candidates(["save"], numbers) == ["breakpoints"]


def test_words_of_gdb() -> None:
    words = {"n": "next", "fin": "finish", "rn": "reverse-next", "ni": "stepi", "s": "stepi", "step": "stepi"}
    for short, command in {**words, "reverse-nexti": "reverse-stepi", "comm": "commands"}.items():
        assert whole_words([short]) == [command]
    assert is_answered_here(["next"])
    assert is_answered_here(["info", "errors"])
    assert not is_answered_here(["stepi"])
