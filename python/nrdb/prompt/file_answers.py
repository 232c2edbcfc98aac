"""Commands of nrdb that write files or explore other schedules. Few sessions need these commands, so their modules are
imported on first use."""

from netrev.session.session import Session, UsageError
from netrev.text.vocabulary import number_of

from .call_answers import usage


def answer_timeline(session: Session, words: list[str]) -> None:
    numbers = [number_of(word) for word in words[1:]]
    if len(words) not in (1, 3) or None in numbers:
        raise UsageError(usage("timeline"))
    from netrev.timeline import write_timeline

    session.printer.note(write_timeline(session, words[0], *numbers))


def answer_trace(session: Session, words: list[str]) -> None:
    if len(words) != 1:
        raise UsageError(usage("trace"))
    from netrev.timeline import write_trace

    session.printer.note(write_trace(session, words[0]))


def answer_reduce(session: Session, words: list[str]) -> None:
    from netrev.reduce import answer_reduce as answer

    answer(session, words)


def answer_report(session: Session, words: list[str]) -> None:
    from netrev.reduce import answer_report as answer

    answer(session, words)


def answer_explore(session: Session, words: list[str]) -> None:
    from netrev.explore import answer_explore as answer

    answer(session, words)
