"""nrdb's own commands, one function each. Each function gets the session and the words after the command, and raises
UsageError if the words are wrong. Modules that few sessions need are imported on first use, so that the prompt appears
sooner."""

import re
from collections.abc import Iterator
from fnmatch import fnmatchcase

from netrev.connection.output import Row, Table
from netrev.messages import session as messages
from netrev.recording.answers import spelled
from netrev.run.timers import timer_words
from netrev.session.commands import ALL_TOPICS, COMMANDS, FORMS, OF_NETREV, OF_NRDB, TOPICS, Origin, whole_command
from netrev.session.session import Answering, Session, UsageError
from netrev.text.vocabulary import CELLS, KINDS, REASONS, ObjectKind, cell_of, number_of
from netrev.views.change_tables import history_table
from netrev.views.goroutines import goroutines_table
from netrev.views.places import descriptors_table, holders_table, sockets_table, timers_table

from .call_answers import OF_CALLS, answer_errors, arrive, taken_most, usage
from .file_answers import answer_explore, answer_reduce, answer_report, answer_timeline, answer_trace
from .goroutine_answers import OF_GOROUTINES
from .program_answers import OF_FRAMES, OF_PLACES, of_place
from .saved_breakpoints import answer_save

ROUND = 5
TIME = re.compile(r"(\d+(?:\.\d+)?)(ns|us|ms|s)")
UNITS = {"ns": 1, "us": 1_000, "ms": 1_000_000, "s": 1_000_000_000}


def taken_number(name: str, words: list[str]) -> int:
    """The number that is a command's only argument."""
    number = number_of(words[0]) if len(words) == 1 else None
    if number is None:
        raise UsageError(messages.NUMBER.format(usage=usage(name)))
    return number


def taken_cell(name: str, words: list[str]) -> tuple[str, list[str]]:
    """The cell with which these words begin, and the words after it."""
    for length in (2, 1):
        if len(words) >= length and (cell := cell_of(words[:length])):
            return cell, words[length:]
    if not words:
        raise UsageError(messages.USAGE_AND_CELLS.format(usage=usage(name), cells=" ".join(CELLS)))
    if words[0] in CELLS:
        raise UsageError(messages.NUMBER_OF.format(cell=words[0], of=CELLS[words[0]].of.value, name=name))
    raise UsageError(messages.NOT_A_CELL.format(word=words[0], cells=" ".join(CELLS)))


def answer_help(session: Session, words: list[str]) -> None:
    if not words:
        return session.printer.note("\n".join(all_help()))
    lines = list(help_of(words))
    if not lines:
        raise UsageError(messages.NO_HELP.format(words=" ".join(words)))
    session.printer.note("\n".join(lines))


def help_of(words: list[str]) -> Iterator[str]:
    """The meaning of a word as a command, as a kind of step, as a cell, or as the number of a reason; empty if the word
    has no meaning."""
    word, name = " ".join(words), whole_command(words[0])
    reason = number_of(word)
    is_other = word in KINDS or word in CELLS
    if name in COMMANDS and (not is_other or word == name):
        short = f" (short: {', '.join(COMMANDS[name].short)})" if COMMANDS[name].short else ""
        yield usage(name) + short
    if name in FORMS and not is_other:
        yield f"{FORMS[name].usage}: {FORMS[name].says}"
    if name == "info" and not (is_other and word != name):
        yield from (f"info {topic.usage}: {topic.says}" for topic in TOPICS.values())
    if word in KINDS:
        yield f"step {KINDS[word].usage}: {KINDS[word].says}; it answers {spelled(word)}"
    if word in CELLS:
        of = "" if CELLS[word].of is ObjectKind.ALL else f" of a {CELLS[word].of.value}"
        yield f"cell {word}: {CELLS[word].says}{of}"
    if reason is not None and reason < len(REASONS):
        yield f"reason {reason}: {REASONS[reason]}"


def all_help() -> list[str]:
    """The lines of `help`."""
    lines = []
    for origin, commands, title in (
        (Origin.NETREV, OF_NETREV, "netrev answers:"),
        (Origin.NRDB, OF_NRDB, "nrdb answers, unproved:"),
    ):
        lines.append(title)
        lines += [f"  {command.usage:<34} {command.says}" for command in commands.values()]
        if origin is Origin.NRDB:
            lines += [f"  {form.usage:<34} {form.says}" for form in FORMS.values()]
        topics = [topic for topic in TOPICS.values() if topic.origin is origin]
        lines += [f"  info {topic.usage:<29} {topic.says}" for topic in topics]
    return [*lines, f"kinds: {' '.join(KINDS)}", f"cells: {' '.join(CELLS)}"]


def answer_apropos(session: Session, words: list[str]) -> None:
    if not words:
        raise UsageError(usage("apropos"))
    wanted = " ".join(words).lower()
    lines = [line for line in described() if wanted in line.lower()]
    session.printer.note("\n".join(lines) or messages.NOT_DESCRIBED.format(words=wanted))


def described() -> Iterator[str]:
    """Each command, topic, kind of step and cell with its description."""
    for command in (*COMMANDS.values(), *FORMS.values()):
        yield f"{command.usage}: {command.says}"
    yield from (f"info {topic.usage}: {topic.says}" for topic in TOPICS.values())
    yield from (f"step {kind.usage}: {kind.says}" for kind in KINDS.values())
    yield from (f"cell {cell.name}: {cell.says}" for cell in CELLS.values())


def answer_list(session: Session, words: list[str]) -> None:
    position = session.current_position().position
    middle = taken_number("list", words) if words else position + 1
    text = session.text()
    rows = []
    for number in range(max(1, middle - ROUND), min(text.length, middle + ROUND) + 1):
        step = text.step(number)
        here = "=>" if number == position + 1 else "  "
        at = text.lines.words(number) or timer_words(text, step)
        values = {"step": number, "line": step.line, "does": str(step), "next": number == position + 1}
        line = f"{here} {number:>7}  {str(step):<34} line {step.line}"
        rows.append(
            Row(
                values | ({"at": text.lines.words(number)} if text.lines else {}),
                f"{line:<56} {at}".rstrip() if at else line,
            )
        )
    session.printer.table(
        Table("list", rows, "=> (end)" if position == text.length and middle + ROUND > position else "")
    )


def answer_goto(session: Session, words: list[str]) -> None:
    number = taken_position(session, words)
    if number > session.length:
        raise UsageError(messages.HAS_STEPS.format(steps=session.length))
    arrive(session, f"goto {number}", session.go(number))


def taken_position(session: Session, words: list[str]) -> int:
    """The position that `goto` names: a number, the start, the end, or the last position at which the clock isn't past
    a given time."""
    word = words[0] if len(words) == 1 else ""
    if word in ("start", "end"):
        return session.length if word == "end" else 0
    found = TIME.fullmatch(word)
    if found is None:
        return taken_number("goto", words)
    until = float(found[1]) * UNITS[found[2]]
    ticks = session.text().steps_of(("tick",), session.length)
    return next((step.number - 1 for step in ticks if step.argument("time") > until), session.length)


def taken_conditions(name: str, words: list[str]) -> dict[str, str]:
    """The cells that the words name, each with its required value."""
    cell, rest = taken_cell(name, words)
    ends = (
        at for at, word in enumerate(rest) if word in ("&&", "and") and rest[at + 1 : at + 2] and rest[at + 1] in CELLS
    )
    end = next(ends, len(rest))
    value = " ".join(word for word in rest[:end] if word not in ("=", "=="))
    if not value:
        raise UsageError(messages.WHICH_VALUE.format(usage=usage(name), cell=cell))
    return {cell: value} | (taken_conditions(name, rest[end + 1 :]) if end < len(rest) else {})


def answer_until(session: Session, words: list[str], name: str = "until") -> None:
    if len(words) == 1 and number_of(words[0]) is not None:
        raise UsageError(messages.GOTO_INSTEAD.format(usage=usage(name), number=words[0]))
    wanted = taken_conditions(name, words)
    is_back = name == "reverse-until"

    def are_wanted(shown: list[str]) -> bool:
        session.interrupts.check()
        return all(
            fnmatchcase(now, value) or fnmatchcase(session.words_of(cell, now), value)
            for now, (cell, value) in zip(shown, wanted.items())
        )

    found = session.changes().nearest(list(wanted), are_wanted, session.current_position().position, is_back)
    if found is None:
        values = " and ".join(messages.VALUE_OF_CELL.format(cell=cell, value=value) for cell, value in wanted.items())
        session.printer.note(messages.NO_STEP_GIVES.format(way="earlier" if is_back else "later", values=values))
        return
    arrive(session, f"{name} {' and '.join(' '.join(pair) for pair in wanted.items())}", session.go(found))
    for cell in wanted:
        session.show(f"print {cell}", session.netrev.ask(f"print {cell}"))


def answer_reverse_until(session: Session, words: list[str]) -> None:
    answer_until(session, words, "reverse-until")


def answer_display(session: Session, words: list[str]) -> None:
    if words:
        cell, rest = taken_cell("display", words)
        if rest:
            raise UsageError(messages.ONLY_A_CELL.format(cell=cell))
        if cell not in session.displays:
            session.displays.append(cell)
    session.show_displays()


def answer_undisplay(session: Session, words: list[str]) -> None:
    if not words:
        session.displays.clear()
        return
    cell, _ = taken_cell("undisplay", words)
    if cell not in session.displays:
        raise UsageError(messages.NOT_DISPLAYED.format(cell=cell))
    session.displays.remove(cell)


def answer_history(session: Session, words: list[str]) -> None:
    cell, rest = taken_cell("history", words)
    most = taken_most("history", rest)
    table = history_table(session.changes(), session.text(), cell, session.current_position().position, most)
    session.printer.table(table)


def answer_source(session: Session, words: list[str]) -> bool:
    if len(words) != 1:
        raise UsageError(usage("source"))
    try:
        return session.source(words[0])
    except OSError as error:
        raise UsageError(f"{words[0]}: {error.strerror}") from None


def answer_pagination(session: Session, words: list[str]) -> None:
    if words not in (["on"], ["off"]):
        raise UsageError(usage("pagination"))
    session.printer.is_paged = words == ["on"]


def answer_info(session: Session, words: list[str]) -> None:
    if not words:
        raise UsageError(messages.WHICH_TOPIC.format(topics=ALL_TOPICS))
    topic, rest = words[0], words[1:]
    if topic == "timers" and not rest:
        return session.printer.table(timers_table(session.world()))
    if topic == "suspects" and not rest:
        from netrev.findings.suspects.table import suspects_table

        return session.printer.table(suspects_table(session.looks(), session.text()))
    if topic == "hangs" and not rest:
        from netrev.findings.causes import hangs_table

        return session.printer.table(hangs_table(session.text(), session.current_position().position))
    if topic == "requests" and not rest:
        from netrev.findings.causes import requests_table

        return session.printer.table(requests_table(session.text()))
    if topic == "errors":
        return answer_errors(session, rest)
    number = number_of(rest[0]) if len(rest) == 1 else None
    if topic == "holders" and number is not None:
        return session.printer.table(holders_table(session.world(), number))
    is_all = rest == ["all"]
    if topic not in TABLES or (rest and not is_all and number is None):
        raise UsageError(messages.TOPIC.format(usage=TOPICS[topic].usage, says=TOPICS[topic].says))
    session.printer.table(TABLES[topic](session.world(), None if number is None else [number], is_all))


TABLES = {"goroutines": goroutines_table, "sockets": sockets_table, "descriptors": descriptors_table}

ANSWERS: dict[str, Answering] = {
    "help": answer_help,
    "apropos": answer_apropos,
    "list": of_place("list", answer_list),
    "goto": of_place("goto", answer_goto),
    "until": of_place("until", answer_until),
    "reverse-until": of_place("reverse-until", answer_reverse_until),
    "display": answer_display,
    "undisplay": answer_undisplay,
    "history": of_place("history", answer_history),
    "timeline": answer_timeline,
    "trace": answer_trace,
    "reduce": answer_reduce,
    "report": answer_report,
    "explore": answer_explore,
    "source": answer_source,
    "save": answer_save,
    "pagination": answer_pagination,
    "info": answer_info,
    "break": OF_PLACES["break"],
    "tbreak": OF_PLACES["tbreak"],
    "delete": OF_PLACES["delete"],
    **OF_FRAMES,
    **OF_GOROUTINES,
    **OF_CALLS,
}
