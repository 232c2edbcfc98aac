"""Reports in Markdown. A report of a reduced recording has the target, netrev's answers, and the steps side by side. A
report of a hang says what all goroutines wait for, or why calls failed, and shows the tree of waiting goroutines with
their stacks and calls; that recording isn't reduced."""

import re
import shlex
from pathlib import Path
from typing import NamedTuple
from urllib.parse import quote

from netrev.connection.beginnings import begin_words
from netrev.connection.netrev import NetrevProcess
from netrev.connection.output import Table
from netrev.connection.scout import Scout
from netrev.findings.causes.first_output import failures_of
from netrev.findings.hangs.hang_words import hang_queries, hang_sentences, tree_lines
from netrev.findings.hangs.wait_graph import graph_at
from netrev.findings.suspects.table import suspects_table
from netrev.recording.answers import answer_text
from netrev.recording.recording import Recording, Step
from netrev.recording.step_changes import IncompleteChangesError
from netrev.recording.waits import Name
from netrev.recording.where import OF_THE_PROGRAM, stack_lines
from netrev.run.changes import read_with_changes
from netrev.session.session import Session, UsageError
from netrev.session.source import source_of, text_around
from netrev.system.command_lines import file_word
from netrev.text.plain import plain
from netrev.text.vocabulary import OF_A_GOROUTINE
from netrev.timeline.calls import Data
from netrev.timeline.page import show_progress, write_page
from netrev.timeline.page_contents import PageSources
from netrev.timeline.sequence import sequence
from netrev.timeline.stories import suspects_data
from netrev.views.calls import Subject, calls_table
from netrev.views.goroutine_stacks import stack_of

from .reduced import Reduced, Wanted
from .writing import answered_by

MEANS = re.compile(r"([\\`*_{}\[\]<>|#&~])")  # characters that have a meaning in Markdown
MOST_COLUMNS = 6
MOST_GOROUTINES, MOST_CALLS = 4, 5  # of a report about a hang


def shown(text: str) -> str:
    """Text from outside, escaped for Markdown."""
    return MEANS.sub(r"\\\1", plain(text))


def shell_words(*words: str) -> str:
    """A command line that the report's reader can type."""
    return plain(shlex.join(words))


def code(text: str) -> str:
    """Text as a span of code. The span's delimiters have more backticks than any run of backticks in the text."""
    fence = "`" * (1 + max(map(len, re.findall("`+", text)), default=0))
    return f"{fence}{plain(text)}{fence}" if len(fence) == 1 else f"{fence} {plain(text)} {fence}"


def link_to_page(page: str) -> str:
    """The line of a report that names its timeline."""
    name = Path(page).name
    return f"The timeline, for any browser: [{shown(name)}]({quote(name)})"


def report_of(session: Session, wanted: Wanted, reduced: Reduced, path: str, page: str) -> str:
    """Writes the timeline of a reduced recording in a file to `page`, and returns the recording's report."""
    try:
        recording = read_with_changes(session.program, path)
    except IncompleteChangesError as fault:
        raise UsageError(str(fault)) from None
    assert recording.changes
    file = file_word(Path(path).name)
    name = shown(file)
    scout = Scout(lambda: NetrevProcess(session.program, path, session.interrupts))
    try:
        table = suspects_table(scout, recording)
        parts = _of_cell(scout, recording, wanted) if wanted.cell else _of_suspect(session, table, wanted)
        story = None if wanted.cell else next(suspects_data(scout, recording), None)
        write_page(PageSources(recording, path, scout, recording.changes, 0, [], show_progress), page)
    finally:
        scout.drop()
    _, checked = answered_by(session.program, "check", recording.data)
    parts += [
        link_to_page(page),
        "## The steps",
        f"{recording.length} of the {session.text().length} steps of {shown(Path(session.path).name)}, in {name}: each "
        f"goroutine in its column, the network and the clock in the last. {code(shell_words('netrev', 'check', file))} prints "
        f"{code(checked.decode('utf-8', 'replace').strip())}, so this is a run of the machine. What netrev answers is proved; that "
        "this is a bug, and the lines of the program, are not.",
        "\n".join(_steps(recording, reduced)),
        *_diagram(recording, story),
        "## To look",
        f"    {shell_words('nrdb', file, '-ex', 'info suspects', '-ex', 'continue', '-ex', 'info goroutines')}",
    ]
    return "\n\n".join(parts) + "\n"


def _diagram(recording: Recording, story: Data | None) -> list[str]:
    """The steps as a diagram, unless the recording has too many steps."""
    diagram = sequence(recording, story)
    return [f"```mermaid\n{diagram}\n```"] if diagram else []


def _of_cell(scout: Scout, recording: Recording, wanted: Wanted) -> list[str]:
    """The head of a report about a cell."""
    return [
        f"# {wanted.cell} has the value {shown(wanted.value)}",
        f"So it has at the end of {recording.length} steps.",
    ]


def _of_suspect(session: Session, table: Table, wanted: Wanted) -> list[str]:
    """The head of a report about a suspect."""
    before = suspects_table(session.looks(), session.text()).rows
    whole = [row.values for row in before if row.values][wanted.suspect - 1]
    here = next(row.values for row in table.rows if row.values and row.values["rule"] == whole["rule"])
    parts = [f"# {here['rule']}", shown(f"{here['says'][:1].upper()}{here['says'][1:]}.")]
    parts.append("\n".join(f"- netrev: `{line}`" for line in here["netrev"]))
    if here["lines"]:
        parts.append("\n".join(f"- {shown(line)}" for line in here["lines"]))
    parts.append(f"In the whole recording: {shown(whole['says'])}.")
    return parts


def _steps(recording: Recording, reduced: Reduced) -> list[str]:
    """The table rows of the steps."""
    steps = [recording.step(number) for number in range(1, recording.length + 1)]
    goroutines = sorted({g for step in steps if (g := step.argument("g")) is not None})
    is_wide = len(goroutines) <= MOST_COLUMNS
    columns = [*(f"goroutine {g}" for g in goroutines), "others"] if is_wide else ["step"]
    heads = ["", "was", *columns, *(["line"] if recording.lines else [])]
    rows = [f"| {' | '.join(heads)} |", f"|{'--:|--:|' + '---|' * (len(heads) - 2)}"]
    for step, was in zip(steps, reduced.numbers):
        at = goroutines.index(step.argument("g")) if step.argument("g") in goroutines else len(goroutines)
        cells = [
            f"`{_step_text(step, is_wide)}`" if column == (at if is_wide else 0) else ""
            for column in range(len(columns))
        ]
        line = [shown(recording.lines.words(step.number))] if recording.lines else []
        rows.append(f"| {' | '.join([str(step.number), str(was), *cells, *line])} |")
    return rows


def _step_text(step: Step, is_wide: bool) -> str:
    """A step with its answer. The goroutine is left out if it has a column of its own."""
    words = str(step).split()
    if is_wide and step.kind in OF_A_GOROUTINE:
        del words[1]
    return " ".join(words) + (f" = {answer_text(step.answer)}" if step.answer not in (None, "done") else "")


# ---- reports of hangs


class Story(NamedTuple):
    """The contents of a report of a hang: the title, the sentences, the tree, the goroutines, and the command to type
    next."""

    title: str
    says: list[str]
    tree: list[str]
    names: list[Name]
    looks: list[str]


def story_of(session: Session) -> Story | None:
    """What a report says about a recording: its first failure, or else its first hang. None if neither is known."""
    recording = session.text()
    graph = graph_at(recording, recording.length)
    failed = failures_of(recording)
    hangs = [hang for hang in graph.shown if not hang.is_quiet or not failed]
    if not failed and not hangs:
        return None
    says = [line for cause in failed[:1] for line in cause.says]
    names = [Name(cause.call.goroutine) for cause in failed[:1]]
    looks = failed[0].looks if failed else hang_queries(hangs[0])
    tree: list[str] = []
    for hang in hangs[:1]:
        says += hang_sentences(graph, hang)
        tree += tree_lines(graph, hang)
        names += [waiter.name for waiter in hang.roots]
        names += [need.by for need in hang.needs if need.by]
        names += [branch.waiters[0].name for branch in hang.branches]
    names += [waiter.name for hang in hangs[1:] for waiter in hang.roots]
    is_deadlock = not failed and hangs[0].is_deadlock and not hangs[0].until
    title = "A deadlock" if is_deadlock else "A call failed" if failed else "A hang"
    return Story(title, says, tree, list(dict.fromkeys(names))[:MOST_GOROUTINES], looks)


def hang_report(session: Session, story: Story, page: str) -> str:
    """The report, with a link to the timeline in `page`."""
    recording, file = session.text(), file_word(Path(session.path).name)
    _, checked = answered_by(session.program, "check", recording.data)
    parts = [f"# {story.title}", *(shown(line) for line in story.says)]
    parts += [f"{words[0].upper()}{words[1:]}."] if (words := begin_words(recording)) else []
    parts += [block(story.tree)] if story.tree else []
    parts += [link_to_page(page)]
    for name in story.names:
        parts += of_goroutine(session, name)
    parts += [
        "## To look",
        f"{code(shell_words('netrev', 'check', file))} prints {code(checked.decode('utf-8', 'replace').strip())}, so this is a run of the machine. "
        "What netrev answers is proved; who waits for whom, and the lines of the program, are not.",
        block([shell_words("nrdb", file, *(word for look in ("info hangs", *story.looks) for word in ("-ex", look)))]),
    ]
    return "\n\n".join(parts) + "\n"


def of_goroutine(session: Session, name: Name) -> list[str]:
    """A goroutine's stack at the end, the source around the program's line in it, and the goroutine's last calls."""
    recording = session.text()
    found = stack_of(recording, name, recording.length)
    if found is None:
        return []
    parts = [f"## {str(name)[0].upper()}{str(name)[1:]}", f"{shown(found.does)}."]
    parts += [block(stack_lines(found.stack))] if found.stack.calls else []
    own = next((call for call in found.stack.calls if call.of == OF_THE_PROGRAM), None)
    source = text_around(recording, source_of(own.file, session.path), own.line) if own else []
    parts += [block(source)] if source else []
    calls = (
        [] if name.is_goid else calls_table(recording, Subject("gor", name.number), recording.length, MOST_CALLS).rows
    )
    return [*parts, *([block([row.text for row in calls])] if calls else [])]


def block(lines: list[str]) -> str:
    """Lines as a block of code."""
    return "\n".join(f"    {plain(line)}" for line in lines)
