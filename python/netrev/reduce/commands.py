"""The commands `reduce` and `report`."""

from pathlib import Path

from netrev.findings.suspects.ranking import suspects_of
from netrev.messages import searches as messages
from netrev.recording.recording import Recording
from netrev.session.files import derived, spare, written
from netrev.session.session import Session, UsageError
from netrev.text.files import is_page_of
from netrev.timeline.page import show_progress, write_page
from netrev.timeline.page_contents import PageSources

from .reduced import reduced, wanted_by
from .report import hang_report, report_of, story_of
from .writing import write_recording

USAGE = "reduce OUT.jsonl [N | CELL VALUE]"


def reduced_file(session: Session, words: list[str]) -> str:
    """Writes the reduced recording to the file that the first word names, and returns the lines about the file."""
    if not words or not words[0].endswith(".jsonl"):
        raise UsageError(messages.REDUCE.format(usage=USAGE))
    spare(words[0], session.path)
    result = reduced(session, wanted_by(session, words[1:]))
    write_recording(words[0], session.path, result.data, result.lines)
    summary = result.words(words[0], session.text().length)
    found = [suspect for suspect in suspects_of(Recording.read(words[0])).suspects if suspect.is_shown]
    return "\n".join([summary, *(f"{suspect.rule}: {suspect.sentence()}" for suspect in found[:1])])


def answer_reduce(session: Session, words: list[str]) -> None:
    session.printer.note(reduced_file(session, words))


def answer_report(session: Session, words: list[str]) -> None:
    if not words or not words[0].endswith(".md"):
        raise UsageError(messages.REPORT)
    name, base = words[0], Path(words[0]).with_suffix("")
    spare(name, session.path)
    story = None if words[1:] or has_suspects(session) else story_of(session)
    if story:
        page = f"{derived(base, session.path, {'.html': is_page_of(session.text().data)})}.html"
        write_page(PageSources.by(session, show_progress), page)
        text, done = hang_report(session, story, page), f": {story.says[0]}"
    else:
        wanted = wanted_by(session, words[1:])
        result = reduced(session, wanted)
        free = derived(base, session.path, {**result.endings(), ".html": is_page_of(result.data)})
        path, page = f"{free}.jsonl", f"{free}.html"
        write_recording(path, session.path, result.data, result.lines)
        text = report_of(session, wanted, result, path, page)
        done = f", and {result.words(path, session.text().length)}"
    written(session.path, {name: text.encode()})
    session.printer.note(f"{name} with {Path(page).name}{done}")


def has_suspects(session: Session) -> bool:
    """Whether a rule about cells found the suspect, so that the recording can be reduced to it."""
    return any(suspect.is_shown for suspect in suspects_of(session.text()).suspects)
