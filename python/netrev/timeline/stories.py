"""The stories of the page: the suspects with their steps. If there are no suspects, there is a story for each call that
hangs or has failed, with its cause. Rules and causes are nrdb's own; the values shown with them are netrev's."""

from collections.abc import Iterator
from itertools import islice

from netrev.connection.scout import Scout
from netrev.findings.causes.failed_calls import cause_of, failed_at
from netrev.findings.causes.first_output import failures_of
from netrev.findings.evidence.call_words import is_by_go
from netrev.findings.finding import Cause
from netrev.findings.hangs.hang_words import hang_queries, hang_sentences
from netrev.findings.hangs.wait_graph import Hang, WaitGraph, graph_at
from netrev.findings.suspects.ranking import all_suspects_of
from netrev.findings.suspects.table import shown_of, suspects_table
from netrev.recording.recording import Recording
from netrev.run.index import run_of

from .calls import Data

MOST_CAUSES = 6  # the maximum number of causes of each kind
HANGS, FAILED = "hangs", "failed"


def stories_data(scout: Scout, recording: Recording) -> tuple[list[Data], list[Data]]:
    """The suspects, and the stories of the calls that hang or failed. The second list is empty if the recording has
    suspects."""
    suspects = list(suspects_data(scout, recording))
    return suspects, [] if suspects else list(causes_data(recording))


def suspects_data(scout: Scout, recording: Recording) -> Iterator[Data]:
    """The suspects as `info suspects` prints them, with their goroutines and objects."""
    ranked = all_suspects_of(recording)
    rows = [row.values for row in suspects_table(scout, recording, ranked).rows if row.values]
    for row, suspect in zip(rows, shown_of(ranked), strict=True):
        about = {"g": suspect.goroutine, "s": suspect.socket, "d": suspect.descriptor}
        yield {**row, **about, **steps_data(recording, {suspect.step, *suspect.steps})}


def causes_data(recording: Recording) -> Iterator[Data]:
    """The first failures, the roots of the hangs at the end, and the other failed calls of the program. These stories
    are in the order of the first output, with the sentences of `info hangs` and `info errors`."""
    graph = graph_at(recording, recording.length)
    hangs = graph.shown[:MOST_CAUSES]
    index = run_of(recording)
    first = failures_of(recording)[:MOST_CAUSES]
    first_steps = {cause.call.first for cause in first}
    quiet = {hang.root.since for hang in hangs if hang.is_quiet} - {0}  # (hangs that may be normal share one story)
    for cause in first:
        yield cause_data(recording, cause, {*cause.steps, cause.call.last})
    for hang in hangs:
        own = {waiter.since for waiter in hang.roots} - {0}
        yield hang_data(graph, hang, (quiet if hang.is_quiet else own) or {1})
    others = (call for call in failed_at(index, recording.length) if not is_by_go(recording, call))
    for call in islice((call for call in others if call.first not in first_steps), MOST_CAUSES):
        cause = cause_of(index, call)
        yield cause_data(recording, cause, {*cause.steps, call.last})


def hang_data(graph: WaitGraph, hang: Hang, of: set[int]) -> Data:
    """The story about a hang, with these steps."""
    root = hang.root
    about = {
        "g": None if root.name.is_goid else root.name.number,
        **({"goid": root.name.number} if root.name.is_goid else {}),
        "s": root.call and root.call.socket,
        "d": root.call and root.call.descriptor,
    }
    return story_data(graph.recording, HANGS, root.since, hang_sentences(graph, hang), hang_queries(hang), of) | about


def cause_data(recording: Recording, cause: Cause, of: set[int]) -> Data:
    """The story about a failed call, with these steps."""
    call = cause.call
    about = {"g": call.goroutine, "s": call.socket, "d": call.descriptor}
    return story_data(recording, FAILED, call.last or call.first, cause.says, cause.looks, of) | about


def story_data(recording: Recording, rule: str, step: int, says: list[str], looks: list[str], of: set[int]) -> Data:
    """A story with these steps."""
    steps = steps_data(recording, of)
    lines = [
        f"step {number}, {recording.step(number).kind}: {words}"
        for number in steps["steps"]
        if (words := recording.lines.words(number))
    ]
    story = {"rule": rule, "step": step, "says": " ".join(says), "netrev": [], "lines": lines, "looks": looks}
    return {**story, **steps}


def steps_data(recording: Recording, steps: set[int]) -> Data:
    """The steps of a story, in order, and their texts."""
    return {"steps": sorted(steps), "texts": [str(recording.step(step)) for step in sorted(steps)]}
