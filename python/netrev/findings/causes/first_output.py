"""The first output for a program that failed. It shows each failed call of the program with its cause, and what all
hanging goroutines wait for. If nothing failed and nothing hangs, it shows what may be wrong. The last line is the
command to type next."""

from collections import defaultdict
from collections.abc import Callable, Hashable

from netrev.findings.evidence.call_words import is_of_go, place_in, waits_words
from netrev.findings.evidence.ended_goroutines import goid_of
from netrev.findings.finding import (
    CAUSE,
    NEXT,
    Cause,
    Finding,
    FirstFindings,
    Kind,
    paragraph,
    place_of,
    sentences_of,
    with_more,
    with_others,
)
from netrev.findings.hangs.hang_words import hang_queries, hang_sentences, tree_lines
from netrev.findings.hangs.joins import Topic, joined
from netrev.findings.hangs.wait_graph import Hang, WaitGraph, graph_at, is_at_mutex, waiters_of
from netrev.findings.http.cut_bodies import cut_bodies
from netrev.findings.http.late_answers import late_answers
from netrev.findings.source.later_source import text_after
from netrev.findings.streams.failed_dials import ended_sentence, failed_dials, refused_dials, refused_words
from netrev.findings.streams.gone_readers import ended_after
from netrev.findings.streams.unpassed_ends import unpassed_ends
from netrev.recording.call import CLOSE, Call, Outcome
from netrev.recording.goroutines import FOR_VALUE, FailedDial
from netrev.recording.recording import Recording
from netrev.recording.waits import Name, name_of_goid
from netrev.run.index import READING, WRITING, RunIndex, run_of
from netrev.text.plurals import counted

from .ended_requests import requests_that_ended
from .failed_calls import cause_of, failed_at, is_late
from .leftovers import leftovers_of
from .repeated_failures import repeated_sentence

MOST_FAILED, MOST_HANGS, MOST_PERHAPS = 4, 3, 2


def first_words(recording: Recording, name: str) -> list[str]:
    """The lines of the first output, before `plain` is applied to them; none if no cause is found."""
    return first_findings(recording).lines(name)


def first_findings(recording: Recording, stuck: int = 0) -> FirstFindings:
    """The findings of the first output. If Go's goroutine `stuck` was found to wait for too long, they begin with its
    wait."""
    failed, shown = failures_of(recording), set[int]()
    graph = graph_at(recording, recording.length)
    of_stuck = hangs_with(graph, name_of_goid(recording.lines, stuck)) if stuck else []
    hangs = [*of_stuck, *(hang for hang in hangs_of(graph, bool(failed)) if hang not in of_stuck)]
    topics = topics_of(graph, failed[:MOST_FAILED], hangs[:MOST_HANGS], bool(of_stuck))
    found = [finding_of_topic(graph, topic, shown) for topic in topics]
    left_out = len(failed) + len(hangs) - len([topic for topic in topics if topic.cause]) - count_in(hangs, topics)
    perhaps = list[Finding]()
    if not failed and all(hang.is_quiet for hang in hangs):
        perhaps = perhaps_of(recording, [line.strip() for finding in found for line in finding.sentences[1:]])
    if not found and not left_out and not perhaps:
        perhaps = [finding_of_dial(recording, dial) for dial in refused_dials(recording)][:MOST_FAILED]
    return FirstFindings(found, left_out, perhaps)


def finding_of_topic(graph: WaitGraph, topic: Topic, shown: set[int]) -> Finding:
    """The finding for a topic. `shown` has the steps whose source is shown so far."""
    sentences, evidence = topic_lines(graph, topic, shown), topic_queries(topic)
    if topic.cause:
        return finding_of_cause(Kind.FAILED_CALL, graph.recording, topic.cause._replace(says=sentences, looks=evidence))
    roots = topic.hang.roots if topic.hang else []
    place = place_of(roots[0].stack) if roots else None
    steps, names = tuple(root.since for root in roots), tuple(root.name for root in roots)
    said = sentences_of(graph.recording.lines, sentences)
    return Finding(Kind.HANG, said, place, steps, names, tuple(evidence))


def finding_of_cause(kind: Kind, recording: Recording, cause: Cause) -> Finding:
    """The finding for a cause, with its sentences."""
    place = place_of(recording.lines.of(cause.call.first))
    names = (Name(cause.call.goroutine),)
    said = sentences_of(recording.lines, cause.says)
    return Finding(kind, said, place, tuple(cause.steps), names, tuple(cause.looks))


def perhaps_of(recording: Recording, sentences: list[str]) -> list[Finding]:
    """What may be wrong if no call failed, unless one of these sentences says so already."""
    index = run_of(recording)
    left = list(failed_dials(index)) or leftovers_of(recording)
    cancelled, late = requests_that_ended(recording, False), list(late_answers(index))
    perhaps = [*cancelled, *once(recording, [*late, *left], [1] * len([*late, *left]))][:MOST_PERHAPS]
    new = [cause for cause in perhaps if not any(cause.says[0].endswith(sentence) for sentence in sentences)]
    return [
        finding_of_cause(Kind.LEFT_OVER, recording, with_more(cause, text_after(recording, cause.stopped)))
        for cause in new
    ]


def finding_of_dial(recording: Recording, dial: FailedDial) -> Finding:
    """The finding for a dial that the system refused."""
    sentences = sentences_of(recording.lines, (f"{refused_words(recording, dial)}.", *ended_sentence(recording, dial)))
    place, name = place_of(recording.lines.stacks[dial.stack]), name_of_goid(recording.lines, dial.goid)
    return Finding(Kind.REFUSED_DIAL, sentences, place, (dial.step,), (name,), (f"goto {dial.step}", "info goroutines"))


def topics_of(graph: WaitGraph, failed: list[Cause], hangs: list[Hang], is_first_meant: bool = False) -> list[Topic]:
    """The topics of the first output, in order. Each hang is joined to the failed call that it explains or follows
    from."""
    topics = in_order(graph, failed, hangs, is_first_meant)
    return joined(graph, [Topic(None, topic) if isinstance(topic, Hang) else Topic(topic) for topic in topics])


def count_in(hangs: list[Hang], topics: list[Topic]) -> int:
    """The number of `hangs` that belong to one of the topics."""
    return sum(any(topic.hang is hang for topic in topics) for hang in hangs)


def topic_queries(topic: Topic) -> list[str]:
    """The line to type next for a cause."""
    return topic.cause.looks if topic.cause else hang_queries(topic.hang) if topic.hang else []


def topic_lines(graph: WaitGraph, topic: Topic, shown: set[int]) -> list[str]:
    """The lines of a topic. A hang that belongs to a failed call is indented below the call."""
    cause, left = topic.cause, left_by(graph, topic.cause.call) if topic.cause else []
    source = text_after(graph.recording, cause.stopped) if cause else []
    if cause:
        shown.add(cause.stopped)
    of_hang = hang_lines(graph, topic.hang, shown) if topic.hang else []
    if cause is None or not of_hang:
        return [*(cause.says if cause else []), *left, *source, *of_hang]
    says = [line for line in cause.says if line not in cause.beyond]
    return [*says, *source, *(left or [topic.because]), *(f"  {line}" for line in of_hang)]


def in_order(
    graph: WaitGraph, failed: list[Cause], hangs: list[Hang], is_first_meant: bool = False
) -> list[Cause | Hang]:
    """The failures and hangs in the order in which they are shown. Failures come first. If the main goroutine hangs for
    a known reason, or the first hang is the one that the user asked for, failures unrelated to it come last, because the
    program went on after them."""
    first = next(iter(hangs), None)
    if first is None or not (is_first_meant or is_of_main(graph, first)):
        return [*failed, *hangs]
    of_hang = [cause for cause in failed if concerns(graph, first, cause.call)]
    return [*of_hang, *hangs, *(cause for cause in failed if not any(cause is other for other in of_hang))]


def hangs_with(graph: WaitGraph, name: Name | None) -> list[Hang]:
    """The hangs in which this goroutine waits."""
    return [hang for hang in graph.shown if any(waiter.name == name for waiter in waiters_of(hang))]


def is_of_main(graph: WaitGraph, hang: Hang) -> bool:
    """Whether the main goroutine hangs, with a known reason."""
    is_explained = hang.is_deadlock or bool(hang.needs[0].says or hang.needs[0].more)
    return is_explained and any(waiter.name == graph.main for waiter in waiters_of(hang))


def concerns(graph: WaitGraph, hang: Hang, call: Call) -> bool:
    """Whether a failed call may be related to a hang: its goroutine hangs, or ended without doing what another
    goroutine needs, or its connection is open and in use by a goroutine that hangs."""
    index, names = run_of(graph.recording), {waiter.name for waiter in waiters_of(hang)}
    needs = [graph.needs[name] for name in names]
    of_needs = {name for need in needs for name in (need.gone, *need.ended)}
    if Name(call.goroutine) in names | of_needs or left_by(graph, call):
        return True
    ends = [end for end in (call.socket, index.other_end(call.socket)) if end is not None]
    if any(index.closing(end, graph.position, whole=True) for end in ends):
        return False
    return any(Name(other_call.goroutine) in names for end in ends for other_call in index.by_socket.get(end, ()))


def left_by(graph: WaitGraph, call: Call) -> list[str]:
    """Sentences about the goroutine of a failed call, if that call was its last. The sentences say that the goroutine
    has ended since, and which goroutine waits for it."""
    name, index = Name(call.goroutine), run_of(graph.recording)
    left = next((waiter for waiter in graph.waiters.values() if graph.needs[waiter.name].gone == name), None)
    ended = ended_after(index, call, graph.position)
    later = [
        later_call
        for later_call in index.by_goroutine[call.goroutine]
        if later_call.first > call.last and later_call.name != CLOSE
    ]
    if left is None or not left.wait or ended is None or later:
        return []
    at, goid = left.wait.objects[0], goid_of(graph.recording, name)
    did = "put a value" if at.use == FOR_VALUE else "take one"
    is_last = any(use.goid == goid for use in graph.recording.lines.uses.get(at.object, ()))
    whose = f", at which {name} was the last to {did}" if is_last else f", as {name} had put for others"
    waits = f"{left.name} {waits_words(left.wait)}{whose}"
    return [f"{str(name).capitalize()} ended after that, at step {ended}; {waits}."]


def hangs_of(graph: WaitGraph, has_failures: bool) -> list[Hang]:
    """The hangs of the first output. A goroutine that hangs in a read or a select may have nothing to do if no
    goroutine waits for it. Its hang is listed only if nothing else is. If the main goroutine is in such a hang, only
    that hang is listed, because the program ends when the main goroutine does. If the program ended by itself, a hang
    is listed only if it is a deadlock, if another goroutine waits for its goroutine, or if `is_odd` is set for its
    need. If no hang qualifies, the hangs at a mutex that was left locked are listed."""
    hangs = [hang for hang in graph.shown if not hang.is_quiet]
    if graph.has_ended:
        hangs = [hang for hang in hangs if not hang.root.is_of_go or hang.is_deadlock]
        left = [hang for hang in hangs if is_waited_for(hang) or hang.is_deadlock or hang.needs[0].is_odd]
        return left or [hang for hang in hangs if is_at_mutex(hang.root) and hang.has_reason and not has_failures]
    if hangs or has_failures:
        return hangs
    return hangs_with(graph, graph.main) or graph.shown


def is_waited_for(hang: Hang) -> bool:
    """Whether at least one of the goroutines that wait for a root runs the program's code, not just Go's own."""
    roots = {waiter.name for waiter in hang.every_root}
    return any(waiter.name not in roots and not waiter.is_of_go for waiter in waiters_of(hang))


def failures_of(recording: Recording) -> list[Cause]:
    """The failures of a program besides its hangs: ends of streams that weren't passed on, failed calls, and net/http
    requests whose deadlines passed."""
    index = run_of(recording)
    ends = [
        Cause(
            end.met,
            end.says(recording),
            [end.met.first, end.waits.first],
            [f"goto {end.met.last}", f"calls gor {end.met.goroutine}"],
        )
        for end in unpassed_ends(index)
    ]
    return [
        *once(recording, ends, [1] * len(ends)),
        *telling_failures(recording),
        *requests_that_ended(recording, True),
    ]


def telling_failures(recording: Recording) -> list[Cause]:
    """Causes for the failed calls that are worth printing. Failures with the same stack that were caused by the same
    step share a cause, because a program may loop on a closed descriptor."""
    index, alike = run_of(recording), dict[Hashable, list[Call]]()
    of_line: dict[Hashable, list[Call]] = defaultdict(list)
    stacks = recording.lines.steps
    for call in [*late_reads(index), *cut_bodies(index), *failed_at(index, recording.length)]:
        if is_telling(recording, call):
            of_line[call.goroutine, call.outcome, stacks[call.first - 1] if recording.lines else call.first].append(
                call
            )
            same = call.name, call.outcome, call.cause, stacks[call.first - 1] if recording.lines else 0
            alike.setdefault(same if recording.lines and call.cause else call.first, []).append(call)
    repeated = {calls[0].first: repeated_sentence(recording, calls) for calls in of_line.values()}
    firsts = [calls[0] for calls in alike.values()]
    causes = [with_more(cause_of(index, call), repeated.get(call.first, [])) for call in firsts]
    chained = [call for cause in causes for call in cause.chain]
    apart = [
        (cause, len(calls))
        for cause, calls in zip(causes, alike.values())
        if not any(cause.call is call for call in chained)
    ]
    return once(recording, [cause for cause, _ in apart], [many for _, many in apart])


def late_reads(index: RunIndex) -> list[Call]:
    """The Reads that reached the end of a stream instead of an answer, because their goroutine had written to an end
    that was already closed."""
    return [call for call in index.calls if call.outcome is Outcome.EOF and call.last and is_late(index, call)]


def opening_words(recording: Recording) -> list[str]:
    """The opening text of a session: the first failed call, or else the first hang, and the line to type next. If there
    is neither, the text only counts the goroutines that may have nothing to do."""
    failed = failures_of(recording)
    graph = graph_at(recording, recording.length)
    hangs = hangs_of(graph, True)
    if not failed and not hangs:
        return quiet_words(graph.shown)
    first = topics_of(graph, failed, hangs)[0]
    says = first.cause.says if first.cause and not first.hang else topic_lines(graph, first, set())
    lines, looks = paragraph(says), topic_queries(first)
    rest = [(len(failed) - bool(first.cause), "info errors"), (len(hangs) - count_in(hangs, [first]), "info hangs")]
    more = [f"{count} more: {command}" for count, command in rest if count > 0]
    return [*lines, f"{NEXT}{'; '.join(looks)}" + (f"   ({'; '.join(more)})" if more else "")]


def root_sentence(recording: Recording) -> str:
    """The first sentence of the opening text; empty if nothing failed and no goroutine waits for a goroutine that
    hangs."""
    first = next(iter(opening_words(recording)), "")
    return first.removeprefix(CAUSE) if first.startswith(CAUSE) else ""


def quiet_words(hangs: list[Hang]) -> list[str]:
    """A sentence about waiting goroutines that may have nothing to do, with their places; empty if there are none."""
    count = sum(1 + len(hang.alike) for hang in hangs)
    places = [place.strip() for hang in hangs if (place := place_in(hang.root.stack))]
    at = f", {'; '.join(places[:MOST_HANGS])}{' ..' if places[MOST_HANGS:] else ''}" if places else ""
    return (
        [f"{counted(count, 'goroutine')} wait{'s' if count == 1 else ''} at the end{at}: info hangs"] if count else []
    )


def hang_lines(graph: WaitGraph, hang: Hang, shown: set[int]) -> list[str]:
    """The lines for a hang: its sentences, a piece of source, and the goroutines that wait. The source begins at the
    line where a goroutine stopped although it could have gone on; a piece that was shown before is left out."""
    stopped = 0 if hang.is_deadlock else hang.needs[0].stopped
    source = (
        text_after(graph.recording, stopped)
        if not any(alike(graph.recording, stopped, other) for other in shown)
        else []
    )
    shown.add(stopped)
    return [*hang_sentences(graph, hang), *source, *tree_lines(graph, hang)]


def alike(recording: Recording, step: int, other: int) -> bool:
    """Whether two steps are at the same line of the program."""
    return recording.lines.of(step).own() == recording.lines.of(other).own()


def is_telling(recording: Recording, call: Call) -> bool:
    """Whether a failed call is worth printing: it reads, writes or accepts, it isn't known to come from Go's own
    code alone, and it isn't the Accept of a listener that was closed."""
    if is_of_go(recording, call) or call.name not in READING + WRITING:
        return False
    return not (call.outcome is Outcome.CLOSED and run_of(recording).is_listening(call))


def once(recording: Recording, causes: list[Cause], counts: list[int]) -> list[Cause]:
    """The causes. Merges causes with the same lines into one cause that gives their number."""
    kept: dict[object, Cause] = {}
    many: dict[object, int] = {}
    at: Callable[[int], object] = recording.lines.words
    for cause, count in zip(causes, counts, strict=True):
        lines = cause.call.name, cause.call.outcome, *map(at, cause.steps)
        key: Hashable = lines if recording.lines else id(cause)
        kept.setdefault(key, cause)
        many[key] = many.get(key, 0) + count
    return [with_others(cause, many[key] - 1) for key, cause in kept.items()]
