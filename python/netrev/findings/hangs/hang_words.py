"""The text for hangs, the same in every output: a first sentence that says what all goroutines wait for, the reasons,
and a tree of the goroutines that wait."""

from collections import defaultdict
from collections.abc import Sequence

from netrev.findings.evidence.call_words import capital, name_of, place_in, text_of_call, waits_words
from netrev.findings.evidence.deadlines_ahead import deadline_ahead, setting_sentence, until_words
from netrev.findings.evidence.need import GOES_FIRST
from netrev.findings.evidence.waiters import Waiter
from netrev.findings.streams.gone_readers import gone_readers
from netrev.findings.streams.unread_bytes import unread_sentence
from netrev.recording.cell_meanings import SIDES
from netrev.recording.goroutines import FOR_VALUE
from netrev.recording.recording import Recording
from netrev.recording.waits import Name, listed, of_names
from netrev.run.index import READING, RunIndex, run_of
from netrev.text.plurals import counted

from .missing_cases import missing_case_sentence
from .wait_graph import Certainty, Hang, WaitBranch, WaitGraph, kind_of, waiters_of

NUMBERS = {2: "two", 3: "three", 4: "four"}
VERBS = {
    "serves": "serve",
    "holds": "hold",
    "has": "have",
    "hasn't": "haven't",
    "writes": "write",
    "takes": "take",
    "puts": "put",
    "answers": "answer",
    "reads": "read",
}
SEVERAL = {"{by}, which calls": "{by}, which call", "as it ends": "as they end", "what it reads": "what they read"}
MOST_LINES = 20  # the maximum number of lines in a tree
MOST_BESIDE = 3  # the maximum number of sentences about goroutines that wait for a root
MOST_LOOSE = 4  # how many goroutines to name that may hold mutexes for one another
INDENT = "  "


def hang_sentences(graph: WaitGraph, hang: Hang) -> list[str]:
    """The sentences about a hang, without its tree. The first sentence sums up the hang, and the others say why it
    doesn't end."""
    recording = graph.recording
    if hang.is_deadlock:
        members = zip(members_words(recording, hang), hang.needs, ahead_sentence(graph, hang))
        paragraphs = [[f"{words}.", *ahead, *need.more] for words, need, ahead in members]
        shown = paragraphs[:MOST_LOOSE] if hang.is_loose else paragraphs
        left = (
            [f"{counted(len(paragraphs) - len(shown), 'goroutine')} more like these."]
            if len(paragraphs) > len(shown)
            else []
        )
        return [
            deadlock_words(graph, hang),
            *(line for paragraph in shown for line in paragraph),
            *left,
            *of_waiters(graph, hang),
            *unread_words(graph, hang),
        ]
    says = [*hang.needs[0].says, *hang.needs[0].more]
    of_first = (
        [f"Of socket {hang.root.call.socket}: {says[0]}", *says[1:]] if hang.alike and hang.root.call and says else says
    )
    cases = missing_case_sentence(recording, hang)
    others = [line for line in of_waiters(graph, hang) if line not in says]
    return [
        first_sentence(graph, hang),
        *of_first,
        *cases,
        *beside_words(graph, hang),
        *others,
        *unread_words(graph, hang),
    ]


def of_waiters(graph: WaitGraph, hang: Hang) -> list[str]:
    """Further sentences about goroutines that wait for responses, each once."""
    roots = {waiter.name for waiter in hang.roots} if hang.is_deadlock else set()
    others = (waiter for waiter in waiters_of(hang) if waiter.name not in roots)
    says = (line for waiter in others for line in graph.needs[waiter.name].beside)
    return list(dict.fromkeys(says))[:MOST_BESIDE]


def ahead_sentence(graph: WaitGraph, hang: Hang) -> list[list[str]]:
    """Sentences about the deadlines that the roots' calls still have."""
    index = run_of(graph.recording)
    settings = (deadline_ahead(index, root.call, graph.position) if root.call else None for root in hang.roots)
    return [[setting_sentence(index, setting)] if setting else [] for setting in settings]


def beside_words(graph: WaitGraph, hang: Hang) -> list[str]:
    """Sentences about the other roots that wait for the same ended goroutine, one sentence for each group of similar
    roots."""
    alike: dict[object, list[Waiter]] = defaultdict(list)
    for waiter in hang.beside:
        alike[kind_of(graph.recording, waiter)].append(waiter)
    gone = hang.needs[0].gone
    return [
        f"{capital(of_names(waiter.name for waiter in some))} {waits(some[0]).replace('waits', 'wait' if some[1:] else 'waits', 1)} "
        f"{since(some)}, and need{'' if some[1:] else 's'} {gone} for that too."
        for some in alike.values()
    ]


def unread_words(graph: WaitGraph, hang: Hang) -> list[str]:
    """Sentences about bytes that a hanging goroutine wrote and no goroutine reads. The list is empty if the hang's root
    waits for room, because the root's sentence already names those bytes."""
    call, index, names = hang.root.call, run_of(graph.recording), {waiter.name for waiter in waiters_of(hang)}
    if any(root.call and root.call.name == "Write" for root in hang.roots) or (call and call.is_asking):
        return []
    is_one = not hang.waiting and not hang.is_deadlock
    says = [] if is_one else unread_sentence(index, names, graph.position)
    return says or reader_words(
        index, {waiter.name for waiter in waiters_of(hang) if wants_value(waiter)}, graph.position
    )


def wants_value(waiter: Waiter) -> bool:
    """Whether a goroutine waits for a value from a channel, in a receive or in a select."""
    return waiter.wait is not None and any(at.use == FOR_VALUE for at in waiter.wait.objects)


def reader_words(index: RunIndex, names: set[Name], position: int) -> list[str]:
    """Sentences about a socket whose only reader has ended, if a goroutine that waits for a value wrote to that socket
    last."""
    for reader in gone_readers(index, position):
        write = index.last_use(reader.read.socket, position, ("Write",))
        if write and Name(write.goroutine) in names:
            begins, *rest = reader.says(index)
            return [capital(begins), *rest]
    return []


def first_sentence(graph: WaitGraph, hang: Hang) -> str:
    """The first sentence of a hang, which says what its goroutines wait for."""
    recording, root, many = graph.recording, hang.root, len(hang.alike) + 1
    if not hang.waiting:
        return f"{root_words(recording, hang)}." if hang.alike else f"{waiter_words(recording, root)}."
    begins = waiting_words(graph, hang)
    if root.call:
        return f"{begins} for {'one call' if many == 1 else f'{many} calls'}: {call_words(recording, hang)}."
    if many > 1:
        words = root_words(recording, hang)
        return f"{begins} for {many} goroutines: {words[0].lower()}{words[1:]}."
    return f"{begins} for {root.name}, which {waits(root)} since step {root.since}."


def waiting_words(graph: WaitGraph, hang: Hang) -> str:
    """The number of goroutines that wait for a root: `All 8 wait`."""
    others, only = graph.count - len(hang.every_root), hang.branches[0].waiters[0].name
    every = (
        f"{hang.waiting} of {graph.count} wait"
        if others != hang.waiting
        else f"{counted(hang.waiting, 'goroutine')} wait"
    )
    every = f"All {others} wait" if len(graph.shown) == 1 else every
    many = f"{capital(str(only))} waits" if hang.waiting == 1 else every
    perhaps = f", {hang.perhaps} of them perhaps," if 0 < hang.perhaps < hang.waiting else ""
    return f"{many}{' perhaps' if hang.perhaps == hang.waiting else perhaps}"


def root_words(recording: Recording, hang: Hang) -> str:
    """The text for similar roots."""
    if hang.root.call:
        return f"{len(hang.alike) + 1} calls wait: {call_words(recording, hang)}"
    names = of_names(waiter.name for waiter in (hang.root, *hang.alike))
    return f"{capital(names)} {waits(hang.root).replace('waits', 'wait', 1)} {since((hang.root, *hang.alike))}"


def call_words(recording: Recording, hang: Hang) -> str:
    """The text for the calls of similar roots, with their goroutines and sockets."""
    root, every = hang.root, [hang.root, *hang.alike]
    names = of_names(waiter.name for waiter in every)
    what = name_of(recording, root.call) if root.call else ""
    return f"{what}{place_in(root.stack)} ({names}), on {of_sockets(every)} {since(every)}"


def since(waiters: Sequence[Waiter]) -> str:
    """Text for the steps at which these goroutines began to wait: `since step 9`, `since steps 9 to 17`."""
    steps = sorted({waiter.since for waiter in waiters})
    return f"since steps {steps[0]} to {steps[-1]}" if len(steps) > 1 else f"since step {steps[0]}"


def waits(waiter: Waiter) -> str:
    """What a waiter does outside the poller."""
    return waits_words(waiter.wait) if waiter.wait else ""


def deadlock_words(graph: WaitGraph, hang: Hang) -> str:
    """A sentence which says that goroutines wait for one another. If one of their calls has a deadline, the sentence
    names it."""
    many = NUMBERS.get(len(hang.roots), str(len(hang.roots)))
    what = "calls" if all(root.call for root in hang.roots) else "goroutines"
    is_perhaps = hang.certainty == Certainty.PERHAPS
    if hang.until:
        until, perhaps = until_words(run_of(graph.recording), hang.until), "perhaps " if is_perhaps else ""
        return f"{capital(perhaps + many)} {what} wait for one another{behind_it(hang)} {until}."
    begins = "Perhaps a deadlock" if is_perhaps else "Deadlock"
    if hang.is_of_mutexes and hang.is_loose:
        names = of_names(root.name for root in hang.roots)
        return f"{begins}: {names} hold mutexes for which others of them wait{behind_it(hang)}."
    if any(need.how == GOES_FIRST for need in hang.needs):
        return f"{begins}: {many} {what} wait for one another{behind_it(hang)}, readers and a writer of an RWMutex."
    if hang.is_of_mutexes:
        return f"{begins}: {many} goroutines each hold a mutex for which another of them waits{behind_it(hang)}."
    return f"{begins}: {many} {what} wait for one another{behind_it(hang)}."


def behind_it(hang: Hang) -> str:
    if not hang.waiting:
        return ""
    return f", and {counted(hang.waiting, 'goroutine')} more {'wait ' if hang.is_of_mutexes else ''}for them"


def members_words(recording: Recording, hang: Hang) -> list[str]:
    """A sentence for each goroutine of a deadlock, with what it waits for."""
    found = []
    for waiter, need in zip(hang.roots, hang.needs):
        by = f"; {need.how.format(by=need.by)}" if need.how else ""
        found.append(f"{waiter_words(recording, waiter)}{for_what(recording, waiter)}{by}")
    return found


def for_what(recording: Recording, waiter: Waiter) -> str:
    """What a call that waits for another call needs: bytes, room or a lock."""
    call = waiter.call
    if call is None:
        return ""
    if call.is_asking:
        return f", for socket {call.socket}'s {SIDES[call.side]} lock"
    needs, other = "bytes from" if call.name in READING else "room, which a read makes at", run_of(recording).other_end(
        call.socket
    )
    return f", for {needs} the other end, socket {other}" if other is not None else ""


def waiter_words(recording: Recording, waiter: Waiter) -> str:
    """The beginning of the sentence about a waiter: `Read at a.go:3 in ask (goroutine 0) waits on socket 2 since step
    9`."""
    if waiter.call:
        return f"{text_of_call(recording, waiter.call)} waits on socket {waiter.call.socket} since step {waiter.since}"
    return f"{capital(str(waiter.name))} {waits(waiter)} since step {waiter.since}"


def tree_lines(graph: WaitGraph, hang: Hang) -> list[str]:
    """The lines for the goroutines that wait for a root, up to the greatest number of lines. Goroutines that wait for
    the same thing at the same line share a line."""
    lines = [line for branch in hang.branches for line in branch_lines(graph.recording, branch, 1)]
    left = len(lines) - MOST_LINES
    return [*lines[:MOST_LINES], *([f"{INDENT}and {counted(left, 'line')} more"] if left > 0 else [])]


def branch_lines(recording: Recording, branch: WaitBranch, depth: int) -> list[str]:
    """A branch and the branches below it."""
    lines = [f"{INDENT * depth}- {branch_words(recording, branch)}"]
    return lines + [line for inner in branch.branches for line in branch_lines(recording, inner, depth + 1)]


def branch_words(recording: Recording, branch: WaitBranch) -> str:
    """The text for a branch: its goroutines, what they wait for, and the goroutines that they wait for."""
    first = branch.waiters[0]
    names = of_names(waiter.name for waiter in branch.waiters)
    if first.call:
        what = f"{name_of(recording, first.call)}{place_in(first.stack)} ({names})"
        what += f" on {of_sockets(branch.waiters)}"
    else:
        reason = first.wait.kind if first.wait else ""
        what = f"{reason or 'a wait'}{place_in(first.stack)} ({names})"
    return f"{what}; {how_words(branch)}"


def how_words(branch: WaitBranch) -> str:
    """Sentences about the goroutines that a branch waits for."""
    words = branch.need.how
    if len(set(branch.on)) > 1:
        for singular, plural in [
            *((f"{{by}} {singular}", f"{{by}} {plural}") for singular, plural in VERBS.items()),
            *SEVERAL.items(),
        ]:
            words = words.replace(singular, plural)
    return words.format(by=of_names(branch.on))


def of_sockets(waiters: list[Waiter]) -> str:
    """Text that names the sockets on which calls wait."""
    numbers = sorted({waiter.call.socket for waiter in waiters if waiter.call})
    if len(numbers) == 1:
        return f"socket {numbers[0]}"
    return f"sockets {listed(numbers)}"


def hang_queries(hang: Hang) -> list[str]:
    """The line to type next, which shows the root's goroutine and the step at which it began to wait."""
    root = hang.root
    queries = [f"goto {max(waiter.since for waiter in hang.roots)}"]
    return [*queries, f"calls sock {root.call.socket}" if root.call and not hang.is_deadlock else "info goroutines"]
