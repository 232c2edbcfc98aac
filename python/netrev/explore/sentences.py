"""Findings as text, in terms of calls."""


from netrev.findings.suspects.rule_loader import LOST_WAKE_UP
from netrev.recording.call import Call
from netrev.recording.recording import Recording
from netrev.run.index import RunIndex
from netrev.text.plurals import counted

from .hangs import moved_by
from .schedules import Delay
from .script import Script
from .search import ScheduleFinding, Search

UNLESS = "possible, unless your program orders these calls by what a recording doesn't show: "
UNKNOWN = "a channel, a mutex, a condition"
IF_RAW = "and only if the function that RawConn was given waits without a try, which isn't recorded"
LEFT_UNKNOWN = "a lock that was free, an atomic"  # what remains unknown if the recorder saw the program's orders


class FindingSentences:
    """Describes findings in terms of the recorded run."""

    def __init__(self, recording: Recording, run: RunIndex, script: Script) -> None:
        self.recording, self.run, self.script = recording, run, script

    def delay(self, delay: Delay) -> str:
        """A delay as text: the goroutine, its place, and the end of the delay."""
        kind, g = self._step(delay.before)
        call = self.call_of(g, delay.before)
        in_call, before = (f", in {self._named(call)},", kind) if call else ("", kind)
        if call and call.first == delay.before:
            in_call, before = "", self._named(call)
        return f"goroutine {g}{in_call} pauses before {before} (step {delay.before}) until {self._until(delay.until)}"

    def unless(self, finding: ScheduleFinding) -> str:
        """The line that says what isn't known about a finding."""
        unless = UNLESS + (UNKNOWN if self.script.orders is None else LEFT_UNKNOWN)
        g = finding.suspect.goroutine if finding.suspect else None
        if g is None or finding.key[0] != LOST_WAKE_UP:
            return unless
        operation = self.script.goroutines[g][finding.run.places[g].operation]
        return f"{unless}; {IF_RAW}" if operation.is_raw else unless

    def _until(self, number: int) -> str:
        if number > self.script.length:
            return "its deadline has passed"
        kind, g = self._step(number)
        if g < 0:
            return f"after {self.recording.step(number)} (step {number})"
        call = self.call_of(g, number)
        in_call = f" in {self._named(call)}" if call else ""
        return f"goroutine {g} has made {kind}{in_call} (step {number})"

    def _step(self, number: int) -> tuple[str, int]:
        step = self.recording.step(number)
        g = step.argument("g")
        return step.kind, -1 if g is None else g

    def call_of(self, g: int, number: int) -> Call | None:
        """The innermost call of a goroutine that includes a step."""
        return self.run.call_of(number, g)

    def _named(self, call: Call) -> str:
        return f"{call.name} on socket {call.socket}"

    def finding(self, at: int, finding: ScheduleFinding, times: int, file: str) -> list[str]:
        """The lines about a finding that was written to a file, except netrev's answer."""
        lines = [f"{at}. {self._head(finding, file)}"]
        delays = finding.schedule.delays
        for delay in delays:
            lines.append(f"   {'and ' if delay != delays[0] else ''}{self.delay(delay)}")
        for number in dict.fromkeys(number for delay in delays for number in delay):
            if words := self.recording.lines.words(number):
                lines.append(f"   Go:     step {number}, {self.recording.step(number).kind}: {words}")
        seed = f", the first by seed {finding.schedule.seed}" if finding.schedule.seed else ""
        lines.append(f"   so ended {counted(times, 'schedule')}{seed}")
        lines.append(f"   {self.unless(finding)}")
        return lines

    def _head(self, finding: ScheduleFinding, file: str) -> str:
        if finding.suspect:
            return f"{finding.suspect.rule}, in {file}: {finding.suspect.sentence()}"
        g = finding.hangs
        operation = self.script.goroutines[g][finding.run.places[g].operation]
        before = [part for part in self.script.goroutines[g][: finding.run.places[g].operation + 1] if part.steps]
        call = self.call_of(g, before[-1].steps[0]) if before else None
        named = self._named(call) if call else f"a call on socket {operation.socket}"
        ended = f", which ended with {call.outcome.value!r} in the recording," if call else ""
        set_at, moved_at = moved_by(self.script, g, finding.run.places[g], finding.run.steps)
        says = f"goroutine {g} is parked without a deadline, since step {moved_at} moved that of step {set_at}"
        return f"{finding.key[0]}, in {file}: {named}{ended} hangs: {says}"


def summary(search: Search, seconds: float, is_stopped: bool) -> str:
    """The number of schedules that were run, and the results."""
    how = f"one delay: {min(search.tried, len(search.delays))} of {len(search.delays)}"
    if search.seed:
        how += f"; two and three: seeds 1 to {search.seed}"
    stopped = "stopped: " if is_stopped else ""
    sentence = f"{stopped}{counted(search.tried, 'schedule')} near the recorded one in {seconds:.1f} s ({how})"
    if search.taken_over:
        sentence += f"; {search.taken_over} of the processes that played them ended early, and nrdb played the rest"
    if search.impossible:
        sentence += f"; in {search.impossible} of them a step didn't apply"
    return f"{sentence}; {counted(len(search.found), 'finding')}" if search.found else f"{sentence}; nothing found"
