"""For small recordings, runs each schedule in two ways: from its beginning, and from a copy of the recorded run.
Both runs must have the same steps."""

import pytest

from netrev.explore.scheduler import Scheduler
from netrev.explore.script import script_of
from netrev.explore.search import Search
from tests.suspects.test_suspects import COMES, OPEN, PARK, READ, USED_AGAIN, Steps, recording_of

from .test_exploring import ENDS, GOOD, SETS

ANEW: Steps = [["sockopen", 16, 16], ["pollopen", 0, 1]]
CLOSES: Steps = [["increfclose", 0, 0], ["evict", 0, 0], ["decref", 0, 0], ["pollclose", 0, 0]]
GOES_ON: Steps = [["blockswap", 1], ["sysread", 1, 0, 16], *ENDS]
WRITES: Steps = [["rwlock", 0, 0, "w"], ["pollreset", 0, 0, "w"], ["syswrite", 0, 0, "6869"], ["rwunlock", 0, 0, "w"]]
BOTH_READ: Steps = [["rwlock", 0, 0, "r"], ["pollreset", 0, 0, "r"], ["rwlock", 1, 0, "r"], ["acquire", 1], ["sysread", 0, 0, 1], ["rwunlock", 0, 0, "r"], ["release", 0], ["acquire", 1], ["rwlock", 1, 0, "r"], ["pollreset", 1, 0, "r"], ["sysread", 1, 0, 1], ["rwunlock", 1, 0, "r"]]  # fmt: skip
RUNS: dict[str, Steps] = {
    "a deadline that is taken back": GOOD,
    "bytes that come": OPEN + READ + PARK + COMES + GOES_ON + WRITES,
    "a close that ends a read": OPEN + READ + PARK + CLOSES[:2] + [["blockswap", 1], ["waitcheck", 1], *ENDS, CLOSES[2], CLOSES[3]],
    "a read that frees the descriptor": OPEN + READ + PARK + CLOSES[:3] + [["blockswap", 1], ["waitcheck", 1], *ENDS, ["pollclose", 1, 0]],
    "a descriptor that is freed later": OPEN + READ + PARK + CLOSES[:3] + [["blockswap", 1], ["waitcheck", 1], *ENDS, ["pollclose", 1, 0]] + ANEW + [["increfclose", 0, 1], ["evict", 0, 0], ["decref", 0, 1], ["pollclose", 0, 0], ["rwlock", 0, 0, "r"]],
    "another socket": OPEN + COMES + READ + ENDS + ANEW + SETS + WRITES + [["incref", 1, 1], ["decref", 1, 1]],
    "a descriptor that is used again": OPEN + COMES + READ + ENDS + USED_AGAIN + [["rwlock", 1, 1, "r"], ["pollreset", 1, 0, "r"], ["arrive", 1, "61"], ["sysread", 1, 1, 8], ["rwunlock", 1, 1, "r"]],
    "two readers": OPEN + [["arrive", 0, "6162"], ["pollevent", 0, 1, "r", 0]] + BOTH_READ,
    "a goroutine that begins later": OPEN + COMES + READ + ENDS + [["spawn"], ["incref", 2, 0], ["decref", 2, 0]] + SETS,
    "a deadline that passes": OPEN + [["incref", 0, 0], ["setdeadline", 0, 0, "r", 5], ["decref", 0, 0]] + READ + PARK + [["tick", 7], ["pop"], ["fire", 0], ["blockswap", 1], ["waitcheck", 1], *ENDS],
}  # fmt: skip


@pytest.mark.parametrize("name", RUNS)
def test_a_schedule_is_the_same_with_and_without_the_recorded_run(name: str) -> None:
    recording = recording_of(RUNS[name])
    exploring = Search(script_of(recording), lambda number: "")
    assert [made.number for made in exploring.recorded.steps][: recording.length] == list(
        range(1, recording.length + 1)
    )
    for at, delay in enumerate(exploring.delays):
        others = exploring.delays[at + 1 : at + 4]
        for delays in ((delay,), *((delay, other) for other in others if other.before > delay.before)):
            player = Scheduler(exploring.script, delays)
            player.finish(1_000)
            played = exploring.run_schedule(delays)
            if played is None:
                assert player.state.machine.world().goroutines == exploring.recorded.world.goroutines
                assert player.places == exploring.recorded.places
            else:
                assert played.steps == player.steps, delays
                assert (played.world, played.places) == (player.state.machine.world(), player.places)
                assert (played.sockets, played.has_news) == (player.state.sockets, player.has_news)
    assert exploring.delays
