"""`finish` and step out between two calls: they continue until the goroutine has left the program's function."""

import pytest

from netrev.recording.recording import Recording
from netrev.run.index import run_of
from netrev.views.calls import Goal, NoDestinationError, finish_goal
from tests.failed_calls.test_causes import CAUSED
from tests.support.examples import EXAMPLES

# Goroutine 0: step 67 ends a Write and step 96 a Read in main.ask, which main.pool.func1 calls; step 98 begins a Write
# in main.ask, which main.pool calls from another line.
POOL = Recording.read(str(CAUSED / "pool-bad.jsonl"))
STEP_OUTSIDE = 98


@pytest.mark.parametrize(("position", "function"), [(67, "main.ask"), (97, "main.ask"), (63, "main.pool.func1")])
def test_between_calls_it_goes_on_to_the_first_step_outside_of_the_function(position: int, function: str) -> None:
    assert run_of(POOL).function_at(0, position) == function
    assert finish_goal(POOL, 0, position) == Goal(STEP_OUTSIDE - 1)


def test_within_a_call_it_goes_to_the_end_of_the_call() -> None:
    goal = finish_goal(POOL, 0, 65)
    assert goal.call is not None
    assert (goal.position, goal.call.name) == (67, "Write")


def test_a_function_that_does_not_return_is_named() -> None:
    with pytest.raises(
        NoDestinationError, match="goroutine 0 isn't in a call, and makes no step after main.ask returns"
    ):
        finish_goal(POOL, 0, POOL.length)


def test_without_lines_of_the_program_it_says_that_there_is_no_call() -> None:
    with pytest.raises(NoDestinationError, match="goroutine 0 isn't in a call$"):
        finish_goal(Recording.read(str(EXAMPLES / "first.jsonl")), 0, 0)
