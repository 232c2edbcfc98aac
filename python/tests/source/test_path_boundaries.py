"""The rules about loops' variables, contexts, timeouts and bodies that stay open, clause by clause: a row for each
clause that doesn't hold, and for each side of a boundary."""

from pathlib import Path
from types import SimpleNamespace as Made
from typing import Any, cast

import pytest

from netrev.findings.causes import failed_calls
from netrev.findings.evidence.need import Need
from netrev.findings.http import cancellations
from netrev.findings.pools import leaking_paths
from netrev.recording.call import Outcome
from netrev.recording.goroutines import CLOSED, PUT, At, ObjectUse, Park
from netrev.recording.where import OF_A_LIBRARY, OF_GO, OF_THE_PROGRAM, SourceCall, Stack
from tests.failed_calls.test_cause_boundaries import line_of

Patch = pytest.MonkeyPatch


class NoLooks:
    """A recording in which goroutines wait."""

    def __init__(self, lines: Any) -> None:
        self.lines = lines


@pytest.mark.parametrize(
    "change, says",
    [
        ({}, True), ({"last": 3}, True), ({"last": 2}, False), ({"last": 5}, True), ({"last": 6}, False), ({"by": 0}, False), ({"closer": 9}, False), ({"what": PUT}, False),
        ({"object": 6}, False), ({"goid": 8}, False), ({"at": ()}, False), ({"at": (6, 5)}, True), ({"at": (6,)}, False),
    ],
)  # fmt: skip
def test_a_close_that_woke_a_goroutine(change: dict[str, Any], says: bool) -> None:
    case = Made(**({"last": 4, "by": 2, "closer": 2, "what": CLOSED, "object": 5, "goid": 7, "at": (5,)} | change))
    park = Park(
        case.goid, 1, case.last, 10, 20, "select", 4, case.by, tuple(At(address, "for a value") for address in case.at)
    )
    uses = {5: [], 6: [], case.object: [ObjectUse(case.object, case.closer, case.what, 4, 1, 4, 4, 15, 15)]}
    stack = Stack((line_of(0, "runtime.selectgo", of=OF_GO), line_of(0, "context.wait"), line_of(3, "main.look")), None)
    lines = Made(uses=uses, parks={case.goid: [park]}, stacks={4: stack})
    found = list(cancellations.found_closed(cast(Any, NoLooks(lines)), 7, 3, 6))
    assert found == ([cancellations.Found(5, 20, "main.look")] if says else [])


SET = "A deadline in the past was set at a.go:7, "
HERE = "Its deadline was set at a.go:7, 5 ns ahead"
ENDED = "It ended."


@pytest.mark.parametrize(
    "change, says",
    [
        ({}, [f"{HERE}.", "Need was.", "More was.", "chain was."]),
        ({"dropped": ["dropped"]}, [f"{HERE}.", "Need was.", "dropped"]), ({"cut": ["cut"]}, [f"{HERE}.", "Need was.", "cut"]), ({"shared": ["shared"]}, [f"{HERE}.", "Need was.", "shared"]),
        ({"time": -5}, [f"{SET}before it began.", "endless"]), ({"time": -5, "cause": 9}, [f"{SET}while it waited.", "endless"]),
        ({"time": -5, "endless": []}, [f"{SET}before it began."]),
        ({"cause": 9}, ["Its deadline was set at a.go:7, while it waited, 5 ns ahead.", "endless"]), ({"cause": 9, "endless": []}, ["Its deadline was set at a.go:7, while it waited, 5 ns ahead.", "found"]),
        ({"cause": 9, "cut": ["cut"]}, ["Its deadline was set at a.go:7, while it waited, 5 ns ahead.", "cut"]),
        ({"under": "w"}, [f"{HERE}; 1 Read went well under it, and nobody has moved it since.", "endless"]), ({"under": "t"}, [f"{HERE}; 1 Read had timed out by it before, and nobody has moved it since.", "endless"]),
        ({"under": "wwt"}, [f"{HERE}; 2 Reads went well under it and 1 Read had timed out by it before, and nobody has moved it since.", "endless"]),
        ({"under": "e"}, [f"{HERE}.", "Need was.", "More was.", "chain was."]), ({"listens": True}, [f"{HERE}.", "endless"]),
        ({"passed": 7}, [f"{HERE}.", "It had passed before the Read began. between"]), ({"passed": 8}, [f"{HERE}.", "Need was.", "More was.", "chain was."]),
        ({"passed": 1}, [f"{HERE}.", "It had passed before the Read began. between"]),
        ({"is_write": True}, [f"{HERE}.", "Need was.", "More was.", "chain was.", "That is the WriteTimeout of its http.Server."]),
        ({"is_server": True}, [f"{HERE}.", "Need was.", "More was.", "chain was.", "That is a ReadTimeout, ReadHeaderTimeout, WriteTimeout or IdleTimeout of its http.Server."]),
        ({"is_write": True, "is_server": True}, [f"{HERE}.", "Need was.", "More was.", "chain was.", "That is the WriteTimeout of its http.Server."]),
    ],
)  # fmt: skip
def test_the_sentences_about_a_timeout(change: dict[str, Any], says: list[str], monkeypatch: Patch) -> None:
    usual = {
        "time": 5, "cause": 4, "under": "", "listens": False, "passed": 0, "cut": [], "shared": [], "dropped": [], "endless": ["endless"],
        "is_write": False, "is_server": False,
    }  # fmt: skip
    case = Made(**(usual | change))
    outcomes = {"w": Outcome.DONE, "t": Outcome.TIMED_OUT, "e": Outcome.CLOSED}
    before = [Made(outcome=outcomes[letter], is_well=letter == "w") for letter in case.under]
    arguments = {"g": 2, "time": case.time}
    call = cast(Any, Made(name="Read", cause=case.cause, first=8, last=20, passed=case.passed, descriptor=3))
    need = Need(["Need is."], stopped=12, more=["More is."])
    replaced = {
        "place_of_step": lambda recording, step, goroutine: f" at a.go:{7 if (step, goroutine) == (case.cause, 2) else 0}",
        "went_well": lambda letter: letter.is_well, "cut_sentence": lambda index, call, step: case.cut * (step == 20), "shared_sentence": lambda *rest: case.shared,
        "dropped_datagram": lambda *rest: case.dropped, "chain_sentence": lambda index, call, known, step: ["chain is."] * (known is need and step == 20),
        "in_the_past": lambda text: text.replace(" is", " was"), "endless_sentence": lambda *rest: case.endless, "found_sentence": lambda *rest: ["found"],
        "between": lambda *rest: " between", "is_of_write_timeout": lambda *rest: case.is_write, "is_of_a_server": lambda stack: case.is_server,
        "name_of": lambda recording, call: call.name,
        "Needs": lambda index, waits, step: Made(of_call=lambda call: need if step == 20 else None),
    }  # fmt: skip
    for name, value in replaced.items():
        monkeypatch.setattr(failed_calls, name, value)
    recording = Made(
        step=lambda step: Made(argument=arguments.__getitem__), lines=Made(of=lambda step: None), rows=None
    )
    index = Made(
        recording=recording, under_its_deadline=lambda letter: before, is_listening=lambda letter: case.listens
    )
    found = failed_calls.of_timeout(cast(Any, index), call, "It ended")
    assert found.says == [ENDED, *says]
    assert found.looks == [f"goto {case.cause}", "history rd 3"] and found.steps == [8, case.cause]
    has_need = "Need was." in says
    assert found.stopped == (12 if has_need else 0) and found.beyond == ["chain was."] * ("chain was." in says)
    call.name = "Write"
    assert failed_calls.of_timeout(cast(Any, index), call, "It ended").looks[1] == "history wd 3"


GETS = """\
package main

func fetch() {
	resp, err := get(url)
	if err != nil {
		return
	}
	if bad {
		return
	}
	resp.Body.Close()
}

func get(url string) (*http.Response, error) {
	resp, err := client.Do(url)
	return resp, err
}
"""
OPEN = "Perhaps it was left open on this way: {}a.go:{} returns without a Close of the body."
CLOSING = "\tif bad {\n\t\treturn nil, nil\n\t}\n\tresp.Body.Close()\n\treturn nil, err"


@pytest.mark.parametrize(
    "old, new, stacks, expected",
    [
        ("", "", ["fetch:4"], [9]), ("", "", ["get:15 fetch:4"], [9]), ("", "", ["get:15"], []), ("", "", [], []), ("", "", ["fetch:4", "get:15 fetch:4"], [9]),
        ("", "", ["fetch:5"], []), ("", "", ["fetch:5 fetch:4"], [9]), ("", "", ["fetch:4", "get:15"], [9]), ("", "", ["fetch.lib:4"], []), ("", "", ["get.lib:15 fetch:4"], [9]),
        ("\treturn resp, err", CLOSING, ["get:15 fetch:4"], [17]), ("\treturn resp, err", CLOSING, ["get:15", "fetch:4"], [17, 9]),
        ("\treturn resp, err", "\tresp.Body.Close()\n\treturn nil, err", ["get:15 fetch:4"], []), ("\treturn resp, err", "\tio.Copy(w, resp.Body)", ["get:15 fetch:4"], []),
        ("\t\treturn\n\t}\n\tresp.", "\t\tuse(resp)\n\t\treturn\n\t}\n\tresp.", ["fetch:4"], []), ("\t\treturn\n\t}\n\tresp.", "\t\treturn resp.Body\n\t}\n\tresp.", ["fetch:4"], []),
        ("\t\treturn\n\t}\n\tresp.", "\t\tfmt.Fprintln(resp)\n\t\treturn\n\t}\n\tresp.", ["fetch:4"], [10]), ("\tresp.Body.Close()", "\tother.Body.Close()", ["fetch:4"], []),
    ],
)  # fmt: skip
def test_the_function_that_leaves_a_body_open(
    tmp_path: Path, old: str, new: str, stacks: list[str], expected: list[int]
) -> None:
    file = tmp_path / "a.go"
    file.write_text(GETS.replace(old, new, 1) if old else GETS, encoding="utf-8")
    recording = cast(Any, Made(lines=Made(written=float("inf"))))
    requests = []
    for stack in stacks:
        parts = [word.partition(":") for word in stack.split()]
        requests.append(
            Stack(
                tuple(
                    SourceCall(f"main.{name}", str(file), int(line), OF_A_LIBRARY if ".lib" in name else OF_THE_PROGRAM)
                    for name, _, line in parts
                ),
                None,
            )
        )
    found = leaking_paths.paths_past_close(recording, requests)
    assert found == [OPEN.format(f"{tmp_path}/", number) for number in expected]


def test_two_functions_that_leave_bodies_open_are_named(tmp_path: Path) -> None:
    file, source = tmp_path / "a.go", GETS.partition("\n\nfunc get")[0]
    function = source.partition("package main\n\n")[2]
    file.write_text(f"{source}\n{function}\n{function}\n", encoding="utf-8")
    stacks = [Stack((SourceCall("main.fetch", str(file), line, OF_THE_PROGRAM),), None) for line in (4, 14, 24)]
    recording = cast(Any, Made(lines=Made(written=float("inf"))))
    found = leaking_paths.paths_past_close(recording, stacks)
    assert found == [OPEN.format(f"{tmp_path}/", number) for number in (9, 19)]
