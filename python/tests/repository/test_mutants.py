"""`make mutants`: the mutants of a module, the tests to try against them, and the name of a test that notices a
mutant."""

import ast
from dataclasses import replace
from pathlib import Path

import pytest

from mutating import equivalent
from mutating.changes import FORGOTTEN, KINDS, Mutant, can_compile, mutants_of
from mutating.go_changes import go_mutants_of
from mutating.recorded_calls import name_of, qualified
from mutating.server import changed_codes, codes_in
from mutating.topics import OVERRIDES, Test, Topics, digest, read_overrides
from mutating.trials import all_mutants, drawn

ROOT = Path(__file__).resolve().parents[3]
HOLDERS = "python/netrev/run/searches.py"
SOURCE = '''
"""A docstring with 1 < 2."""
MOST = 3

def waits(goroutine: int, side: str = "r") -> int:
    assert goroutine < 5
    if goroutine < MOST and side == "r":
        goroutine += 1
    seen.append(goroutine)
    return max(goroutine, 0)
'''


@pytest.fixture
def module(tmp_path: Path) -> Path:
    path = tmp_path / "waits.py"
    path.write_text(SOURCE)
    return path


def test_the_mutants_of_a_module(module: Path) -> None:
    mutants = list(mutants_of(module.parent, module))
    assert all(can_compile(mutant, SOURCE) and ast.unparse(ast.parse(mutant.applied(SOURCE))) for mutant in mutants)
    changes = {(mutant.kind, mutant.old, mutant.new) for mutant in mutants}
    assert changes >= {
        ("comparison", "<", "<="), ("comparison", "<", ">="), ("comparison", "==", "!="), ("comparison", "and", "or"),
        ("dropped case", "goroutine < MOST", "True"), ("dropped case", 'goroutine < MOST and side == "r"', "False"),
        ("swapped sides", "max", "min"), ("swapped sides", '"r"', '"w"'), ("off by one", "3", "4"), ("off by one", "+=", "-="),
        ("forgotten", "goroutine += 1", "pass"), ("forgotten", "seen.append(goroutine)", "pass"),
    }  # fmt: skip
    assert not any("assert" in mutant.source or "docstring" in mutant.source for mutant in mutants)
    assert {mutant.function for mutant in mutants if mutant.is_inside} == {"waits"}


def test_the_mutants_of_a_file_of_go(tmp_path: Path) -> None:
    path = tmp_path / "wait.go"
    path.write_text(
        "package p\n\nfunc wait(n int) bool {\n\tif n < 3 {\n\t\tcount++ // n < 3\n\t}\n\treturn n == 1\n}\n"
    )
    changes = {(mutant.old, mutant.new, mutant.line) for mutant in go_mutants_of(tmp_path, path)}
    assert changes >= {(" < ", " <= ", 4), ("n < 3", "false", 4), ("++", "--", 5), (" == ", " != ", 7)}
    assert (" < ", " <= ", 5) not in changes


def test_a_draw_is_of_its_seed_and_has_each_kind() -> None:
    mutants = list(
        all_mutants(
            ROOT,
            ["python/netrev/run/searches.py", "python/netrev/run/timers.py", "python/netrev_go/steps/converter.py"],
        )
    )
    first, second = ([mutant.name() for mutant in drawn(mutants, 25, seed)] for seed in (1, 2))
    assert first == [mutant.name() for mutant in drawn(mutants, 25, 1)] and first != second
    assert [mutant.kind for mutant in drawn(mutants, 25, 1)] == [*KINDS] * 5


def test_a_mutant_s_code_is_put_into_its_function_alone(module: Path) -> None:
    (mutant,) = (mutant for mutant in mutants_of(module.parent, module) if mutant.new == "<=")
    changed = changed_codes(str(module), SOURCE, mutant.applied(SOURCE))
    assert {code.co_name for code in changed.values()} == {"<module>", "waits"}


def of_tests(most: float = 60) -> tuple[Topics, Mutant]:
    """Tests of the functions of a module, and a mutant of its function `holders_of`."""
    mutant = next(
        mutant for mutant in all_mutants(ROOT, [HOLDERS]) if mutant.code == "holders_of" and mutant.kind == FORGOTTEN
    )
    called = {
        "a.py::test_slow": (5.0, f"{HOLDERS}|holders_of"), "b.py::Kept::test_that": (1.0, f"{HOLDERS}|holders_of"),
        "b.py::Kept::test_those[1]": (0.5, f"{HOLDERS}|holders_of"), "c.py::test_other": (0.1, f"{HOLDERS}|other"),
        "d.py::test_of_another_file": (0.2, "python/netrev/run/timers.py|holders_of"),
    }  # fmt: skip
    tests = [Test(name, seconds, frozenset([function])) for name, (seconds, function) in called.items()]
    return Topics(tests, most, [("*/log/*", ["a.py"]), ("*.go", ["c.py"])]), mutant


def names_of(topics: Topics, mutant: Mutant) -> list[str]:
    return [test.name for test in topics.tests_of(mutant)]


def test_the_tests_of_a_mutant_call_its_function_and_the_quickest_class_comes_first() -> None:
    topics, mutant = of_tests()
    assert names_of(topics, mutant) == ["b.py::Kept::test_those[1]", "b.py::Kept::test_that", "a.py::test_slow"]
    topics, mutant = of_tests(6.4)
    assert names_of(topics, mutant) == ["b.py::Kept::test_those[1]", "b.py::Kept::test_that"]


def test_the_tests_of_a_mutant_of_a_module_call_any_function_of_it() -> None:
    topics, mutant = of_tests()
    assert "c.py::test_other" in names_of(topics, replace(mutant, is_inside=False, code=""))
    assert names_of(topics, replace(mutant, code="new")) == ["c.py::test_other", *names_of(topics, mutant)]
    topics, mutant = of_tests(8)
    assert names_of(topics, replace(mutant, code="new")) == [
        "c.py::test_other",
        "b.py::Kept::test_those[1]",
        "b.py::Kept::test_that",
    ]
    assert names_of(topics, replace(mutant, file="python/netrev/recording/cell_meanings.py")) == []


def test_the_first_pattern_that_fits_names_the_tests_of_a_file_of_go() -> None:
    topics, _ = of_tests()
    assert topics.files_of("go/log/runtime.go") == ["a.py"] and topics.files_of("go/points.go") == ["c.py"]
    assert topics.files_of("go/points.txt") == []


def test_the_code_of_a_mutant_is_its_innermost_function(tmp_path: Path) -> None:
    path = tmp_path / "nested.py"
    path.write_text(
        "class Waits:\n    def of(self):\n        def look(step):\n            return step < 1\n        return look\n"
    )
    (mutant,) = (mutant for mutant in mutants_of(tmp_path, path) if mutant.new == "<=")
    assert (mutant.function, mutant.code) == ("Waits.of", "Waits.of.<locals>.look")
    code = next(code for code in codes_in(compile(path.read_text(), str(path), "exec")) if code.co_name == "look")
    folder = f"{tmp_path}/"
    assert name_of(code, folder) == "" and qualified("Waits.of.<locals>.<lambda>") == "Waits.of"
    inside = code.replace(co_filename=f"{folder}python/nrdb/nested.py")
    assert name_of(inside, folder) == "python/nrdb/nested.py|Waits.of.<locals>.look"


def test_topics_name_tests_that_exist() -> None:
    for pattern, tests in read_overrides(OVERRIDES.read_text(encoding="utf-8")):
        assert list(ROOT.glob(pattern)) and all((ROOT / test.partition("::")[0]).is_file() for test in tests), pattern


def test_mutants_that_change_nothing_exist_and_have_reasons() -> None:
    known = equivalent.read()
    names = {
        mutant.name() for file in {name.partition("|")[0] for name in known} for mutant in all_mutants(ROOT, [file])
    }
    assert all(reason and name in names for name, reason in known.items())


def test_a_file_of_tests_has_changed_if_its_code_has(tmp_path: Path) -> None:
    path = tmp_path / "test_waits.py"
    found = []
    for text in (
        '"""One."""\n\ndef test() -> None:\n    """Two."""\n    assert 1\n',
        "def test() -> None:\n    assert 1  # three\n",
        "assert 1\n",
    ):
        path.write_text(text)
        found.append(digest(path))
    assert found[0] == found[1] != found[2]
