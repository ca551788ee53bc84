"""Limits of the tests, by hand and by a model of the three tests."""

from collections.abc import Callable
from dataclasses import replace
from fractions import Fraction
from itertools import cycle
from math import ceil
from pathlib import Path
from typing import Any

import pytest
from hypothesis import given, settings
from hypothesis import strategies as st

from rtdvs.engine import Answer, Call, Engine
from rtdvs.errors import Denied
from rtdvs.model import Machine, Point, Task, TaskSet
from rtdvs.studies import Limits, Listed, LogUniform, confirmed, sensitivity, uunifast
from tests.shared.examples import (
    BOARD, PAPER, Captured, entry, machines, options, printed, refusal, task_sets,
)
from tests.shared.simulated import Simulated

SIMULATED = Simulated(Path("simulated"))


@pytest.mark.parametrize(("tasks", "machine", "test", "wanted"), [
    # In 280 ticks the tasks ask for 12 * 35 + 12 * 28 + 4 * 20 = 836 of 1120 units. The 284 left are 8 * 35,
    # 10 * 28 or 14 * 20 and some more. 16, 16 and 5 units are 1108; a thousandth over 1250 makes it 16, 16
    # and 6, which are 1128. Speed 3 does 840 units, speed 2 only 560.
    (PAPER, BOARD, "edf", Limits(1250, (20, 22, 18), 3)),
    # The levels ask for a of 32 units in 8 ticks, 2a + b of 40 in 10, 2a + 2b + c of 56 in 14: 12, 36 and 52.
    # 13, 13 and 5 are 57. At speed 3 there are 30 and 42.
    (PAPER, BOARD, "rm", Limits(1000, (14, 14, 8), 4)),
    # The last level is complete by tick 8, 10 or 14 if a + b + c is at most 32, 2a + b + c at most 40, or 2a
    # + 2b + c at most 56; the second by 8 or 10 likewise. 13, 13 and 5 are 31; a thousandth over 1083 makes
    # it 14, 13 or 14, and 5. At speed 3 they are 28, 40 and 52 of 24, 30 and 42.
    (PAPER, BOARD, "response", Limits(1083, (16, 16, 8), 4)),
    # 10^15 units in 2^40 ticks are 909.49 a tick. The highest speed does 1099511627776 * 10^6.
    (TaskSet((Task("a", 2**40, 10**15),)), Machine((Point(10**6, 1),)), "edf",
     Limits(1099511, (2**40 * 10**6,), 910)),
    # A unit can grow to all that the highest speed does.
    (TaskSet((Task("a", 2**40, 1),)), Machine((Point(10**6, 1),)), "edf",
     Limits(2**40 * 10**9, (2**40 * 10**6,), 1)),
    # A charge of 2 adds 4 units to each job: a and b ask for 10 and 14 of the 20 units of a period. At 700
    # thousandths they have 5 and 7 without it, at most 12; a thousandth more makes it 5 and 8.
    (TaskSet((Task("a", 10, 6), Task("b", 10, 10))), Machine((Point(2, 1),), charge=2), "edf",
     Limits(700, (2, 6), 3)),
    # The charge of both jobs is 8 units of the 8 there are.
    (TaskSet((Task("a", 2, 1), Task("b", 2, 1))), Machine((Point(4, 1),), charge=2), "rm",
     Limits(None, (None, None), 5)),
    # The highest speed of a machine file does 10^6 units in the one tick.
    (TaskSet((Task("a", 1, 10**6 + 1),)), Machine((Point(7, 1),)), "edf", Limits(None, (7,), None)),
], ids=[
    "the paper, edf", "the paper, rm", "the paper, response",
    "rounded down", "a unit", "a charge", "all charge", "over the speed"])
def test_by_hand(engine: Engine, tasks: TaskSet, machine: Machine, test: str, wanted: Limits) -> None:
    assert sensitivity(engine, tasks, machine, test) == wanted


def admitted(tasks: TaskSet, charge: int, top: int, test: str) -> bool:
    """Whether a test admits the tasks at a highest speed, by its definition."""
    need = {task: task.worst + 2 * charge for task in tasks}
    if test == "edf":
        return sum(Fraction(units, task.period) for task, units in need.items()) <= top
    order = sorted(tasks, key=lambda task: task.period)
    levels = [order[:place] for place in range(1, len(order) + 1)]
    if test == "rm":
        return all(work(level, need, level[-1].period) <= top * level[-1].period for level in levels)
    return all(any(work(level, need, tick) <= top * tick for tick in range(1, level[-1].period + 1))
               for level in levels)


def work(level: list[Task], need: dict[Task, int], ticks: int) -> int:
    """The units that are released before a tick, all tasks together from tick 0 on."""
    return sum(ceil(Fraction(ticks, task.period)) * need[task] for task in level)


def with_worsts(tasks: TaskSet, worsts: list[int]) -> TaskSet:
    return TaskSet(tuple(replace(task, worst=worst) for task, worst in zip(tasks, worsts)))


@settings(max_examples=4)
@given(tasks=task_sets(3, st.integers(1, 12), st.integers(1, 30)), machine=machines(1, 9, 2))
@pytest.mark.parametrize("test", ["edf", "rm", "response"])
def test_each_limit_is_right(engine: Engine, tasks: TaskSet, machine: Machine, test: str) -> None:
    """It is admitted, and one more is not."""
    limits, charge, top = sensitivity(engine, tasks, machine, test), machine.charge, machine.top_speed
    now = [task.worst for task in tasks]

    def scaled(thousandths: int) -> bool:
        worsts = [ceil(Fraction(worst * thousandths, 1000)) for worst in now]
        return admitted(with_worsts(tasks, worsts), charge, top, test)

    def alone(place: int, units: int) -> bool:
        return admitted(with_worsts(tasks, [*now[:place], units, *now[place + 1:]]), charge, top, test)

    assert limits.thousandths is None or scaled(limits.thousandths)
    assert not scaled((limits.thousandths or 0) + 1)
    for place, most in enumerate(limits.worsts):
        assert most is None or alone(place, most)
        assert not alone(place, (most or 0) + 1)
    assert limits.speed is not None and admitted(tasks, charge, limits.speed, test)
    assert limits.speed == 1 or not admitted(tasks, charge, limits.speed - 1, test)


class Counting(Simulated):
    """The package's simulator as a program, whose calls are counted."""

    calls = 0

    def answer(self, call: Call[Any]) -> Answer:
        type(self).calls += 1
        return super().answer(call)


@pytest.mark.parametrize(("test", "periods"), [
    pytest.param("edf", LogUniform(), id="edf"), pytest.param("rm", LogUniform(), id="rm"),
    pytest.param("response", Listed((10, 20, 25, 40)), id="response"),
])
def test_two_calls_a_limit(test: str, periods: Listed | LogUniform, monkeypatch: pytest.MonkeyPatch) -> None:
    """A bisection of 64 tasks would take more than two thousand."""
    monkeypatch.setattr(Counting, "calls", 0)
    tasks, machine = uunifast(64, Fraction(6, 10), 1, periods, 100_000), Machine((Point(100_000, 1),))
    sensitivity(Counting(Path("counting")), tasks, machine, test)
    assert Counting.calls == 1 + 2 * (64 + 2)


@settings(max_examples=20)
@given(tasks=task_sets(3, st.integers(1, 12), st.integers(1, 30)), machine=machines(1, 9, 2))
@pytest.mark.parametrize("test", ["edf", "rm", "response"])
def test_each_limit_by_the_simulator(tasks: TaskSet, machine: Machine, test: str) -> None:
    test_each_limit_is_right.hypothesis.inner_test(SIMULATED, tasks, machine, test)  # type: ignore[attr-defined]


@given(st.integers(1, 200).flatmap(lambda above: st.tuples(st.just(above), st.integers(0, above - 1))),
       st.lists(st.integers(-5, 250), min_size=1, max_size=12))
def test_any_guess_ends_at_the_limit(bounds: tuple[int, int], guesses: list[int]) -> None:
    """If the first one is right there are at most two calls."""
    (above, limit), asked, given_ones = bounds, list[int](), cycle(guesses)

    def holds(number: int) -> bool:
        assert 0 < number < above and number not in asked
        asked.append(number)
        return number <= limit

    assert confirmed(above, holds, lambda: next(given_ones)) == (limit or None)
    assert guesses[0] != limit or len(asked) <= 2


def test_an_offset_has_no_response(engine: Engine) -> None:
    with pytest.raises(Denied, match="denied offset a"):
        sensitivity(engine, TaskSet((Task("a", 10, 6, 1),)), BOARD, "response")


Words = Callable[[str, str, str], list[object]]


@pytest.fixture
def call(program: Path, tmp_path: Path) -> Words:
    """The command's words for the texts of a task file and a machine file, and a test."""
    def words(tasks: str, machine: str, test: str) -> list[object]:
        (tmp_path / "tasks.toml").write_text(tasks)
        (tmp_path / "machine.toml").write_text(machine)
        return ["sensitivity", "--program", program, "--test", test, *options(tmp_path)]
    return words


@pytest.mark.parametrize(("tasks", "machine", "line"), [
    (entry(), "idle = 5000\n" + entry("point"), "machine: idle out of range"),
    (entry(), entry("point", millivolts="50000"), "machine: point 1: millivolts out of range"),
    (entry(period="0"), entry("point"), "tasks: task 1: period out of range"),
    (entry(worst="0"), entry("point"), "tasks: task 1: worst out of range"),
])
def test_a_file_that_the_program_refuses(call: Words, capsys: Captured, tasks: str, machine: str, line: str) -> None:
    assert refusal(capsys, call(tasks, machine, "edf")).startswith(f"rtdvs: {line}\n  Line ")


@pytest.mark.parametrize(("tasks", "machine", "test", "lines"), [
    # Quoted keys and inline tables.
    ('task = [{ "name" = "a", period = 10, worst = 6 }, { name = "b", period = 10, worst = 10 }]',
     '"charge" = 2\npoint = [{ speed = 2, millivolts = 1 }]', "edf",
     "of               in             now  limit\nall worst cases  thousandths   1000    700\n"
     "a                work units       6      2\nb                work units      10      6\n"
     "highest speed    units a tick     2      3\n"),
    # No number is enough: the charge alone is 40 units in 4 ticks.
    (entry(), "charge = 20\n" + entry("point"), "rm",
     "of               in             now  limit\nall worst cases  thousandths   1000      -\n"
     "a                work units       2      -\nhighest speed    units a tick     2     11\n"),
])
def test_printed(call: Words, capsys: Captured, tasks: str, machine: str, test: str, lines: str) -> None:
    assert printed(capsys, call(tasks, machine, test)) == lines
