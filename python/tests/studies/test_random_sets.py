"""Sets by a seed, against the published rules written apart with floats."""

from collections.abc import Iterator
from fractions import Fraction
from itertools import product
from math import exp, log, sqrt
from typing import Any

import pytest
from hypothesis import given
from hypothesis import strategies as st

from rtdvs.errors import DrawFault
from rtdvs.model import TaskSet
from rtdvs.studies import (
    Listed, LogUniform, SetName, published_sets, taken, taken_uniform, uunifast, uunifast_sets,
)

Drawn = list[tuple[int, int]]
DIVISORS = [period for period in range(400, 400001) if 720720 % period == 0]


def drawn(tasks: TaskSet) -> Drawn:
    return [(task.period, task.worst) for task in tasks]


def numbers(seed: int, left_out: int = 0) -> Iterator[float]:
    """The generator of Park and Miller, in floats."""
    while True:
        seed = seed * 48271 % (2**31 - 1)
        if left_out <= 0:
            yield seed / (2**31 - 1)
        left_out -= 1


def nearest(choices: list[int], time: float) -> int:
    """The choice next to a time, the lower one of two."""
    return min(choices, key=lambda choice: (abs(choice - Fraction(time)), choice))


def wanted(count: int, utilisation: Fraction, seed: int, choices: list[int], bounds: tuple[int, int] | None,
           top: int) -> Drawn:
    """Periods and worst cases by the rule of UUniFast; without bounds each choice is equally likely."""
    random = numbers(seed, 11 + int(next(numbers(seed, 10)) * 1000))
    if bounds:
        ratio = log(bounds[1] / bounds[0])
        periods = [nearest(choices, bounds[0] * exp(next(random) * ratio)) for _ in range(count)]
    else:
        periods = [choices[int(next(random) * len(choices))] for _ in range(count)]
    left, worsts = float(utilisation), []
    for place, period in enumerate(periods, 1):
        rest = left * next(random) ** (1 / (count - place)) if place < count else 0.0
        worsts.append(max(1, int((left - rest) * top * period)))
        left = rest
    last = max(range(count), key=lambda i: (periods[i], i))
    rest_of = utilisation * top - sum(Fraction(worsts[i], periods[i]) for i in range(count) if i != last)
    worsts[last] = int(rest_of * periods[last])
    return list(zip(periods, worsts))


SETS = [
    (1, 1000, 1, 1000, LogUniform()), (2, 500, 3, 1000, LogUniform()), (8, 700, 1, 1000, LogUniform()),
    (8, 1000, 2147483646, 100000, LogUniform(400, 400000)), (15, 900, 12, 100000, LogUniform()),
    (64, 1000, 77, 1000000, LogUniform()), (5, 350, 5, 1000, Listed((20, 25, 40, 50, 100, 125))),
    (3, 1, 9, 1000000, LogUniform()), (10, 1000, 4, 100000, LogUniform(1, 16, 5040)),
]


@pytest.mark.parametrize(("count", "thousandths", "seed", "top", "periods"), SETS, ids=str)
def test_uunifast_by_the_rule(count: int, thousandths: int, seed: int, top: int,
                              periods: Listed | LogUniform) -> None:
    utilisation = Fraction(thousandths, 1000)
    tasks = uunifast(count, utilisation, seed, periods, top)
    if isinstance(periods, Listed):
        choices, bounds = list(periods.periods), None
    else:
        bounds = periods.low, periods.high
        choices = [d for d in range(periods.low, periods.high + 1) if periods.multiple % d == 0]
    assert drawn(tasks) == wanted(count, utilisation, seed, choices, bounds, top)
    assert [task.name for task in tasks] == [f"t{i}" for i in range(1, count + 1)]
    share = sum(Fraction(task.worst, task.period) for task in tasks) / top
    assert utilisation - Fraction(1, top * max(task.period for task in tasks)) < share <= utilisation


def test_neighbouring_seeds_give_periods_on_both_sides() -> None:
    seeds, count = 40, 8
    sets = [drawn(uunifast(count, Fraction(1, 2), seed)) for seed in range(1, seeds + 1)]
    for place in range(count):
        short = sum(tasks[place][0] < 100 for tasks in sets)
        assert abs(short - seeds / 2) <= 4 * sqrt(seeds / 4)


def test_shares_have_the_distribution_of_uunifast() -> None:
    """A share is above x of the whole with the probability (1 - x)^(tasks - 1)."""
    sets, count, top, whole = 400, 4, 100000, Fraction(8, 10)
    drawn_sets = (uunifast(count, whole, seed, top=top) for seed in range(1, sets + 1))
    shares = [[Fraction(task.worst, task.period * top) / whole for task in tasks] for tasks in drawn_sets]
    for place in range(count):
        for x in (0.05, 0.2, 0.5):
            chance = (1 - x) ** (count - 1)
            above = sum(row[place] > x for row in shares)
            assert abs(above - sets * chance) <= 4 * sqrt(sets * chance * (1 - chance))


RIGHT: dict[str, Any] = {"count": 1, "utilisation": Fraction(1), "seed": 1}


@pytest.mark.parametrize(("changes", "reason"), [
    ({"count": 0}, "count is 1 to 64"), ({"count": 65}, "count is 1 to 64"),
    ({"utilisation": Fraction(2)}, "utilisation is above 0 and at most 1"),
    ({"utilisation": Fraction(0)}, "utilisation is above 0 and at most 1"),
    ({"seed": 0}, "seed is 1 to 2147483646"), ({"seed": 2**31 - 1}, "seed is 1 to 2147483646"),
    ({"top": 0}, "top is 1 to 1000000"), ({"top": 1000001}, "top is 1 to 1000000"),
    ({"utilisation": Fraction(1, 10**6), "periods": Listed((1,))},
     "no unit is left for the task with the longest period; a higher top may leave one"),
    ({"periods": LogUniform(11, 12, 7)}, "no period from low to high divides the multiple"),
], ids=str)
def test_what_cannot_be_drawn(changes: dict[str, Any], reason: str) -> None:
    with pytest.raises(DrawFault) as fault:
        uunifast(**RIGHT | changes)
    assert str(fault.value) == reason


@pytest.mark.parametrize(("kind", "values"), [
    (Listed, [()]), (Listed, [(0,)]), (Listed, [(2**40 + 1,)]), (Listed, [(2**25 - 39, 2**25 - 1)]),
    (LogUniform, [0, 10, 720720]), (LogUniform, [-5, 10, 720720]), (LogUniform, [11, 10, 720720]),
    (LogUniform, [1, 2**40 + 1, 1]), (LogUniform, [1, 2, 0]),
], ids=str)
def test_periods_that_no_set_can_have(kind: type[Listed | LogUniform], values: list[Any]) -> None:
    with pytest.raises(DrawFault):
        kind(*values)


def published_in_floats(most: int) -> Iterator[tuple[str, Drawn]]:
    """The published draws as their rule says, in floats."""
    random = numbers(2001)

    def time() -> float:
        low = next(random)
        low = 1 if low < 1 / 3 else 10 if low < 2 / 3 else 100
        return low + next(random) * 9 * low

    for count, tenths, number in product((5, 8, 10, 15), range(1, 11), range(1, most + 1)):
        pairs = [(nearest(DIVISORS, time() * 400), time()) for _ in range(count)]
        rates = sum(weight / period for period, weight in pairs)
        yield f"{count}_{tenths}_{number}", [(period, int(tenths * 10000 * weight / rates))
                                             for period, weight in pairs]


def test_published_sets_by_the_rule() -> None:
    exact = [(str(name), drawn(tasks)) for name, tasks in published_sets(3)]
    assert exact == list(published_in_floats(3))
    assert len(exact) == 120


def test_no_published_set_is_above_its_utilisation() -> None:
    for name, tasks in published_sets(2):
        share = sum(Fraction(task.worst, task.period) for task in tasks) / 100000
        assert Fraction(name.tenths, 10) - Fraction(1, 10**7) < share <= Fraction(name.tenths, 10)


def test_uunifast_sets_of_the_evaluation() -> None:
    sets = dict(uunifast_sets(1))
    assert len(sets) == 40
    name = SetName(8, 7, 1)
    seed = 1000000000 + ((2001 * 20 + 8) * 11 + 7) * 1000 + 1
    assert drawn(sets[name]) == wanted(8, Fraction(7, 10), seed, DIVISORS, (400, 400000), 100000)


@given(st.integers(1, 2**31 - 2), st.integers(1, 9))
def test_demands_of_all_jobs(seed: int, tenths: int) -> None:
    tasks = uunifast(3, Fraction(1, 2), 7, Listed((10, 20, 40)))
    random = numbers(seed, 10)
    names = [(task.name, job) for task in tasks for job in range(1, 80 // task.period + 1)]
    worsts = {task.name: task.worst for task in tasks}
    assert dict(taken_uniform(tasks, seed, 80).units) == {
        (name, job): int(next(random) * (worsts[name] + 1)) for name, job in names}
    assert dict(taken(tasks, Fraction(tenths, 10), 80).units) == {
        (name, job): worsts[name] * tenths // 10 for name, job in names}
