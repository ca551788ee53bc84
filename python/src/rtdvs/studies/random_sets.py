"""Random task sets and demands by a seed: UUniFast, and those of the published evaluation.

All numbers are drawn by the generator of Park and Miller (1988) with the factor 48271: a state over 2^31 - 1
is a number above 0 and below 1. UUniFast needs logarithms and powers, so it uses floats of 64 bits;
everything else is whole numbers.
"""

import bisect
from collections.abc import Iterator, Sequence
from dataclasses import dataclass
from fractions import Fraction
from itertools import islice
from math import exp, floor, isqrt, lcm, log

from rtdvs.errors import DrawFault
from rtdvs.model import LONGEST_HYPERPERIOD, LONGEST_TIME, MOST_SPEED, MOST_TASKS, Demands, Task, TaskSet, jobs_of

MODULUS = 2**31 - 1
FACTOR = 48271
MOST_SEED = MODULUS - 1
PUBLISHED_TICKS = 720720
"""The length of a published run: 2^4 * 3^2 * 5 * 7 * 11 * 13 ticks, a multiple of every period."""


def require(condition: bool, reason: str) -> None:
    """Raises a DrawFault with the reason unless the condition holds.

    >>> require(1 > 2, "count is 1 to 64")
    Traceback (most recent call last):
    rtdvs.errors.DrawFault: count is 1 to 64
    """
    if not condition:
        raise DrawFault(reason)


def states(seed: int) -> Iterator[int]:
    """The states of the generator after a seed, each 1 to 2^31 - 2.

    >>> list(islice(states(1), 3))
    [48271, 182605794, 1291394886]
    """
    while True:
        seed = seed * FACTOR % MODULUS
        yield seed


def unrelated_states(seed: int) -> Iterator[int]:
    """The states after a seed without the first ones, so that neighbouring seeds give unrelated numbers.

    Eleven are left out, and then as many as the last of these is in thousandths.

    >>> next(unrelated_states(1)) == next(islice(states(1), 11 + 89, None))
    True
    """
    stream = states(seed)
    last = next(islice(stream, 10, None))
    return islice(stream, last * 1000 // MODULUS, None)


def drawn(stream: Iterator[int], count: int) -> int:
    """A whole number from 0 to below `count`, by the next state.

    >>> drawn(states(1), 1000), drawn(states(2001), 1000)
    (0, 44)
    """
    return next(stream) * count // MODULUS


def divisors(number: int, low: int, high: int) -> tuple[int, ...]:
    """The divisors of a number from `low` to `high`, rising.

    >>> divisors(60, 4, 20)
    (4, 5, 6, 10, 12, 15, 20)
    """
    small = [d for d in range(1, isqrt(number) + 1) if number % d == 0]
    return tuple(sorted(d for d in {*small, *(number // d for d in small)} if low <= d <= high))


def nearest(choices: tuple[int, ...], wanted: Fraction) -> int:
    """The nearest of the rising choices, the lower of two that are equally near.

    >>> nearest((10, 20, 40), Fraction(15)), nearest((10, 20, 40), Fraction(31))
    (10, 40)
    """
    after = bisect.bisect_left(choices, wanted)
    return min(choices[max(after - 1, 0):after + 1], key=lambda choice: abs(choice - wanted))


@dataclass(frozen=True, slots=True)
class Listed:
    """Periods in ticks, each equally likely; DrawFault if a task set can't have them.

    >>> Listed((10, 20)).draw(3, states(1))
    [10, 10, 20]
    """

    periods: tuple[int, ...]

    def __post_init__(self) -> None:
        require(len(self.periods) > 0 and all(1 <= period <= LONGEST_TIME for period in self.periods),
                f"a period is 1 to {LONGEST_TIME}")
        require(lcm(*self.periods) <= LONGEST_HYPERPERIOD,
                f"the periods have no common multiple up to {LONGEST_HYPERPERIOD}")

    def draw(self, count: int, stream: Iterator[int]) -> list[int]:
        """A number of periods in ticks, by the next states."""
        return [self.periods[drawn(stream, len(self.periods))] for _ in range(count)]


@dataclass(frozen=True, slots=True)
class LogUniform:
    """Periods in ticks whose logarithm is uniform from that of `low` to that of `high`; DrawFault if none is.

    Each becomes the nearest divisor of `multiple` from `low` to `high`, so that their common multiple stays
    small.

    >>> LogUniform(low=10, high=1000).draw(3, states(1))
    [10, 15, 156]
    """

    low: int = 10
    high: int = 1000
    multiple: int = PUBLISHED_TICKS

    def __post_init__(self) -> None:
        require(1 <= self.low <= self.high <= LONGEST_TIME, f"low is 1 to high, and high at most {LONGEST_TIME}")
        require(1 <= self.multiple <= LONGEST_HYPERPERIOD, f"multiple is 1 to {LONGEST_HYPERPERIOD}")

    def draw(self, count: int, stream: Iterator[int]) -> list[int]:
        """A number of periods in ticks, by the next states; raises DrawFault if none divides the multiple."""
        choices = divisors(self.multiple, self.low, self.high)
        require(len(choices) > 0, "no period from low to high divides the multiple")
        width = log(self.high / self.low)
        times = (self.low * exp(state / MODULUS * width) for state in islice(stream, count))
        return [nearest(choices, Fraction(time)) for time in times]


def uunifast_shares(count: int, utilisation: Fraction, stream: Iterator[int]) -> list[float]:
    """Shares uniform over all that add up to the utilisation.

    What is left for the tasks after each one is drawn with the density of the sum of their shares.

    >>> [round(share, 3) for share in uunifast_shares(2, Fraction(1, 2), states(1))]
    [0.5, 0.0]
    """
    sums = [float(utilisation)]
    for others in range(count - 1, 0, -1):
        sums.append(sums[-1] * (next(stream) / MODULUS) ** (1 / others))
    return [before - after for before, after in zip(sums, [*sums[1:], 0.0])]


def uunifast(count: int, utilisation: Fraction, seed: int, periods: Listed | LogUniform = LogUniform(),
             top: int = 1000) -> TaskSet:
    """A set with a utilisation of a highest speed of `top` units per tick (Bini and Buttazzo 2005).

    Worst cases are rounded down to whole units, but not to 0. Then that of the last task with the longest
    period is set to the most with which the set isn't above the utilisation. So the set is below it by less
    than one unit in that period at the highest speed. DrawFault if no unit is left for that task; a higher
    `top` makes this rarer. Floats of 64 bits give the shares, so another library of logarithms may round one
    unit of a worst case otherwise.

    >>> [(task.period, task.worst) for task in uunifast(2, Fraction(7, 10), 1, Listed((10, 20)))]
    [(10, 6378), (10, 622)]
    """
    require(1 <= count <= MOST_TASKS, f"count is 1 to {MOST_TASKS}")
    require(0 < utilisation <= 1, "utilisation is above 0 and at most 1")
    require(1 <= seed <= MOST_SEED, f"seed is 1 to {MOST_SEED}")
    require(1 <= top <= MOST_SPEED, f"top is 1 to {MOST_SPEED}")
    stream = unrelated_states(seed)
    times = periods.draw(count, stream)
    shares = uunifast_shares(count, utilisation, stream)
    worsts = [max(1, int(share * top * period)) for share, period in zip(shares, times)]
    longest = max(range(count), key=lambda place: (times[place], place))
    others = sum(Fraction(worsts[place], times[place]) for place in range(count) if place != longest)
    worsts[longest] = floor((utilisation * top - others) * times[longest])
    require(worsts[longest] >= 1, "no unit is left for the task with the longest period; a higher top may leave one")
    return numbered(times, worsts)


def numbered(periods: Sequence[int], worsts: Sequence[int]) -> TaskSet:
    """The tasks t1, t2 .. with these periods in ticks and worst cases in work units.

    >>> numbered([8, 10], [12, 13]).named("t2")
    Task(name='t2', period=10, worst=13, offset=0)
    """
    return TaskSet(tuple(Task(f"t{place}", period, worst)
                         for place, (period, worst) in enumerate(zip(periods, worsts), 1)))


def taken(tasks: TaskSet, share: Fraction, ticks: int) -> Demands:
    """The demands of all jobs of a run in which each takes a share of its worst case, rounded down.

    >>> taken(TaskSet((Task("a", 5, 7),)), Fraction(1, 2), 10).units
    {('a', 1): 3, ('a', 2): 3}
    """
    units = {task.name: floor(task.worst * share) for task in tasks}
    return Demands({(task.name, job): units[task.name] for task, job in jobs_of(tasks, ticks)})


def taken_uniform(tasks: TaskSet, seed: int, ticks: int) -> Demands:
    """The demands of all jobs of a run, each uniform from 0 to the worst case, by the states after ten.

    >>> taken_uniform(TaskSet((Task("a", 5, 7),)), 1, 10).units
    {('a', 1): 0, ('a', 2): 4}
    """
    stream = islice(states(seed), 10, None)
    return Demands({(task.name, job): drawn(stream, task.worst + 1) for task, job in jobs_of(tasks, ticks)})
