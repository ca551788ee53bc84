"""The random task sets of the published evaluation."""

from collections.abc import Collection, Iterable, Iterator
from dataclasses import dataclass
from fractions import Fraction
from math import floor

from rtdvs.model import TaskSet
from rtdvs.studies import random_sets

PUBLISHED_SEED = 2001
PUBLISHED_COUNTS = (5, 8, 10, 15)
PUBLISHED_MILLISECOND = 400
"""In ticks."""
PUBLISHED_TOP = 100_000
"""The highest speed of the published machines, in work units per tick."""
OWN_SEEDS = 10**9  # above the seeds of demands


@dataclass(frozen=True, slots=True, order=True)
class SetName:
    """A set of the evaluation: its number of tasks, its utilisation in tenths, its number among these.

    >>> str(SetName(8, 7, 1)), SetName.parse("8_7_1").tenths
    ('8_7_1', 7)
    """

    count: int
    tenths: int
    number: int

    def __str__(self) -> str:
        return f"{self.count}_{self.tenths}_{self.number}"

    @classmethod
    def parse(cls, text: str) -> "SetName":
        """The name of a text; raises ValueError."""
        count, tenths, number = map(int, text.split("_"))
        return cls(count, tenths, number)

    def seed(self, seed: int) -> int:
        """A seed of the set's own, from that of the evaluation."""
        return ((seed * 20 + self.count) * 11 + self.tenths) * 1000 + self.number


def set_names(most: int, counts: Iterable[int] = PUBLISHED_COUNTS) -> Iterator[SetName]:
    """The sets of an evaluation, `most` for each number of tasks and utilisation, in the order of the draws.

    >>> len(list(set_names(100)))
    4000
    """
    return (SetName(count, tenths, number)
            for count in counts for tenths in range(1, 11) for number in range(1, most + 1))


def published_time(stream: Iterator[int]) -> Fraction:
    """Milliseconds: 1 to 10, 10 to 100 or 100 to 1000, each equally likely, and uniform within.

    >>> published_time(random_sets.states(1)) < 10
    True
    """
    low: int = 10 ** random_sets.drawn(stream, 3)
    return low + Fraction(next(stream), random_sets.MODULUS) * 9 * low


def published_set(count: int, tenths: int, stream: Iterator[int]) -> TaskSet:
    """A set of the published evaluation, at most at its utilisation.

    A period is a time, then the nearest divisor of 720720 ticks. Worst cases are in proportion to weights
    that are drawn as the periods are, and rounded down to whole units.

    >>> [(task.period, task.worst) for task in published_set(1, 5, random_sets.states(2001))]
    [(936, 46800000)]
    """
    choices = random_sets.divisors(random_sets.PUBLISHED_TICKS, PUBLISHED_MILLISECOND, 1000 * PUBLISHED_MILLISECOND)
    pairs = [(random_sets.nearest(choices, published_time(stream) * PUBLISHED_MILLISECOND), published_time(stream))
             for _ in range(count)]
    rate = sum(weight / period for period, weight in pairs)
    worsts = [floor(Fraction(tenths * PUBLISHED_TOP, 10) * weight / rate) for _, weight in pairs]
    return random_sets.numbered([period for period, _ in pairs], worsts)


def published_sets(most: int, seed: int = PUBLISHED_SEED,
                   counts: Collection[int] = PUBLISHED_COUNTS) -> Iterator[tuple[SetName, TaskSet]]:
    """The sets of the published evaluation with `most` for each number of tasks and each utilisation.

    All come from one seed, one after the other, so a set depends on `most`. Those of other numbers of tasks come
    after them, each by a seed of its own.

    >>> next(published_sets(100))[1].named("t1").period
    936
    """
    stream = random_sets.states(seed)
    if not {*PUBLISHED_COUNTS}.isdisjoint(counts):
        yield from ((name, published_set(name.count, name.tenths, stream)) for name in set_names(most))
    for name in set_names(most, sorted({*counts} - {*PUBLISHED_COUNTS})):
        yield name, published_set(name.count, name.tenths, random_sets.unrelated_states(OWN_SEEDS + name.seed(seed)))


def uunifast_sets(most: int, seed: int = PUBLISHED_SEED,
                  counts: Collection[int] = PUBLISHED_COUNTS) -> Iterator[tuple[SetName, TaskSet]]:
    """Sets by UUniFast with the published range of periods, each by a seed of its own that no demands have.

    >>> next(uunifast_sets(1))[1].named("t1").period
    30030
    """
    periods = random_sets.LogUniform(PUBLISHED_MILLISECOND, 1000 * PUBLISHED_MILLISECOND, random_sets.PUBLISHED_TICKS)
    return ((name, random_sets.uunifast(name.count, Fraction(name.tenths, 10), OWN_SEEDS + name.seed(seed), periods,
                            PUBLISHED_TOP)) for name in set_names(most, sorted({*counts})))


DRAWS = {"published": published_sets, "uunifast": uunifast_sets}
"""How the sets of an evaluation are drawn."""
