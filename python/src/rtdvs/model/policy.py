"""Schedulers, governors, and the pairs of them that the program has."""

from enum import StrEnum

from rtdvs.errors import BadValue

Pair = tuple["Scheduler", "Governor"]
"""A scheduler and a governor."""


class Scheduler(StrEnum):
    """Which open job runs: that of the earliest deadline, or that of the shortest period.

    Raises BadValue for another word.

    >>> Scheduler("rm"), Scheduler.EDF == "edf", f"{Scheduler.EDF}"
    (<Scheduler.RM: 'rm'>, True, 'edf')
    >>> Scheduler("EDF")
    Traceback (most recent call last):
    rtdvs.errors.BadValue: a scheduler is edf or rm, not EDF
    """

    EDF = "edf"
    RM = "rm"

    @classmethod
    def _missing_(cls, value: object) -> None:
        raise BadValue(f"a scheduler is {' or '.join(cls)}, not {value}")


class Governor(StrEnum):
    """How the speed is chosen: the highest, by the scheduler's test, by what jobs had, or by what can wait.

    Raises BadValue for another word.

    >>> [*map(str, Governor)]
    ['none', 'static', 'cc', 'la']
    """

    NONE = "none"
    STATIC = "static"
    CC = "cc"
    LA = "la"

    @classmethod
    def _missing_(cls, value: object) -> None:
        raise BadValue(f"a governor is {', '.join(cls)}, not {value}")


PAIRS: tuple[Pair, ...] = tuple(
    (scheduler, governor) for scheduler in Scheduler for governor in Governor
    if (scheduler, governor) != (Scheduler.RM, Governor.LA))
"""All pairs but `la` under RM, which isn't published."""


def pair_of(scheduler: str, governor: str) -> Pair:
    """The pair of two words; raises BadValue if one is no scheduler or governor, or if the program has no such pair.

    >>> pair_of("rm", "cc") in PAIRS
    True
    >>> pair_of("rm", "la")
    Traceback (most recent call last):
    rtdvs.errors.BadValue: rm has no governor la
    """
    pair = Scheduler(scheduler), Governor(governor)
    if pair not in PAIRS:
        raise BadValue(f"{scheduler} has no governor {governor}")
    return pair
