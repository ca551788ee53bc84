"""How far a task set is from the limit of a test: how worst cases can grow, how slow a machine can be.

A limit is computed, and then the program is asked for it and for the next number, so that it is the program's.
"""

from collections.abc import Callable, Collection, Iterable, Iterator, Mapping, Sequence
from concurrent.futures import Executor
from dataclasses import dataclass, replace
from functools import lru_cache, partial, reduce
from math import lcm
from operator import mul
from typing import Self

from rtdvs._numbers import aligned, decimal
from rtdvs.engine import Engine
from rtdvs.errors import Denied
from rtdvs.model import MOST_SPEED, Machine, Point, TaskSet

TESTS = ("edf", "rm", "response")


@dataclass(frozen=True, slots=True)
class Limits:
    """The last numbers that a test admits, each with all others as they are; None if no number is enough.

    `thousandths` multiply all worst cases, each product rounded up to whole units. `worsts` are work units,
    in the order of the tasks. `speed` is the lowest whole highest speed, in work units per tick.

    >>> Limits(thousandths=1200, worsts=(10, 14), speed=2).worsts
    (10, 14)
    """

    thousandths: int | None
    worsts: tuple[int | None, ...]
    speed: int | None


@dataclass(frozen=True, slots=True)
class Question:
    """A test of a set on a machine: edf and rm are those of `admit`, response is the exact one under RM.

    >>> from rtdvs import Task, find_engine
    >>> one = TaskSet((Task("a", 10, 6),))
    >>> question = Question(find_engine(), one, Machine((Point(2, 1000),)), "edf")
    >>> question.admits(), question.with_worsts([21]).admits()
    (True, False)
    """

    engine: Engine
    tasks: TaskSet
    machine: Machine
    test: str

    def admits(self) -> bool:
        """Whether the program's test admits the set; raises its other refusals, and Denied for an offset."""
        return self.answer() is not None

    def answer(self) -> Mapping[str, int] | None:
        """None if the set is denied, otherwise each task's response if the test finds it; raises as `admits`."""
        try:
            if self.test == "response":
                return self.engine.respond(self.tasks, self.machine)
            self.engine.admit(self.tasks, self.machine, self.test)
        except Denied as denied:
            if denied.test == "offset":
                raise
            return None
        return {}

    def with_worsts(self, worsts: list[int]) -> "Question":
        """The same with other worst cases, in work units, in the order of the tasks."""
        tasks = tuple(replace(task, worst=worst) for task, worst in zip(self.tasks, worsts))
        return replace(self, tasks=TaskSet(tasks))


# Guesses by formula

@dataclass(frozen=True, slots=True)
class Demand:
    """What is asked for within `time` ticks: so many jobs of each task.

    >>> Demand(14, (2, 2, 1)).units([12, 12, 4])
    52
    """

    time: int
    jobs: tuple[int, ...]

    def units(self, worsts: Sequence[int]) -> int:
        """The work units, for the worst case of each task with its charge."""
        return sum(map(mul, self.jobs, worsts))

    @classmethod
    def by(cls, time: int, periods: Sequence[int], level: Collection[int]) -> Self:
        """That of the tasks at some places, all released at tick 0.

        >>> Demand.by(14, [8, 10, 14], [0, 1, 2]).jobs
        (2, 2, 1)
        """
        return cls(time, tuple(-(-time // period) * (place in level) for place, period in enumerate(periods)))


@lru_cache(maxsize=1)  # all limits of a set have the same
def demands_by_level(periods: tuple[int, ...], test: str) -> list[list[Demand]]:
    """The demands of a test, level by level; a set is admitted if one of each level fits into its time.

    For `response` these are some, by which a limit can be too low: those up to the last release of each task
    before the period of the level (Bini, Di Natale and Buttazzo 2008).

    >>> [[demand.time for demand in level] for level in demands_by_level((8, 10, 14), "response")]
    [[8], [8, 10], [8, 10, 14]]
    """
    if test == "edf":
        time = lcm(*periods)
        return [[Demand(time, tuple(time // period for period in periods))]]
    order = sorted(range(len(periods)), key=lambda place: periods[place])
    levels = []
    for rank, place in enumerate(order):
        level, end = order[:rank + 1], periods[place]
        times = {end // periods[other] * periods[other] for other in level} if test == "response" else {end}
        levels.append([Demand.by(time, periods, level) for time in sorted(times)])
    return levels


class Guess:
    """A limit by formula: for each level the best of its demands, and of these the one that decides.

    `of` gives the last number that a demand allows. Without `within` and `across` it is the greatest that is allowed
    by one demand of each level.

    >>> from rtdvs import Point, Task, find_engine
    >>> tasks = TaskSet((Task("a", 8, 12), Task("b", 10, 12), Task("c", 14, 4)))
    >>> question = Question(find_engine(), tasks, Machine((Point(4, 1000),)), "response")
    >>> Guess(question, partial(worst_within, question, 0)).number()
    16
    """

    def __init__(self, question: Question, of: Callable[[Demand], int | None],
                 within: Callable[[int, int], int] = max, across: Callable[[int, int], int] = min) -> None:
        self.of, self.within, self.across = of, within, across
        self.periods = tuple(task.period for task in question.tasks)
        self.order = sorted(range(len(self.periods)), key=self.periods.__getitem__)
        self.ranks = {question.tasks[place].name: rank for rank, place in enumerate(self.order)}
        levels = demands_by_level(self.periods, question.test)
        self.best = [_joined(within, map(of, level)) for level in levels]  # None if each demand allows any number

    def number(self) -> int:
        """The last number that all levels allow."""
        return _joined(self.across, self.best) or 0

    def admits(self, question: Question) -> bool:
        """Whether the set of a question is admitted; by the demands up to its responses a limit too low rises."""
        responses = question.answer()
        for task, time in (responses or {}).items():
            rank = self.ranks[task]
            found = self.of(Demand.by(time, self.periods, self.order[:rank + 1]))
            self.best[rank] = _joined(self.within, (self.best[rank], found))
        return responses is not None


def _joined(of_two: Callable[[int, int], int], numbers: Iterable[int | None]) -> int | None:
    """The numbers that aren't None, joined two by two; None if there is none."""
    known = [number for number in numbers if number is not None]
    return reduce(of_two, known) if known else None


def charged(question: Question) -> list[int]:
    """The worst cases of a question's tasks, with the charge twice.

    >>> from rtdvs import Point, Task, find_engine
    >>> charged(Question(find_engine(), TaskSet((Task("a", 10, 6),)), Machine((Point(2, 1000),), charge=3), "edf"))
    [12]
    """
    return [task.worst + 2 * question.machine.charge for task in question.tasks]


def worst_within(question: Question, place: int, demand: Demand) -> int | None:
    """The most units of the task at a place with which a demand fits; None if none of its jobs is asked for.

    >>> from rtdvs import Point, Task, find_engine
    >>> one = Question(find_engine(), TaskSet((Task("a", 10, 6),)), Machine((Point(2, 1000),)), "edf")
    >>> worst_within(one, 0, Demand(10, (1,)))
    20
    """
    jobs, worsts = demand.jobs[place], charged(question)
    if not jobs:
        return None
    free = question.machine.top_speed * demand.time - demand.units(worsts)
    return free // jobs + question.tasks[place].worst


def slow_within(question: Question, demand: Demand) -> int:
    """The last speed at which a demand doesn't fit.

    >>> from rtdvs import Point, Task, find_engine
    >>> one = Question(find_engine(), TaskSet((Task("a", 10, 36),)), Machine((Point(2, 1000),)), "edf")
    >>> slow_within(one, Demand(10, (1,)))
    3
    """
    return -(-demand.units(charged(question)) // demand.time) - 1


def thousandths_within(question: Question, demand: Demand) -> int:
    """The most thousandths of all worst cases with which a demand fits.

    >>> from rtdvs import Point, Task, find_engine
    >>> one = Question(find_engine(), TaskSet((Task("a", 10, 6),)), Machine((Point(2, 1000),)), "edf")
    >>> thousandths_within(one, Demand(10, (1,)))
    3333
    """
    worsts, charge = [task.worst for task in question.tasks], 2 * question.machine.charge
    room = question.machine.top_speed * demand.time - charge * sum(demand.jobs)
    most = 1000 * max(room, 0) // demand.units(worsts)
    return last(most + 1, lambda number: demand.units(scaled(worsts, number)) <= room) or 0


def scaled(worsts: Sequence[int], thousandths: int) -> list[int]:
    """Worst cases times thousandths, rounded up.

    >>> scaled([12, 4], 1250)
    [15, 5]
    """
    return [-(-worst * thousandths // 1000) for worst in worsts]


# Searches

MOST_GUESSES = 8  # before a bisection


def last(above: int, holds: Callable[[int], bool], found: int = 0) -> int | None:
    """The last number from 1 up to below `above` for which the condition holds, None if it holds for none.

    The condition holds up to some number, which is at least `found`, and for no greater one.

    >>> last(1000, lambda number: number**2 < 50), last(1000, lambda number: False)
    (7, None)
    """
    while above - found > 1:
        middle = (found + above) // 2
        if holds(middle):
            found = middle
        else:
            above = middle
    return found or None


def confirmed(above: int, holds: Callable[[int], bool], guess: Callable[[], int]) -> int | None:
    """The same by two calls, of the guess and of the next number, if the guess is right.

    A guess may learn from each call. One that stays wrong is followed by a bisection.

    >>> asked = []
    >>> confirmed(1000, lambda number: asked.append(number) or number**2 < 50, lambda: 7), asked
    (7, [7, 8])
    >>> confirmed(1000, lambda number: number**2 < 50, lambda: 90)
    7
    """
    seen = {0: True, above: False}

    def known(number: int) -> bool:
        if number not in seen:
            seen[number] = holds(number)
        return seen[number]

    tried = set[int]()
    while (found := min(max(guess(), 0), above - 1)) not in tried and len(tried) < MOST_GUESSES:
        tried.add(found)
        if known(found) and not known(found + 1):
            return found or None
    held = max(number for number, does in seen.items() if does)
    return last(min(number for number, does in seen.items() if not does), known, held)


def most_thousandths(question: Question) -> int | None:
    """The most thousandths that all worst cases can be multiplied by; raises as `admits`.

    >>> from rtdvs import Task, find_engine
    >>> one = TaskSet((Task("a", 10, 6),))
    >>> question = Question(find_engine(), one, Machine((Point(2, 1000),)), "edf")
    >>> most_thousandths(question)
    3333
    """
    guess, worsts = Guess(question, partial(thousandths_within, question)), [task.worst for task in question.tasks]
    # A task that needs more than the highest speed does in its period is admitted by no test.
    room = min(question.machine.top_speed * task.period * 1000 // task.worst for task in question.tasks)
    return confirmed(room + 1, lambda number: guess.admits(question.with_worsts(scaled(worsts, number))), guess.number)


def most_worst(question: Question, place: int) -> int | None:
    """The most work units that the task at this place, from 0, can have; raises as `admits`.

    >>> from rtdvs import Task, find_engine
    >>> one = TaskSet((Task("a", 10, 6),))
    >>> question = Question(find_engine(), one, Machine((Point(2, 1000),)), "edf")
    >>> most_worst(question, 0)
    20
    """
    guess, worsts = Guess(question, partial(worst_within, question, place)), [task.worst for task in question.tasks]

    def holds(units: int) -> bool:
        return guess.admits(question.with_worsts([*worsts[:place], units, *worsts[place + 1:]]))

    return confirmed(question.machine.top_speed * question.tasks[place].period + 1, holds, guess.number)


def least_speed(question: Question) -> int | None:
    """The lowest whole speed, in work units per tick, with which the set is admitted if it is the only one.

    Raises as `admits`.

    >>> from rtdvs import Task, find_engine
    >>> one = TaskSet((Task("a", 10, 6),))
    >>> question = Question(find_engine(), one, Machine((Point(2, 1000),)), "edf")
    >>> least_speed(question)
    1
    """
    guess = Guess(question, partial(slow_within, question), min, max)

    def too_slow(speed: int) -> bool:
        return not guess.admits(replace(question, machine=Machine((Point(speed, 1),), 0, question.machine.charge)))

    slowest = (confirmed(MOST_SPEED + 1, too_slow, guess.number) or 0) + 1
    return slowest if slowest <= MOST_SPEED else None


def limits_of(question: Question, executor: Executor | None = None) -> Iterator[int | None]:
    """The thousandths, the lowest highest speed and each task's worst case in work units, in this order.

    Raises what the program refuses, but for a set that is denied.

    >>> from rtdvs import Task, find_engine
    >>> one = TaskSet((Task("a", 10, 6),))
    >>> question = Question(find_engine(), one, Machine((Point(2, 1000),)), "edf")
    >>> list(limits_of(question))
    [3333, 1, 20]
    """
    question.admits()
    searches: list[Callable[[], int | None]] = [
        partial(most_thousandths, question), partial(least_speed, question),
        *(partial(most_worst, question, place) for place in range(len(question.tasks)))]
    return map(_found, searches) if executor is None else executor.map(_found, searches)


def _found(search: Callable[[], int | None]) -> int | None:
    return search()


def sensitivity(engine: Engine, tasks: TaskSet, machine: Machine, test: str,
                executor: Executor | None = None) -> Limits:
    """The limits of a test (edf, rm or response), each computed and then confirmed by two calls of the program.

    A set that is denied has limits below its own numbers: it has to shrink to them. Raises Denied if
    `response` meets an offset, and what else the program raises.

    >>> from rtdvs import Point, Task, find_engine
    >>> tasks = TaskSet((Task("a", 10, 6), Task("b", 10, 10)))
    >>> sensitivity(find_engine(), tasks, Machine((Point(2, 1000),)), "edf")
    Limits(thousandths=1200, worsts=(10, 14), speed=2)
    """
    thousandths, speed, *worsts = limits_of(Question(engine, tasks, machine, test), executor)
    return Limits(thousandths, tuple(worsts), speed)


def limits_table(question: Question, limits: Limits) -> str:
    """A line for all tasks, for each task and for the speed: what is now, and the limit; `-` for None.

    >>> from rtdvs import Task, find_engine
    >>> one = TaskSet((Task("a", 10, 6),))
    >>> question = Question(find_engine(), one, Machine((Point(2, 1000),)), "edf")
    >>> print(limits_table(question, Limits(3333, (20,), None)), end="")
    of               in             now  limit
    all worst cases  thousandths   1000   3333
    a                work units       6     20
    highest speed    units a tick     2      -
    """
    rows = [("of", "in", "now", "limit"), ("all worst cases", "thousandths", "1000", decimal(limits.thousandths, 0))]
    rows += [(task.name, "work units", str(task.worst), decimal(most, 0))
             for task, most in zip(question.tasks, limits.worsts)]
    rows += [("highest speed", "units a tick", str(question.machine.top_speed), decimal(limits.speed, 0))]
    return aligned(rows, left=2)
