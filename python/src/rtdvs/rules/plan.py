"""Tasks, a machine and a scheduler, with what follows from them: the rates, the static demand, admission.

All of it is in whole numbers of any size: ticks, work units, and demands as fractions num/den of work units
per tick that are never reduced.
"""

from collections.abc import Callable, Mapping
from dataclasses import dataclass
from fractions import Fraction
from functools import cached_property
from operator import mul
from typing import Any

from rtdvs.errors import BadValue, Denied
from rtdvs.model import Demands, Machine, Point, Scheduler, Task, TaskSet

Demand = tuple[int, int]
Needs = Mapping[tuple[str, int], int]
"""The work units of jobs, by their tasks and numbers, with the charge."""


@dataclass(frozen=True, slots=True)
class JobView:
    """What a scheduler or a governor sees of a job at a tick; it is made anew for each call.

    Ticks are those of the run; work units have the machine's charge twice. `executed` are the units that the
    job has had, and `remaining_wcet` what it may still need by its worst case: 0 once it is complete.

    >>> job = JobView(Task("a", 4, 2), 1, now=1, release=0, absolute_deadline=4, executed=1, remaining_wcet=1)
    >>> job.is_complete, job.wcet
    (False, 2)
    """

    task: Task
    number: int
    now: int
    release: int
    absolute_deadline: int
    executed: int
    remaining_wcet: int
    is_complete: bool = False

    @property
    def wcet(self) -> int:
        """What a job that isn't complete needs at most; what a complete one had.

        >>> JobView(Task("a", 4, 2), 1, 1, 0, 4, executed=1, remaining_wcet=0, is_complete=True).wcet
        1
        """
        return self.executed + self.remaining_wcet


Priority = Callable[[JobView], Any]
"""A scheduler of your own: the open job with the least value runs, of equal ones the first in the file."""


def ceiling(num: int, den: int) -> int:
    """The quotient, rounded up.

    >>> ceiling(7, 2), ceiling(6, 2)
    (4, 3)
    """
    return -(-num // den)


@dataclass(frozen=True)
class Plan:
    """Tasks, a machine and a scheduler, with what follows from them.

    The scheduler is a Scheduler, its word, or a function, the priority of a job; BadValue for another word. Examples of
    what it keeps are here, since doctest finds none of a cached property before Python 3.13.

    >>> machine = Machine((Point(2, 3000), Point(4, 5000)))
    >>> plan = Plan(TaskSet((Task("a", 4, 4), Task("b", 6, 9))), machine, "edf")
    >>> plan.hyperperiod, plan.weights, plan.worsts, plan.rates
    (12, (3, 2), (4, 9), (12, 18))
    >>> plan.static, plan.static_speed, plan.lowest(30, 12).speed, plan.spare, plan.by_period
    ((30, 12), 4, 4, 18, (0, 1))
    >>> Plan(TaskSet((Task("a", 4, 4),)), Machine((Point(2, 3000),), charge=3), "edf").worsts
    (10,)
    >>> tie = TaskSet((Task("a", 4, 4), Task("b", 5, 2), Task("c", 8, 4)))
    >>> Plan(tie, machine, "rm").static  # of 4/4, (2 * 4 + 2)/5 and (2 * 4 + 2 * 2 + 4)/8
    (10, 5)
    """

    tasks: TaskSet
    machine: Machine
    scheduler: str | Priority

    def __post_init__(self) -> None:
        if not callable(self.scheduler):
            object.__setattr__(self, "scheduler", Scheduler(self.scheduler))

    def ruled(self) -> Scheduler:
        """One of the two schedulers; raises BadValue for a function, which has no test and no static demand.

        >>> EXAMPLE.ruled()
        <Scheduler.EDF: 'edf'>
        """
        if callable(self.scheduler):
            raise BadValue("a scheduler that is a function has no admission test and no static demand")
        return Scheduler(self.scheduler)

    @cached_property
    def hyperperiod(self) -> int:
        """The least common multiple of the periods, in ticks."""
        return self.tasks.hyperperiod

    @cached_property
    def worsts(self) -> tuple[int, ...]:
        """The worst case of each task in work units, with the charge for two switches."""
        return tuple(task.worst + 2 * self.machine.charge for task in self.tasks)

    @cached_property
    def weights(self) -> tuple[int, ...]:
        """The jobs of each task in a hyperperiod."""
        return tuple(self.hyperperiod // task.period for task in self.tasks)

    @cached_property
    def rates(self) -> tuple[int, ...]:
        """The work units of each task in a hyperperiod, all jobs at their worst cases."""
        return tuple(map(mul, self.worsts, self.weights))

    @cached_property
    def spare(self) -> int:
        """The work units that the highest speed can do in a hyperperiod beyond all rates."""
        return self.machine.top_speed * self.hyperperiod - sum(self.rates)

    @cached_property
    def by_period(self) -> tuple[int, ...]:
        """The places of the tasks in RM order."""
        return tuple(sorted(range(len(self.tasks)), key=lambda place: self.tasks[place].period))

    def level(self, rank: int) -> tuple[Task, int]:
        """The task at a place of the RM order, and the work of it and those before it in its period.

        >>> EXAMPLE.level(1)  # 2 * 4 + 9
        (Task(name='b', period=6, worst=9, offset=0), 17)
        """
        tasks = self.tasks
        task, jobs = tasks[self.by_period[rank]], self.by_period[:rank + 1]
        return task, sum(ceiling(task.period, tasks[place].period) * self.worsts[place] for place in jobs)

    def levels(self) -> list[tuple[int, int, str | None]]:
        """What the scheduler's test adds up: some work, the ticks that there are for it, and under RM the last task.

        >>> EXAMPLE.levels()
        [(30, 12, None)]
        >>> Plan(EXAMPLE.tasks, EXAMPLE.machine, "rm").levels()
        [(4, 4, 'a'), (17, 6, 'b')]
        """
        if self.ruled() == "edf":
            return [(sum(self.rates), self.hyperperiod, None)]
        return [(work, task.period, task.name) for task, work in map(self.level, range(len(self.tasks)))]

    @cached_property
    def static(self) -> Demand:
        """The demand of `static`: under RM that of the first level with the most work per tick."""
        work, ticks, _ = max(self.levels(), key=lambda level: Fraction(*level[:2]))
        return work, ticks

    @cached_property
    def static_speed(self) -> int:
        """The lowest speed that meets the static demand, in work units per tick."""
        return self.lowest(*self.static).speed

    def lowest(self, num: int, den: int) -> Point:
        """The slowest point that meets a demand, or the last if none does.

        >>> EXAMPLE.lowest(4, 2), EXAMPLE.lowest(9, 2)
        (Point(speed=2, millivolts=3000), Point(speed=4, millivolts=5000))
        """
        points = self.machine.points
        return next((point for point in points if num <= point.speed * den), points[-1])

    def needs(self, demands: Demands) -> Needs:
        """What the named jobs need.

        >>> EXAMPLE.needs(Demands({("a", 1): 2}))
        {('a', 1): 2}
        """
        charge = 2 * self.machine.charge
        return {job: units + charge for job, units in demands.units.items()}

    def admit(self) -> None:
        """Raises Denied if the scheduler's test fails.

        >>> Plan(TaskSet((Task("a", 4, 9),)), Machine((Point(2, 3000),)), "rm").admit()
        Traceback (most recent call last):
        rtdvs.errors.Denied: denied rm a 9 8
        """
        for work, ticks, task in self.levels():
            if work > self.machine.top_speed * ticks:
                raise Denied(self.ruled().value, work, self.machine.top_speed * ticks, task)


EXAMPLE = Plan(TaskSet((Task("a", 4, 4), Task("b", 6, 9))), Machine((Point(2, 3000), Point(4, 5000))), "edf")
"""A small plan, for the examples."""
