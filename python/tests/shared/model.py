"""An independent model of docs/RULES.md, tick by tick; its only state is what each task got in each tick."""

import random
from collections.abc import Iterator
from dataclasses import dataclass, field
from fractions import Fraction
from math import ceil, floor, lcm

from rtdvs.model import Demands, Machine, Point, Task, TaskSet

PERIODS = [1, 2, 3, 4, 5, 6, 8, 10, 12, 15, 20, 24, 30, 40, 60]


@dataclass
class Model:
    """A plan, a governor and its demands, and for each tick that has passed the units of each task."""

    tasks: TaskSet
    machine: Machine
    pair: tuple[str, str]
    demands: Demands
    shares: list[list[int]] = field(default_factory=list)
    speed: int = 0

    def worst(self, place: int) -> int:
        return self.tasks.tasks[place].worst + 2 * self.machine.charge

    def number(self, place: int, tick: int) -> int:
        """The latest job of a task at a tick, after its releases."""
        task = self.tasks.tasks[place]
        return 0 if tick < task.offset else (tick - task.offset) // task.period + 1

    def due(self, place: int, job: int) -> int:
        return self.tasks.tasks[place].offset + job * self.tasks.tasks[place].period

    def need(self, place: int, job: int) -> int:
        task = self.tasks.tasks[place]
        return self.demands.units.get((task.name, job), task.worst) + 2 * self.machine.charge

    def had(self, place: int, job: int, tick: int) -> int:
        """The units of a job in the ticks before one."""
        start = max(0, self.due(place, job - 1))
        return sum(share[place] for share in self.shares[start:tick]) if job else 0

    def complete(self, place: int, job: int, tick: int) -> bool:
        return job == 0 or self.had(place, job, tick) == self.need(place, job)

    def might(self, place: int, tick: int) -> int:
        """What the latest job may still need by its worst case."""
        job = self.number(place, tick)
        return 0 if self.complete(place, job, tick) else self.worst(place) - self.had(place, job, tick)

    def places(self) -> range:
        return range(len(self.tasks))

    def released(self, tick: int) -> list[int]:
        return [place for place in self.places() if self.number(place, tick) and
                self.due(place, self.number(place, tick) - 1) == tick]

    def completed(self, tick: int) -> list[int]:
        """The tasks whose latest job had its last unit in the tick before, in the order of these units."""
        return [place for place in (self.order(tick - 1) if tick else []) if self.shares[tick - 1][place] and
                self.complete(place, self.number(place, tick - 1), tick)]

    def first_deadline(self, tick: int) -> int:
        return min(self.due(place, self.number(place, tick)) for place in self.places())

    def order(self, tick: int) -> list[int]:
        """The places by priority."""
        if self.pair[0] == "rm":
            return sorted(self.places(), key=lambda place: (self.tasks.tasks[place].period, place))
        return sorted(self.places(), key=lambda place: (self.due(place, self.number(place, tick)), place))

    def open(self, tick: int) -> list[int]:
        return [place for place in self.order(tick)
                if not self.complete(place, self.number(place, tick), tick)]

    def static(self) -> Fraction:
        """The static demand, without its denominator."""
        if self.pair[0] == "edf":
            return sum(self.rates(), Fraction(0))
        order, periods = self.order(0), [task.period for task in self.tasks]
        return max(Fraction(sum(ceil(Fraction(periods[one], periods[two])) * self.worst(two)
                                for two in order[:rank + 1]), periods[one]) for rank, one in enumerate(order))

    def rates(self) -> list[Fraction]:
        """The worst cases per tick."""
        return [Fraction(self.worst(place), task.period) for place, task in enumerate(self.tasks)]

    def lowest(self, demand: Fraction) -> int:
        speeds = [point.speed for point in self.machine.points]
        return next((speed for speed in speeds if speed >= demand), speeds[-1])

    def admitted(self) -> bool:
        return self.static() <= self.machine.points[-1].speed

    def handed(self, tick: int) -> tuple[int, list[tuple[int, int, int, int]]]:
        """Under RM with `cc`: where units were handed out; place, might, allotted, left of each task."""
        mark = max([0, *(at for at in range(tick + 1) if self.released(at))])
        room = (self.first_deadline(tick) - mark) * self.lowest(self.static())
        rows = []
        for place in self.order(tick):
            job, might = self.number(place, tick), self.might(place, mark)
            allotted = min(might, room)
            room -= allotted
            had = self.had(place, job, tick) - self.had(place, job, mark)
            left = 0 if self.complete(place, job, tick) else max(0, allotted - had)
            rows.append((place, might, allotted, left))
        return mark, rows

    def put_off(self, tick: int) -> list[tuple[int, int, int]]:
        """Under `la`: place, what it may need, and how much of that is before the earliest deadline."""
        first, hyper = self.first_deadline(tick), lcm(*(task.period for task in self.tasks))
        rates, rows = self.rates(), []
        for place in reversed(self.order(tick)):
            might, span = self.might(place, tick), self.due(place, self.number(place, tick)) - first
            put_off = 0
            if span:
                rates[place] = Fraction(0)
                put_off = min(might, floor((self.machine.points[-1].speed - sum(rates)) * span))
                rates[place] = Fraction(ceil(Fraction(put_off * hyper, span)), hyper)
            rows.append((place, might, might - put_off))
        return rows

    def demand(self, tick: int) -> Fraction:
        scheduler, governor = self.pair
        if governor in ("none", "static"):
            return Fraction(self.machine.points[-1].speed) if governor == "none" else self.static()
        time = self.first_deadline(tick) - tick
        if governor == "la":
            return Fraction(sum(before for _, _, before in self.put_off(tick)), time)
        if scheduler == "rm":
            return Fraction(sum(left for _, _, _, left in self.handed(tick)[1]), time)
        rates = [Fraction(self.charged(place, tick), task.period) for place, task in enumerate(self.tasks)]
        return sum(rates, Fraction(0))

    def charged(self, place: int, tick: int) -> int:
        job = self.number(place, tick)
        return (self.need(place, job) if job else 0) if self.complete(place, job, tick) else self.worst(place)

    def step(self) -> bool:
        """Lets a tick pass; whether there was a decision at it."""
        tick = len(self.shares)
        decision = tick == 0 or bool(self.released(tick) or self.completed(tick))
        if decision:
            self.speed = self.lowest(self.demand(tick))
        room, share = self.speed, [0] * len(self.tasks)
        for place in self.open(tick):
            job = self.number(place, tick)
            share[place] = min(room, self.need(place, job) - self.had(place, job, tick))
            room -= share[place]
        self.shares.append(share)
        return decision

    def decisions(self, ticks: int) -> Iterator[tuple[int, Fraction, int]]:
        """The tick, the demand and the speed of each decision. At each one the model is that of its tick."""
        for tick in range(ticks):
            demand = self.demand(tick)
            if self.step():
                passed = self.shares.pop()
                yield tick, demand, self.speed
                self.shares.append(passed)


def random_case(seed: int, long: bool = False) -> tuple[TaskSet, Machine, Demands, int]:
    """A set with a load of 0.2 to 1.05 of the highest speed, its machine, demands and a number of ticks."""
    rng = random.Random(seed)
    speeds = sorted(rng.sample(range(1, rng.choice([8, 100, 1000000])), rng.randint(1, 6)))
    volts = sorted(rng.randint(1, 20000) for _ in speeds)
    charge = rng.choice([0, 0, 1, 3])
    machine = Machine(tuple(map(Point, speeds, volts)), rng.choice([0, 100, 1000]), charge)
    count = rng.randint(20, 64) if long and rng.random() < 0.05 else rng.randint(1, 6)
    choices = rng.choice([PERIODS, PERIODS, [2, 4, 6, 12]])
    if long and rng.random() < 0.1:
        choices = [2**32, 3 * 2**30, 2**38]
    periods = [rng.choice(choices) for _ in range(count)]
    weights = [rng.random() for _ in periods]
    load = rng.uniform(0.2, 1.05) * speeds[-1] / sum(weights)
    tasks = TaskSet(tuple(
        Task(f"t{place}", period, max(1, int(load * weight * period) - 2 * charge),
             rng.randint(0, 2 * period) if rng.random() < 0.5 else 0)
        for place, (period, weight) in enumerate(zip(periods, weights, strict=True))))
    units = {(task.name, job): rng.choice([0, task.worst, rng.randint(0, task.worst)])
             for task in tasks for job in range(1, 30) if rng.random() < 0.6}
    ticks = rng.randint(1, max(2, int(rng.randint(2, 60) / sum(1 / period for period in periods))))
    return tasks, machine, Demands(units), min(ticks, 2**40)
