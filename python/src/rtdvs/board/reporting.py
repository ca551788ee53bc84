"""What a designer asks of a board: whether it is admitted, how long jobs take, and what each pair costs."""

from collections.abc import Iterator, Mapping, Sequence
from dataclasses import dataclass
from fractions import Fraction
from itertools import product
from math import ceil, floor

from rtdvs._numbers import aligned, plain, rounded
from rtdvs.board.description import Board
from rtdvs.board.scale import Design, usual_demands
from rtdvs.board.units import Spent, Units
from rtdvs.errors import Denied
from rtdvs.model import PAIRS, Demands
from rtdvs.rules import simulate

FEW_JOBS, MOST_JOBS = 2_000, 99_000


@dataclass(frozen=True, slots=True)
class Load:
    """A task's period in milliseconds, and the cycles of its longest job with two switches of speed.

    >>> Load("a", period=Fraction(5), cycles=Fraction(1000)).name
    'a'
    """

    name: str
    period: Fraction
    cycles: Fraction


@dataclass(frozen=True, slots=True)
class Asked:
    """What tasks ask of the highest point, which does `speed` cycles in a millisecond; `switches` are of each job.

    >>> asked = Asked((Load("a", Fraction(4), Fraction(8)), Load("b", Fraction(6), Fraction(10))), Fraction(4))
    >>> asked.utilisation, asked.late_under_rm(), asked.response(1)
    (Fraction(11, 12), 'b', None)
    >>> Asked(asked.loads, Fraction(5)).response(1)
    Fraction(18, 5)
    """

    loads: tuple[Load, ...]
    speed: Fraction
    switches: Fraction = Fraction(0)

    @classmethod
    def by(cls, board: Board) -> "Asked":
        """Before rounding."""
        speed = board.rising[-1].megahertz * 1000
        switches = 2 * board.switch / 1000 * speed
        return cls(tuple(Load(task.name, task.period, task.worst + switches) for task in board.tasks), speed, switches)

    @classmethod
    def by_files(cls, made: Design) -> "Asked":
        """After rounding."""
        scale, charge = made.scale, 2 * made.machine.charge
        loads = (Load(task.name, task.period * scale.tick, (task.worst + charge) * scale.unit) for task in made.tasks)
        return cls(tuple(loads), made.machine.top_speed * scale.unit / scale.tick, charge * scale.unit)

    @property
    def by_period(self) -> list[Load]:
        """The order of RM: of equal periods the first in the file comes first."""
        return sorted(self.loads, key=lambda load: load.period)

    @property
    def utilisation(self) -> Fraction:
        """The share of the highest speed; EDF admits up to 1."""
        return sum((load.cycles / load.period for load in self.loads), Fraction(0)) / self.speed

    def late_under_rm(self) -> str:
        """The first task, by period, that the test of RM denies; empty if it admits all."""
        late = (load.name for rank, load in enumerate(self.by_period) if self._work(rank) > self.speed * load.period)
        return next(late, "")

    def most(self, place: int, scheduler: str) -> Fraction | None:
        """The most cycles that a task's jobs may have, beside switches, for EDF or RM to admit all; None if denied.

        >>> loads = Load("a", Fraction(4), Fraction(8)), Load("b", Fraction(6), Fraction(10))
        >>> Asked(loads, Fraction(5)).most(0, "rm")
        Fraction(10, 1)
        """
        load, order = self.loads[place], self.by_period
        if scheduler == "edf":
            spare = (1 - self.utilisation) * load.period * self.speed
        else:
            spare = min((self.speed * last.period - self._work(rank)) / ceil(last.period / load.period)
                        for rank, last in enumerate(order) if rank >= order.index(load))
        is_admitted = self.utilisation <= 1 if scheduler == "edf" else not self.late_under_rm()
        return load.cycles + spare - self.switches if is_admitted else None

    def _work(self, rank: int) -> Fraction:
        """The cycles of the tasks up to a place of the order, in the period of the last of them."""
        *_, last = order = self.by_period[:rank + 1]
        return sum((ceil(last.period / load.period) * load.cycles for load in order), Fraction(0))

    def response(self, place: int) -> Fraction | None:
        """The longest response under RM at the highest speed, in milliseconds; None if it is beyond the period."""
        load, order = self.loads[place], self.by_period
        before = order[:order.index(load)]
        left = self.speed - sum(other.cycles / other.period for other in before)
        time, longer = Fraction(0), load.cycles / left if left > 0 else load.period + 1
        while time < longer <= load.period:
            time = longer
            longer = (load.cycles + sum(ceil(time / other.period) * other.cycles for other in before)) / self.speed
        return longer if longer <= load.period else None


def run_ticks(made: Design, milliseconds: Fraction | None = None) -> int:
    """The ticks of a run that says what a pair costs: without a time a hyperperiod, or some 2000 jobs if that is less.

    Each task has a job, if that takes at most 99,000 jobs.

    >>> from rtdvs.board.scale import Scale, design
    >>> text = 'task = [{name = "a", period_ms = 5, worst_cycles = 1}]\\npoint = [{mhz = 1, volts = 1}]'
    >>> run_ticks(design(Board.parse(text), Scale(Fraction(1), Fraction(1))))
    5
    """
    if milliseconds is not None:
        return made.ticks_of(milliseconds)
    jobs = sum(Fraction(1, task.period) for task in made.tasks)
    longest = max(task.period for task in made.tasks)
    return max(1, min(made.tasks.hyperperiod, max(longest, FEW_JOBS // jobs), MOST_JOBS // jobs))


def report(board: Board, made: Design, ticks: int) -> Iterator[str]:
    """The report's tables; the runs of pairs have these ticks. Raises BadValue."""
    asked, units = (Asked.by(board), Asked.by_files(made)), Units(board, made)
    yield aligned([("at the highest speed", "exact", "rounded"), *_asked_rows(asked)])
    if line := unserved(board, made):
        yield f"{line}\n"
    elif reason := units.no_power():
        yield f"no power: {reason}\n"
    else:
        yield aligned([*_cost_rows(board, units.milliseconds(ticks), pair_costs(board, made, ticks))])


def unserved(board: Board, made: Design) -> str:
    """A line if even the highest speed is too slow, for the board or for its files; empty if it isn't."""
    for asked, what in ((Asked.by(board), "board"), (Asked.by_files(made), "board in this tick and unit")):
        if asked.utilisation > 1:
            return f"no speed serves this {what}: the tasks ask for {rounded(asked.utilisation)} of the highest"
    return ""


def _asked_rows(asked: tuple[Asked, Asked]) -> Iterator[tuple[str, ...]]:
    """What tasks ask before rounding, and after it: utilisation, admission, responses, and the most cycles of each."""
    yield "utilisation", *(rounded(each.utilisation) for each in asked)
    yield "EDF", *("admitted" if each.utilisation <= 1 else "denied" for each in asked)
    late = [each.late_under_rm() for each in asked]
    yield "RM", *(f"denied {name}" if name else "admitted" for name in late)
    for place, load in enumerate(asked[0].loads):
        times = [each.response(place) for each in asked]
        yield f"response under RM: {load.name}", *("late" if time is None else f"{rounded(time)} ms" for time in times)
    for (place, load), scheduler in product(enumerate(asked[0].loads), ("edf", "rm")):
        most = [each.most(place, scheduler) for each in asked]
        yield (f"most cycles under {scheduler.upper()}: {load.name}",
               *("-" if cycles is None else str(floor(cycles)) for cycles in most))


@dataclass(frozen=True, slots=True)
class PairCost:
    """What a pair costs: with jobs at their worst cases, and as they usually are; nothing for a pair that is denied.

    >>> PairCost("rm", "cc", {}).spent
    {}
    """

    scheduler: str
    governor: str
    spent: Mapping[str, Spent]


def pair_costs(board: Board, made: Design, ticks: int) -> tuple[PairCost, ...]:
    """What each pair costs in a run of these ticks; with `usual` only if the board says what jobs usually take.

    Raises BadValue if no power was measured.
    """
    demands = {"worst": Demands({})}
    if any(task.usual is not None for task in board.tasks):
        demands["usual"] = usual_demands(board, made, ticks)
    units, found = Units(board, made), list[PairCost]()
    for scheduler, governor in PAIRS:
        try:
            runs = {case: simulate(made.tasks, made.machine, scheduler, ticks, governor, named, admitted=True)
                    for case, named in demands.items()}
        except Denied:
            runs = {}
        found.append(PairCost(scheduler, governor, {case: units.spent(run) for case, run in runs.items()}))
    return tuple(found)


def _cost_rows(board: Board, time: Fraction, costs: Sequence[PairCost]) -> Iterator[tuple[str, ...]]:
    cases = dict.fromkeys(case for cost in costs for case in cost.spent)
    hours = () if board.battery is None else ("hours",)
    yield f"{plain(time)} ms", *(word for case in cases for word in (f"{case} mW", *hours))
    for cost in costs:
        row = [f"{cost.scheduler} {cost.governor}"]
        for run in cost.spent.values():
            row.append(rounded(run.milliwatts))
            if board.battery is not None:
                row.append(rounded(run.hours(board.battery)))
        yield tuple(row) if cost.spent else (*row, "denied")
