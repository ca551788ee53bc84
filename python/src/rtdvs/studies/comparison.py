"""What each scheduler and governor does to the energy and to the tasks of one set, such as the published example."""

from collections.abc import Callable, Iterable, Iterator, Mapping, Sequence
from concurrent.futures import Executor
from dataclasses import dataclass, field, replace
from fractions import Fraction
from typing import TypeVar

from rtdvs import _display, _numbers
from rtdvs.engine import (
    Answer, Call, Engine, Least, RunTotals, least_call, parse_least, parse_totals, run_call, totals_call,
)
from rtdvs.errors import Denied, TraceFault
from rtdvs.model import PAIRS as ALL_PAIRS, Demands, Machine, Point, Task, TaskSet
from rtdvs.trace import Ran, Run, Trace, task_statistics

T = TypeVar("T")
PAIRS = tuple((str(scheduler), str(governor)) for scheduler, governor in ALL_PAIRS)

HEADING = ("scheduler", "governor", "energy", "of_none", "above_bound", "switches", "idle", "least_laxity", "jitter")


@dataclass(frozen=True, slots=True)
class Result:
    """A run of a pair.

    `energy` is of running and idling, in the unit of a trace. `share` is of the energy of EDF with `none`;
    None if that is denied or 0. `above_bound` is what the energy is above the bound of `least`, as a share of
    the bound; None if that is 0. `switches` counts the decisions with another speed than before. `idle` is a
    share of the run, and so is each speed's `residency`. `least_laxity` and `jitter`, in ticks, are over all
    complete jobs: the least time from a completion to its deadline, and the greatest difference between two
    responses of one task. None without such a job. `ran` are the units at each speed, by which a board has joules.

    >>> idle = Result(12, None, None, 0, Fraction(1), None, None, residency={3: Fraction(1)})
    >>> cells(Row("rm", "cc", idle), [3])[2:]
    ('12', '-', '-', '0', '1.0000', '-', '-', '1.0000')
    """

    energy: int
    share: Fraction | None
    above_bound: Fraction | None
    switches: int
    idle: Fraction
    least_laxity: Fraction | None
    jitter: Fraction | None
    residency: Mapping[int, Fraction]
    ran: Mapping[int, Ran] = field(default_factory=dict)


@dataclass(frozen=True, slots=True)
class Row:
    """A pair with its result; a pair that is denied has no result, but the line of the refusal.

    >>> Row("rm", "cc", None, "denied rm y 7 6").refusal
    'denied rm y 7 6'
    """

    scheduler: str
    governor: str
    result: Result | None
    refusal: str = ""


KINDS = dict.fromkeys(HEADING, "float64") | dict.fromkeys(HEADING[:3], "object") | {"switches": "Int64"}


class Comparison(tuple[Row, ...], _display.Shown):
    """The rows of a comparison, as a tuple that a notebook shows as a table.

    >>> Comparison([Row("rm", "cc", None, "denied rm y 7 6")]).frame()[["governor", "refusal"]].values.tolist()
    [['cc', 'denied rm y 7 6']]
    """

    __slots__ = ()

    def speeds(self) -> list[int]:
        """The speeds of all runs, rising."""
        return sorted({speed for row in self if row.result for speed in row.result.residency})

    def _columns(self) -> Mapping[str, str]:
        return KINDS | {f"at_{speed}": "float64" for speed in self.speeds()} | {"refusal": "object"}

    def _rows(self) -> Iterator[tuple[_display.Cell, ...]]:
        for row in self:
            missing = [None] * (len(self._columns()) - 3)
            yield row.scheduler, row.governor, *(_values(row.result, self.speeds()) or missing), row.refusal


def _values(found: Result | None, speeds: Iterable[int]) -> list[int | Fraction | None]:
    """The values of a row, as HEADING has them, and the times at the speeds; none without a result."""
    return [] if found is None else [
        found.energy, found.share, found.above_bound, found.switches, found.idle, found.least_laxity, found.jitter,
        *(found.residency.get(speed, Fraction(0)) for speed in speeds)]


@dataclass(frozen=True, slots=True)
class Case:
    """The files of a comparison, and its ticks.

    >>> from rtdvs import Point, Task
    >>> Case(TaskSet((Task("a", 5, 7),)), Machine((Point(2, 1000),)), ticks=20).finer(3).ticks
    60
    """

    tasks: TaskSet
    machine: Machine
    ticks: int
    demands: Demands | None = None

    def finer(self, times: int) -> "Case":
        """The same in ticks this many times finer. Speeds stay in units per tick, so all units grow as well.

        >>> from rtdvs import Point, Task
        >>> case = Case(TaskSet((Task("a", 5, 7),)), Machine((Point(2, 1000),), charge=1), 20)
        >>> case.finer(3).tasks.tasks[0], case.finer(3).machine.charge
        (Task(name='a', period=15, worst=21, offset=0), 3)
        """
        tasks = TaskSet.of((task.name, task.period * times, task.worst * times, task.offset * times)
                           for task in self.tasks)
        demands = self.demands and Demands({job: units * times for job, units in self.demands.units.items()})
        machine = replace(self.machine, charge=self.machine.charge * times)
        return Case(tasks, machine, self.ticks * times, demands)


def runs(engine: Engine, case: Case, pairs: Iterable[tuple[str, str]],
         executor: Executor | None = None) -> Iterator[str | Denied]:
    """The text of each pair's trace, or its denial; raises the program's other refusals.

    >>> from rtdvs import Point, Task, find_engine
    >>> case = Case(TaskSet((Task("a", 4, 4),)), Machine((Point(1, 1000),)), 8)
    >>> [parse_totals(str(text)).energy for text in runs(find_engine(), case, PAIRS[:2])]
    [8000000000, 8000000000]
    """
    return (_or_denial(answer, str) for answer in engine.answers(_calls(run_call, case, pairs), executor))


def totals(engine: Engine, case: Case, pairs: Iterable[tuple[str, str]],
           executor: Executor | None = None) -> Iterator[RunTotals | Denied]:
    """The totals of each pair's run, of which no trace is kept, or its denial; raises the program's other refusals.

    >>> from rtdvs import Point, Task, find_engine
    >>> case = Case(TaskSet((Task("a", 4, 4),)), Machine((Point(1, 1000),)), 8)
    >>> [*totals(find_engine(), case, PAIRS[:1])]
    [RunTotals(ticks=8, run_energy=8000000000, idle_energy=0)]
    """
    return (_or_denial(answer, parse_totals) for answer in engine.answers(_calls(totals_call, case, pairs), executor))


def _calls(of: Callable[[bytes, bytes, str, str, int, bytes | None], Call[T]], case: Case,
           pairs: Iterable[tuple[str, str]]) -> Iterator[Call[T]]:
    """A call for each pair; all have the same texts, which are made once."""
    tasks, machine = case.tasks.text().encode(), case.machine.text().encode()
    demands = None if case.demands is None else case.demands.text().encode()
    return (of(tasks, machine, scheduler, governor, case.ticks, demands) for scheduler, governor in pairs)


def _or_denial(answer: Answer, parse: Callable[[str], T]) -> T | Denied:
    """What an answer says, or the Denied that it is; raises any other refusal.

    >>> _or_denial(Answer(1, b"", b"denied rm y 7 6\\n"), parse_totals)
    Denied(test='rm', asked=7, capacity=6, task='y', ticks=None)
    >>> _or_denial(Answer(0, b"end 8 4000 0\\n", b""), parse_totals)
    RunTotals(ticks=8, run_energy=4000, idle_energy=0)
    """
    try:
        return parse(answer.text())
    except Denied as denied:
        return denied


def units_of(trace: Trace) -> int:
    """The work units of all runs, with the charge.

    >>> from rtdvs.trace import SAMPLE
    >>> units_of(Trace.parse(SAMPLE))
    4
    """
    return sum(note.units for note in trace.notes if isinstance(note, Run))


def result(trace: Trace, tasks: TaskSet, least: Least, base: int) -> Result:
    """The result of a trace, with the bound for its units; `base` is the energy that shares are of, or 0.

    Raises TraceFault if a job isn't of the set.

    >>> from rtdvs import Task
    >>> from rtdvs.trace import SAMPLE
    >>> tasks, least = TaskSet((Task("t", 2, 4),)), Least(1, 2, 2, 3, 0, 4000, 1000, 0)
    >>> found = result(Trace.parse(SAMPLE), tasks, least, 9000)
    >>> found.share, found.above_bound, found.switches
    (Fraction(2, 3), Fraction(1, 2), 1)
    """
    of_tasks = task_statistics(trace, tasks)
    laxities = (each.least_laxity for each in of_tasks if each.least_laxity is not None)
    jitters = (each.jitter for each in of_tasks if each.jitter is not None)
    bound = Fraction(least.energy, least.rounds)
    return Result(
        energy=trace.energy,
        share=Fraction(trace.energy, base) if base else None,
        above_bound=trace.energy / bound - 1 if bound else None,
        switches=trace.switches,
        idle=trace.idle_time / trace.ticks,
        least_laxity=min(laxities, default=None),
        jitter=max(jitters, default=None),
        residency={speed: time / trace.ticks for speed, time in trace.residency().items()},
        ran=trace.ran(),
    )


def compare(engine: Engine, tasks: TaskSet, machine: Machine, ticks: int, demands: Demands | None = None,
            traces: Sequence[Trace] = (), executor: Executor | None = None) -> Comparison:
    """A row for each of the seven pairs, and for each trace given beside them.

    Raises TraceFault if a trace is of other tasks, another machine or other ticks, and what the program raises, but not
    for a pair that is denied.

    >>> from rtdvs import Point, Task, find_engine
    >>> machine = Machine((Point(1, 1000), Point(2, 2000)))
    >>> rows = compare(find_engine(), TaskSet((Task("a", 4, 4),)), machine, 8)
    >>> [(row.governor, row.result.energy, row.result.share) for row in rows[:2]]
    [('none', 32000000000, Fraction(1, 1)), ('static', 8000000000, Fraction(1, 4))]
    """
    for trace in traces:
        if trace.ticks != ticks:
            raise TraceFault(2, f"a run of {trace.ticks} ticks, and not of {ticks}")
        trace.belongs_to(tasks, machine)
    found = [text if isinstance(text, Denied) else Trace.parse(text)
             for text in runs(engine, Case(tasks, machine, ticks, demands), PAIRS, executor)]
    done = [trace for trace in [*found, *traces] if isinstance(trace, Trace)]
    bounds = engine.answers((least_call(machine, units_of(trace), ticks) for trace in done), executor)
    base = found[0].energy if isinstance(found[0], Trace) else 0
    results = (result(trace, tasks, parse_least(bound.text()), base) for trace, bound in zip(done, bounds))
    pairs = [*PAIRS, *((trace.scheduler, trace.governor) for trace in traces)]
    return Comparison(Row(*pair, None, str(trace)) if isinstance(trace, Denied) else Row(*pair, next(results))
                 for pair, trace in zip(pairs, [*found, *traces]))


def finer_energies(engine: Engine, case: Case, times: int,
                   executor: Executor | None = None) -> tuple[Fraction | None, ...]:
    """The energy of each of the seven pairs in finer ticks, in the unit of the case; None if it is denied.

    >>> from rtdvs import Point, Task, find_engine
    >>> case = Case(TaskSet((Task("a", 4, 4),)), Machine((Point(1, 1000),)), 8)
    >>> finer_energies(find_engine(), case, 10)[0]
    Fraction(8000000000, 1)
    """
    return tuple(None if isinstance(found, Denied) else Fraction(found.energy, times)
                 for found in totals(engine, case.finer(times), PAIRS, executor))


def table(rows: Sequence[Row]) -> str:
    """The rows below their heading, all shares and ticks with four decimal places.

    >>> table([Row("rm", "cc", None, "denied rm y 7 6")]).splitlines()[1]
    'rm         cc        denied rm y 7 6'
    """
    speeds = Comparison(rows).speeds()
    heading = (*HEADING, *(f"at_{speed}" for speed in speeds))
    return _numbers.aligned([heading, *(cells(row, speeds) for row in rows)], left=2)


def cells(row: Row, speeds: Sequence[int]) -> tuple[str, ...]:
    """The fields of a row's line, with a share of the run for each of the speeds.

    >>> cells(Row("rm", "cc", None, "denied rm y 7 6"), [2, 3])
    ('rm', 'cc', 'denied rm y 7 6')
    """
    values = _values(row.result, speeds)
    texts = [str(value) if isinstance(value, int) else _numbers.decimal(value, 4) for value in values]
    return row.scheduler, row.governor, *(texts or [row.refusal])


def finer_table(rows: Sequence[Row], finer: Mapping[int, Sequence[Fraction | None]]) -> str:
    """The energies in finer ticks, as shares of those of the rows, with four decimal places.

    >>> finer_table([Row("rm", "cc", None, "denied rm y 7 6")], {10: [None]}).splitlines()[1]
    'rm         cc               -'
    """
    heading = ("scheduler", "governor", *(f"finer_{times}" for times in finer))
    shares = [[energy / row.result.energy if energy is not None and row.result and row.result.energy else None
               for row, energy in zip(rows, energies)] for energies in finer.values()]
    return _numbers.aligned([heading, *((row.scheduler, row.governor, *(_numbers.decimal(share, 4) for share in column))
                               for row, *column in zip(rows, *shares))], left=2)


# The energies of the worked example of Pillai and Shin (2001), as shares of EDF with `none`. A row has ticks k
# times finer: periods, worst cases, demands and the ticks of the run times k, at the same speeds. The last row is
# the paper's own.

PAPER_EXAMPLE = Case(
    TaskSet((Task("t1", 8, 12), Task("t2", 10, 12), Task("t3", 14, 4))),
    Machine((Point(2, 3000), Point(3, 4000), Point(4, 5000))),
    16,
    Demands({("t1", 1): 8, ("t1", 2): 4, ("t2", 1): 4, ("t2", 2): 4, ("t3", 1): 4, ("t3", 2): 4}),
)
"""A tick is a millisecond, and 4 work units are one at full speed."""

PAPER_PAIRS = (("edf", "none"), ("rm", "static"), ("edf", "static"), ("edf", "cc"), ("rm", "cc"), ("edf", "la"))
PAPER_HEADING = ("k", "none", "RM static", "EDF static", "EDF cc", "RM cc", "EDF la")
PUBLISHED = ("paper", "1.0", "1.0", "0.64", "0.52", "0.71", "0.44")
FINER = (1, 3, 10, 100)


def paper_shares(engine: Engine, times: int, executor: Executor | None = None) -> tuple[Fraction, ...]:
    """The energies of the published pairs in ticks that are so much finer, each over the first.

    If the ticks are 3 times finer, or a multiple of it, each completion is at a tick. Then it is seen at
    once, as in the continuous time of the paper, and the shares are exactly those.

    >>> from rtdvs import find_engine
    >>> paper_shares(find_engine(), 3)[3:]
    (Fraction(13, 25), Fraction(5, 7), Fraction(11, 25))
    """
    answers = engine.answers(_calls(totals_call, PAPER_EXAMPLE.finer(times), PAPER_PAIRS), executor)
    energies = [parse_totals(answer.text()).energy for answer in answers]
    return tuple(Fraction(energy, energies[0]) for energy in energies)


def paper_lines(rows: Iterable[tuple[int, tuple[Fraction, ...]]]) -> Iterator[str]:
    """The table line by line: its heading, a row for each k with six decimal places, the paper's own.

    >>> [row.split() for row in paper_lines([(3, (Fraction(1), Fraction(5, 7)))])][1]
    ['3', '1.000000', '0.714286']
    """
    yield paper_line(PAPER_HEADING)
    for times, row in rows:
        yield paper_line((str(times), *(_numbers.decimal(share, 6) for share in row)))
    yield paper_line(PUBLISHED)


def paper_line(cells: tuple[str, ...]) -> str:
    """The cells in columns.

    >>> paper_line(("3", "1.000000"))
    '     3    1.000000'
    """
    return f"{cells[0]:>6}" + "".join(f"  {cell:>10}" for cell in cells[1:])
