"""Exercises by a seed, with their solutions."""

from collections.abc import Iterator
from dataclasses import dataclass
from fractions import Fraction
from itertools import combinations
from math import lcm
from pathlib import Path

from rtdvs import _files, errors
from rtdvs.engine import Engine
from rtdvs.model import Demands, Machine, Point, Task, TaskSet, jobs_of
from rtdvs.rules import Walk, explain, last_line
from rtdvs.studies.random_sets import MOST_SEED, drawn, numbered, require, unrelated_states

BOARD = Machine((Point(2, 3000), Point(3, 4000), Point(4, 5000)))
"""The machine of the exercises, which is that of the example of Pillai and Shin (2001)."""

SMALL_PERIODS = tuple(periods for size in (2, 3) for periods in combinations((4, 5, 6, 8, 10, 12), size)
                      if lcm(*periods) <= 24)
SCHEDULERS = {"edf": "earliest deadline first", "rm": "rate monotonic priorities"}


@dataclass(frozen=True, slots=True)
class Exercise:
    """A run to be traced by hand over a hyperperiod, its trace in version 1 and the lines that explain it.

    >>> from tempfile import TemporaryDirectory
    >>> one = Exercise(TaskSet((Task("t1", 4, 6),)), Demands({("t1", 1): 5}), "edf", "cc", "", "")
    >>> one.question().splitlines()[-1]
    '| `t1` | 4 | 6 | 5 |'
    >>> with TemporaryDirectory() as folder:
    ...     one.write(Path(folder, "one"))
    ...     len(list(Path(folder, "one").iterdir()))
    6
    """

    tasks: TaskSet
    demands: Demands
    scheduler: str
    governor: str
    trace: str
    explanation: str

    def question(self) -> str:
        """The exercise as a page in Markdown."""
        speeds = ", ".join(f"{point.speed} at {point.millivolts} mV" for point in BOARD.points)
        rows = "".join(f"| `{task.name}` | {task.period} | {task.worst} | {self._needs(task)} |\n"
                       for task in self.tasks)
        return (f"Write the trace of {self.tasks.hyperperiod} ticks under {SCHEDULERS[self.scheduler]} with "
                f"the governor `{self.governor}`.\nThe machine has the speeds {speeds}.\n\n"
                f"| Task | Period | Worst case | Its jobs need |\n|---|---|---|---|\n{rows}")

    def _needs(self, task: Task) -> str:
        return ", ".join(str(units) for (name, _), units in self.demands.units.items() if name == task.name)

    def write(self, folder: Path) -> None:
        """Writes the question, the files, the trace and its explanation into a folder; raises OSError."""
        folder.mkdir(parents=True, exist_ok=True)
        self.tasks.write(folder / "tasks.toml")
        BOARD.write(folder / "machine.toml")
        self.demands.write(folder / "demands.csv")
        _files.write_whole(folder / "question.md", self.question())
        _files.write_whole(folder / "solution.trace", self.trace)
        _files.write_whole(folder / "explanation.txt", self.explanation)


def small_sets(stream: Iterator[int]) -> Iterator[tuple[TaskSet, Demands]]:
    """Sets of small numbers that need more than half of the board's highest speed at worst, without end.

    A job needs 1 unit or more, at most its worst case.

    >>> tasks, demands = next(small_sets(unrelated_states(1)))
    >>> [(task.name, task.period, task.worst) for task in tasks]
    [('t1', 6, 9), ('t2', 8, 1), ('t3', 12, 18)]
    >>> list(demands.units.values())
    [7, 5, 5, 1, 1, 1, 1, 3, 11]
    """
    while True:
        periods = SMALL_PERIODS[drawn(stream, len(SMALL_PERIODS))]
        mosts = [2 * BOARD.top_speed * period // len(periods) for period in periods]
        tasks = numbered(periods, [1 + drawn(stream, most) for most in mosts])
        if 2 * sum(Fraction(task.worst, task.period) for task in tasks) > BOARD.top_speed:
            yield tasks, Demands({(task.name, job): 1 + drawn(stream, task.worst)
                                  for task, job in jobs_of(tasks, tasks.hyperperiod)})


def exercise(engine: Engine, seed: int, scheduler: str = "edf", governor: str = "cc") -> Exercise:
    """An exercise by a seed from 1 to 2^31 - 2: the first of its sets that the program admits.

    >>> from rtdvs import find_engine
    >>> exercise(find_engine(), 1).tasks.hyperperiod <= 24
    True
    """
    require(1 <= seed <= MOST_SEED, f"seed is 1 to {MOST_SEED}")
    for tasks, demands in small_sets(unrelated_states(seed)):
        try:
            trace = engine.run(tasks, BOARD, scheduler, governor, tasks.hyperperiod, demands, version=1).text()
        except errors.Denied:
            continue
        lines: list[str] = []
        summary = explain(Walk(tasks, BOARD, trace.splitlines(keepends=True), demands), lines.append)
        lines.append(last_line(summary, any_governor=False, named=True))
        return Exercise(tasks, demands, scheduler, governor, trace, "\n".join(lines) + "\n")
    raise AssertionError("sets have no end")
