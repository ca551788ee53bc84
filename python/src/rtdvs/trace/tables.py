"""A trace as tables: rows, CSV and pandas; and the statistics of its tasks.

Times are exact decimals of ticks with six places, rounded half to even, and whole ticks without a point.
Energies are whole numbers.
"""

from collections.abc import Iterator
from dataclasses import dataclass
from fractions import Fraction

from rtdvs import _display, _numbers
from rtdvs.model import TaskSet
from rtdvs.trace._noted import Noted
from rtdvs.trace.jobs import Job, is_late
from rtdvs.trace.notes import Decision, Idle, Run

REALS = {"j": "job", "s": "speed", "d": "demand", "e": "energy"}


def ticks(time: Fraction) -> str:
    """A time in ticks.

    >>> ticks(Fraction(28, 3)), ticks(Fraction(9))
    ('9.333333', '9')
    """
    return _numbers.decimal(time, 6 if time.denominator > 1 else 0)


TABLES = {  # the columns, and the kind that pandas has of each
    "segments": {"kind": "object", "task": "object", "job": "Int64", "from": "object", "to": "object",
                 "start": "float64", "stop": "float64", "speed": "int64", "units": "object",
                 "energy": "object"},
    "jobs": {"task": "object", "job": "int64", "release": "int64", "deadline": "Int64", "done": "float64",
             "response": "float64", "laxity": "float64", "used": "Int64", "declared": "Int64"},
    "decisions": {"tick": "int64", "speed": "int64", "num": "object", "den": "object", "quotient": "float64"},
}


def rows(trace: Noted, table: str = "segments", charge: int = 0) -> Iterator[tuple[_display.Cell, ...]]:
    """The rows of a table: segments, jobs or decisions; times in ticks, and None for what isn't known.

    `declared` has the machine's charge twice. Raises KeyError for another table, and TraceFault as
    Trace.jobs does.

    >>> from rtdvs.trace import SAMPLE, Trace
    >>> [row[2:7] for row in rows(Trace.parse(SAMPLE), "jobs")]
    [(0, 2, Fraction(3, 2), Fraction(3, 2), Fraction(1, 2))]
    """
    if table == "jobs":
        return _jobs(trace, charge)
    return {"segments": _segments, "decisions": _decisions}[table](trace)


def _decisions(trace: Noted) -> Iterator[tuple[_display.Cell, ...]]:
    return ((note.tick, note.speed, note.num, note.den, Fraction(note.num, note.den))
            for note in trace.notes if isinstance(note, Decision))


def _segments(trace: Noted) -> Iterator[tuple[_display.Cell, ...]]:
    for note, speed in trace.at_speeds():
        if isinstance(note, Run | Idle):
            whose = ("run", note.task, note.job) if isinstance(note, Run) else ("idle", "", None)
            yield (*whose, str(note.begin), str(note.end), note.begin.time(speed), note.end.time(speed),
                   speed, note.units, note.energy)


def _jobs(trace: Noted, charge: int) -> Iterator[tuple[_display.Cell, ...]]:
    declared = {task.name: task.worst + 2 * charge for task in trace.tasks}
    for job in trace.each_job():
        used = None if job.completion is None else job.units
        yield (job.task, job.number, job.release, job.deadline, job.completion, job.response, job.laxity, used,
               declared.get(job.task))


def csv_text(trace: Noted, table: str = "segments", charge: int = 0) -> str:
    """A table of a trace in CSV: segments, jobs or decisions; the charge is for `declared`.

    >>> from rtdvs.trace import SAMPLE, Trace
    >>> print(csv_text(Trace.parse(SAMPLE), "jobs"), end="")
    task,job,release,deadline,done,response,laxity,used,declared
    t,1,0,2,1.500000,1.500000,0.500000,4,4
    """
    return "".join(csv_lines(trace, table, charge))


def csv_lines(trace: Noted, table: str = "segments", charge: int = 0) -> Iterator[str]:
    r"""The lines of that text, one after the other.

    >>> from rtdvs.trace import SAMPLE, Trace
    >>> next(csv_lines(Trace.parse(SAMPLE), "decisions"))
    'tick,speed,num,den,quotient\n'
    """
    yield f"{','.join(TABLES[table])}\n"
    for row in rows(trace, table, charge):
        yield f"{','.join(_cell_text(cell, table) for cell in row)}\n"


def _cell_text(cell: _display.Cell, table: str) -> str:
    if isinstance(cell, Fraction):
        return _numbers.significant(*cell.as_integer_ratio(), 9) if table == "decisions" else ticks(cell)
    return "" if cell is None else str(cell)


def frame(trace: Noted, table: str = "segments", joule: Fraction | None = None, charge: int = 0) -> _display.Frame:
    """A table of a trace as a pandas frame; ImportError without pandas.

    Times are floats of ticks. Energies are Python's integers, so their sums are exact. With `joule`, the
    joules of an energy of 1, there is a column `joules` of floats beside them.

    >>> from rtdvs.trace import SAMPLE, Trace
    >>> frame(Trace.parse(SAMPLE))["energy"].sum()
    6000
    """
    made = _display.frame_of(TABLES[table], rows(trace, table, charge))
    if joule is not None and "energy" in made:
        made["joules"] = [float(energy * joule) for energy in made["energy"]]
    return made


# Statistics: a line for each task


@dataclass(frozen=True, slots=True)
class Responses:
    """How many jobs are complete, and the sum, the least and the greatest of their responses, in ticks.

    >>> Responses().plus(Fraction(5, 2)).plus(Fraction(3))
    Responses(complete=2, total=Fraction(11, 2), least=Fraction(5, 2), greatest=Fraction(3, 1))
    """

    complete: int = 0
    total: Fraction = Fraction(0)
    least: Fraction | None = None
    greatest: Fraction | None = None

    def plus(self, response: Fraction) -> "Responses":
        """With one more complete job."""
        return Responses(self.complete + 1, self.total + response,
                         response if self.least is None else min(self.least, response),
                         response if self.greatest is None else max(self.greatest, response))


@dataclass(frozen=True, slots=True)
class TaskStatistics:
    """What a task's jobs did. Times are exact, in ticks, and None without a complete job.

    `complete` are the jobs that are complete within the run, and `missed` those that weren't at their deadlines.

    >>> TaskStatistics("t").plus(Job("t", 1, 0, 4, completion=Fraction(5, 2)), ticks=4).row(1)
    ('t', '1', '1', '0', '2.5', '2.5', '0.0', '1.5', '0', '0')
    """

    task: str
    jobs: int = 0
    missed: int = 0
    responses: Responses = Responses()
    least_laxity: Fraction | None = None
    preemptions: int = 0
    energy: int = 0

    def plus(self, job: Job, ticks: int) -> "TaskStatistics":
        """With one more job, of a run of these ticks.

        >>> one = TaskStatistics("t").plus(Job("t", 1, 0, 4, completion=Fraction(5, 2)), ticks=6)
        >>> one.plus(Job("t", 2, 4, 8), ticks=6).mean_response
        Fraction(5, 2)
        """
        response, laxity, least = job.response, job.laxity, self.least_laxity
        return TaskStatistics(
            self.task, self.jobs + 1, self.missed + is_late(job, ticks),
            self.responses if response is None else self.responses.plus(response),
            least if laxity is None else laxity if least is None else min(least, laxity),
            self.preemptions + job.preemptions, self.energy + job.energy,
        )

    @property
    def complete(self) -> int:
        """The jobs that are complete."""
        return self.responses.complete

    @property
    def mean_response(self) -> Fraction | None:
        """The mean of the responses."""
        return self.responses.total / self.complete if self.complete else None

    @property
    def greatest_response(self) -> Fraction | None:
        """The greatest of the responses."""
        return self.responses.greatest

    @property
    def jitter(self) -> Fraction | None:
        """The greatest response less the least one."""
        least, greatest = self.responses.least, self.responses.greatest
        return None if greatest is None or least is None else greatest - least

    def cells(self) -> tuple[_display.Cell, ...]:
        """The values in the order of COLUMNS."""
        return tuple(getattr(self, column) for column in COLUMNS)

    def row(self, places: int = 4) -> tuple[str, ...]:
        """The values as text, in the order of COLUMNS; times with this many decimal places."""
        cells = self.cells()
        return tuple(str(cell) if isinstance(cell, str | int) else _numbers.decimal(cell, places) for cell in cells)


KINDS = {"task": "object", "jobs": "int64", "complete": "int64", "missed": "int64", "mean_response": "float64",
         "greatest_response": "float64", "jitter": "float64", "least_laxity": "float64", "preemptions": "int64",
         "energy": "object"}
COLUMNS = tuple(KINDS)


class Statistics(tuple[TaskStatistics, ...], _display.Shown):
    """The statistics of each task, as a tuple that a notebook shows as a table.

    >>> Statistics([TaskStatistics("t", jobs=1)]).frame()["jobs"].tolist()
    [1]
    """

    __slots__ = ()
    _kinds = KINDS

    def _rows(self) -> Iterator[tuple[_display.Cell, ...]]:
        return (each.cells() for each in self)


def task_statistics(trace: Noted, tasks: TaskSet) -> Statistics:
    """A record for each task, in the order of the task set, by one pass over the notes.

    Raises TraceFault if a job isn't of the set.

    >>> from rtdvs.model import Task
    >>> from rtdvs.trace import SAMPLE, Trace
    >>> task_statistics(Trace.parse(SAMPLE), TaskSet((Task("t", 2, 4),)))[0].row(2)
    ('t', '1', '1', '0', '1.50', '1.50', '0.00', '0.50', '0', '6000')
    """
    found = {task.name: TaskStatistics(task.name) for task in tasks}
    for job in trace.each_job(tasks):
        found[job.task] = found[job.task].plus(job, trace.ticks)
    return Statistics(found.values())
