"""The lines of a trace as values."""

from dataclasses import dataclass
from fractions import Fraction
from typing import ClassVar, NamedTuple

from rtdvs.model import Task


class Position(NamedTuple):
    """A tick, and the work units of it that have passed.

    >>> str(Position(9, 1)), Position(9, 1) < Position(10, 0)
    ('9:1', True)
    """

    tick: int
    offset: int

    def __str__(self) -> str:
        return f"{self.tick}:{self.offset}"

    def time(self, speed: int) -> Fraction:
        """The time in ticks, at a speed in work units per tick.

        >>> Position(9, 1).time(3)
        Fraction(28, 3)
        """
        return self.tick + Fraction(self.offset, speed) if self.offset else Fraction(self.tick)


class _Line:
    """What all lines share: `form` is their text, with the names of their fields."""

    __slots__ = ()
    form: ClassVar[str]

    def text(self) -> str:
        """The text, without its last line feed."""
        return self.form.format(self)


@dataclass(frozen=True, slots=True)
class Release(_Line):
    """A job, by its number from 1 on, is released at a tick.

    >>> Release(tick=0, task="t", job=1).text()
    'release 0 t 1'
    """

    form = "release {0.tick} {0.task} {0.job}"
    tick: int
    task: str
    job: int


@dataclass(frozen=True, slots=True)
class Decision(_Line):
    """A speed is chosen at a tick, for the published demand num/den; both in work units per tick.

    >>> Decision(tick=3, speed=3, num=696, den=280).text()
    'speed 3 3 696/280'
    """

    form = "speed {0.tick} {0.speed} {0.num}/{0.den}"
    tick: int
    speed: int
    num: int
    den: int


@dataclass(frozen=True, slots=True)
class Run(_Line):
    """A job runs for some work units without interruption, and takes their energy.

    >>> Run(Position(0, 0), Position(2, 2), "t1", job=1, units=8, energy=128000000000).text()
    'run 0:0 2:2 t1 1 8 128000000000'
    """

    form = "run {0.begin} {0.end} {0.task} {0.job} {0.units} {0.energy}"
    begin: Position
    end: Position
    task: str
    job: int
    units: int
    energy: int


@dataclass(frozen=True, slots=True)
class Idle(_Line):
    """No job runs for some work units.

    >>> Idle(Position(6, 0), Position(8, 0), units=4, energy=0).text()
    'idle 6:0 8:0 4 0'
    """

    form = "idle {0.begin} {0.end} {0.units} {0.energy}"
    begin: Position
    end: Position
    units: int
    energy: int


@dataclass(frozen=True, slots=True)
class Done(_Line):
    """A job is complete, after all of its work units.

    >>> Done(Position(2, 2), "t1", job=1, used=8).text()
    'done 2:2 t1 1 8'
    """

    form = "done {0.at} {0.task} {0.job} {0.used}"
    at: Position
    task: str
    job: int
    used: int


@dataclass(frozen=True, slots=True)
class TaskEnergy(_Line):
    """The energy of all runs of a task; in version 2 only.

    >>> TaskEnergy("t1", 192000000000).text()
    'energy t1 192000000000'
    """

    form = "energy {0.task} {0.energy}"
    task: str
    energy: int


@dataclass(frozen=True, slots=True)
class End(_Line):
    """The ticks of the run, and its energies.

    >>> End(ticks=16, run_energy=364000000000, idle_energy=0).text()
    'end 16 364000000000 0'
    """

    form = "end {0.ticks} {0.run_energy} {0.idle_energy}"
    ticks: int
    run_energy: int
    idle_energy: int


@dataclass(frozen=True, slots=True)
class Head(_Line):
    """What the first two lines say: the version of the text, and the run's scheduler, governor and ticks.

    >>> Head(1, "edf", "cc", 16).text()
    'trace 1\\nplan edf cc 16'
    """

    form = "trace {0.version}\nplan {0.scheduler} {0.governor} {0.ticks}"
    version: int
    scheduler: str
    governor: str
    ticks: int


def task_text(task: Task) -> str:
    """The line of a task in version 2, without its line feed.

    >>> task_text(Task("t1", period=8, worst=12))
    'task t1 8 0 12'
    """
    return TASK_FORM.format(task)


TASK_FORM = "task {0.name} {0.period} {0.offset} {0.worst}"
Note = Release | Decision | Run | Idle | Done | TaskEnergy | End
Line = Task | Note
Item = Head | Line
