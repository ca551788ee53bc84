"""What is read off the notes of a trace in their order, in memory or in a file."""

from collections.abc import Iterable, Iterator, Mapping
from dataclasses import dataclass, field
from itertools import takewhile

from rtdvs.errors import TraceFault
from rtdvs.model import Machine, Task, TaskSet
from rtdvs.trace import jobs
from rtdvs.trace.jobs import Miss, Missed, late_jobs, split_governor
from rtdvs.trace.notes import Decision, Done, End, Idle, Note, Release, Run

# Why a note can't be of a task set, or not of a machine


def not_of_tasks(note: Note, tasks: Mapping[str, Task]) -> str:
    """Why a note can't be of these tasks, or an empty text.

    >>> not_of_tasks(Release(8, "a", 2), {"a": Task("a", period=4, worst=2, offset=1)})
    'a job 2 is released at tick 5'
    """
    if isinstance(note, Decision | Idle | End):
        return ""
    task = tasks.get(note.task)
    if task is None:
        return f"no task {note.task}"
    if isinstance(note, Release):
        if note.job == 0:
            return "jobs count from 1"
        tick = task.offset + (note.job - 1) * task.period
        return "" if note.tick == tick else f"{note.task} job {note.job} is released at tick {tick}"
    return ""


def wrong_energy(note: Run | Idle, millivolts: int, factor: int) -> str:
    """Why the energy of a segment is wrong, or an empty text; the factor is 1000 or the machine's idle.

    >>> from rtdvs.trace.notes import Position
    >>> wrong_energy(Idle(Position(0, 0), Position(2, 0), units=4, energy=0), 3000, 100)
    'the energy is 4 * 3000 * 3000 * 100 = 3600000000'
    """
    energy = note.units * millivolts * millivolts * factor
    if note.energy == energy:
        return ""
    return f"the energy is {note.units} * {millivolts} * {millivolts} * {factor} = {energy}"


def wrong_sums(end: End, run: int, idle: int) -> str:
    """Why the sums of the end line are wrong, or an empty text.

    >>> wrong_sums(End(4, 12, 0), 12, 1)
    'the lines add up to 12 for runs and 1 for idle units'
    """
    if (end.run_energy, end.idle_energy) == (run, idle):
        return ""
    return f"the lines add up to {run} for runs and {idle} for idle units"


@dataclass
class OnMachine:
    """Holds a trace's notes against a machine: its speeds, its energies, and its charge, twice in each job.

    >>> from rtdvs.model import Point
    >>> from rtdvs.trace.notes import Position
    >>> machine = Machine((Point(2, 3000),), charge=1)
    >>> OnMachine(machine, {"a": Task("a", 4, 2)}).fault(Done(Position(0, 0), "a", 1, used=1), speed=2)
    'a job 1 has had 1 units, of 2 to 4'
    """

    machine: Machine
    tasks: Mapping[str, Task]
    used: dict[tuple[str, int], int] = field(default_factory=dict)
    run_energy: int = 0
    idle_energy: int = 0

    def __post_init__(self) -> None:
        self.points = {point.speed: point for point in self.machine.points}

    def fault(self, note: Note, speed: int) -> str:
        """Why the note can't be next at the speed in force, or an empty text."""
        if isinstance(note, Decision | Run | Idle) and speed not in self.points:
            return f"the machine has no speed {speed}"
        if isinstance(note, Run):
            self.run_energy += note.energy
            had = self.used[note.task, note.job] = self.used.get((note.task, note.job), 0) + note.units
            return wrong_energy(note, self.points[speed].millivolts, 1000) or self._wrong_units(note, 0, had)
        if isinstance(note, Idle):
            self.idle_energy += note.energy
            return wrong_energy(note, self.points[speed].millivolts, self.machine.idle)
        if isinstance(note, Done):
            self.used.pop((note.task, note.job), None)
            return self._wrong_units(note, 2 * self.machine.charge, note.used)
        return wrong_sums(note, self.run_energy, self.idle_energy) if isinstance(note, End) else ""

    def _wrong_units(self, note: Run | Done, least: int, units: int) -> str:
        most = self.tasks[note.task].worst + 2 * self.machine.charge
        if least <= units <= most:
            return ""
        return f"{note.task} job {note.job} has had {units} units, of {least} to {most}"


# What the notes say


class Noted:
    """A trace by its version, its tasks and its notes, which may be read anew for each pass."""

    __slots__ = ()
    version: int
    governor: str
    ticks: int
    tasks: tuple[Task, ...]

    @property
    def notes(self) -> Iterable[Note]:
        """The notes, in order."""
        raise NotImplementedError

    @property
    def names(self) -> tuple[str, ...]:
        """The tasks in file order; in version 1 in the order of the notes that name them.

        >>> from rtdvs.trace import SAMPLE, Trace
        >>> Trace.parse(SAMPLE).names
        ('t',)
        """
        if self.tasks:
            return tuple(task.name for task in self.tasks)
        return tuple(dict.fromkeys(note.task for note in self.notes if isinstance(note, Release | Run | Done)))

    def at_speeds(self) -> Iterator[tuple[Note, int]]:
        """Each note with the speed in force there, in work units per tick; 1 before the first decision.

        >>> from rtdvs.trace import SAMPLE, Trace
        >>> [speed for note, speed in Trace.parse(SAMPLE).at_speeds() if isinstance(note, Run)]
        [3, 2]
        """
        speed = 1
        for note in self.notes:
            if isinstance(note, Decision):
                speed = note.speed
            yield note, speed

    def ran(self) -> dict[int, jobs.Ran]:
        """The units at each speed that was chosen: of runs, and idle ones.

        >>> from rtdvs.trace import SAMPLE, Trace
        >>> Trace.parse(SAMPLE).ran()
        {3: Ran(units=3, idle=0), 2: Ran(units=1, idle=1)}
        """
        return jobs.ran_at(self.at_speeds())

    def numbered(self) -> Iterator[jobs.Placed]:
        """Each note with the number of its line, and with the speed in force, as in `at_speeds`.

        >>> from rtdvs.trace import SAMPLE, Trace
        >>> next(Trace.parse(SAMPLE).numbered())
        (4, Release(tick=0, task='t', job=1), 1)
        """
        return ((line, note, speed) for line, (note, speed) in enumerate(self.at_speeds(), len(self.tasks) + 3))

    def belongs_to(self, tasks: TaskSet, machine: Machine | None = None) -> None:
        """Raises TraceFault, with the line, if the trace can't be one of this set, or not of this machine.

        Version 2 has just these tasks. Releases are of these tasks, each at the offset and whole periods. The
        machine has each speed, the energies are those of its points and of its idle share, and each job has
        at least its charge twice, and at most its worst case with it. The order of the notes isn't checked.

        >>> from rtdvs.model import Point
        >>> from rtdvs.trace import SAMPLE, Trace
        >>> trace = Trace.parse(SAMPLE)
        >>> trace.belongs_to(TaskSet((Task("t", 3, 4),)))
        Traceback (most recent call last):
        rtdvs.errors.TraceFault: line 3: its tasks aren't those of the task file
        >>> trace.belongs_to(TaskSet((Task("t", 2, 4),)), Machine((Point(2, 1000),)))
        Traceback (most recent call last):
        rtdvs.errors.TraceFault: line 5: the machine has no speed 3
        """
        for _ in self._belonging(tasks, machine):
            pass

    def _belonging(self, tasks: TaskSet, machine: Machine | None = None) -> Iterator[jobs.Placed]:
        """The notes as `numbered` has them, each after `belongs_to` looked at it."""
        if self.version == 2:
            same = sum(1 for _ in takewhile(lambda pair: pair[0] == pair[1], zip(self.tasks, tasks)))
            if same < max(len(self.tasks), len(tasks)):
                raise TraceFault(same + 3, "its tasks aren't those of the task file")
        named = {task.name: task for task in tasks}
        on = None if machine is None else OnMachine(machine, named)
        for line, note, speed in self.numbered():
            if fault := not_of_tasks(note, named) or (on.fault(note, speed) if on else ""):
                raise TraceFault(line, fault)
            yield line, note, speed

    def each_job(self, tasks: TaskSet | None = None) -> Iterator[jobs.Job]:
        """The jobs as Trace.jobs has them, in little memory; raises TraceFault as that does.

        >>> from rtdvs.trace import SAMPLE, Trace
        >>> [job.units for job in Trace.parse(SAMPLE).each_job()]
        [4]
        """
        periods = {task.name: task.period for task in tasks or self.tasks} or jobs.periods_of(self.notes)
        placed = self.numbered() if tasks is None else self._belonging(tasks)
        return jobs.in_order(jobs.ended(placed, periods, self.missed is Missed.DROP))

    @property
    def missed(self) -> Missed | None:
        """What is done at a missed deadline, by the governor's word; None for a run in which none may be missed.

        >>> from rtdvs.trace import End, Trace
        >>> Trace(1, "rm", "static-drop", 2, (), (End(2, 0, 0),)).missed
        <Missed.DROP: 'drop'>
        """
        return split_governor(self.governor)[1]

    def misses(self, tasks: TaskSet | None = None) -> tuple[Miss, ...]:
        """The jobs that aren't complete at their deadlines, by rising deadlines; a set as for `jobs`.

        >>> from rtdvs.trace import SAMPLE, Trace
        >>> Trace.parse(SAMPLE).misses()
        ()
        """
        return late_jobs(self.numbered(), self.each_job(tasks), self.ticks)
