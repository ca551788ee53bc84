"""The jobs of a trace: the one place where they are rebuilt from its notes; and the deadlines that they miss."""

from collections.abc import Iterable, Iterator, Mapping
from dataclasses import dataclass
from enum import StrEnum
from fractions import Fraction
from typing import NamedTuple

from rtdvs.errors import BadValue, TraceFault
from rtdvs.trace.notes import Done, Idle, Note, Position, Release, Run

Placed = tuple[int, Note, int]
"""A note with the number of its line, and with the speed in force there, in work units per tick."""


@dataclass(frozen=True, slots=True)
class Job:
    """A released job. Times are in ticks; start and completion are None if they aren't within the run.

    `deadline` is the release and the period; None if the period isn't known. `preemptions` counts how often
    another job began to run while the job was begun, open and the one that ran last.

    >>> job = Job("t2", 1, release=0, deadline=10, start=Fraction(8, 3), completion=Fraction(4), units=4)
    >>> job.response, job.laxity
    (Fraction(4, 1), Fraction(6, 1))
    """

    task: str
    number: int
    release: int
    deadline: int | None
    start: Fraction | None = None
    completion: Fraction | None = None
    units: int = 0
    preemptions: int = 0
    energy: int = 0

    @property
    def response(self) -> Fraction | None:
        """The ticks from the release to the completion.

        >>> Job("t", 1, release=2, deadline=10, completion=Fraction(7, 2)).response
        Fraction(3, 2)
        """
        return None if self.completion is None else self.completion - self.release

    @property
    def laxity(self) -> Fraction | None:
        """The ticks from the completion to the deadline; None without one of them.

        >>> Job("t", 1, release=2, deadline=10, completion=Fraction(7, 2)).laxity
        Fraction(13, 2)
        """
        if self.deadline is None or self.completion is None:
            return None
        return self.deadline - self.completion


class Ran(NamedTuple):
    """Work units at a speed: those of runs, and those in which no job ran."""

    units: int = 0
    idle: int = 0


def ran_at(notes: Iterable[tuple[Note, int]]) -> dict[int, Ran]:
    """The units at each speed, of notes with the speed in force.

    >>> ran_at([(Idle(Position(0, 0), Position(2, 0), units=4, energy=0), 2)])
    {2: Ran(units=0, idle=4)}
    """
    found: dict[int, Ran] = {}
    for note, speed in notes:
        if isinstance(note, Run | Idle):
            before = found.get(speed, Ran())
            found[speed] = (before._replace(units=before.units + note.units) if isinstance(note, Run)
                            else before._replace(idle=before.idle + note.units))
    return found


def periods_of(notes: Iterable[Note]) -> dict[str, int]:
    """Each task's period in ticks, as version 1 says it: the distance of its first two releases, if it has two.

    >>> periods_of([Release(3, "a", 1), Release(3, "b", 1), Release(7, "a", 2)])
    {'a': 4}
    """
    first: dict[str, int] = {}
    periods: dict[str, int] = {}
    for note in notes:
        if isinstance(note, Release) and note.tick != first.setdefault(note.task, note.tick):
            periods.setdefault(note.task, note.tick - first[note.task])
    return periods


@dataclass(slots=True)
class _Begun:
    """A job while its notes are read, with its place among the release lines."""

    place: int
    release: int
    deadline: int | None
    start: Fraction | None = None
    completion: Fraction | None = None
    units: int = 0
    preemptions: int = 0
    energy: int = 0

    def named(self, task: str, number: int) -> tuple[int, Job]:
        return self.place, Job(task, number, self.release, self.deadline, self.start, self.completion, self.units,
                               self.preemptions, self.energy)


def ended(notes: Iterable[Placed], periods: Mapping[str, int], is_dropped: bool = False) -> Iterator[tuple[int, Job]]:
    """Each job when it is complete, and at the end those that aren't, with its place among the release lines.

    Only jobs that aren't complete are kept. A job that is dropped at its deadline isn't interrupted there. Raises
    TraceFault for a note that no job can have.

    >>> [*ended([(3, Release(0, "a", 1), 1), (4, Release(0, "a", 1), 1)], {})]
    Traceback (most recent call last):
    rtdvs.errors.TraceFault: line 4: a job 1 is released twice
    """
    latest: dict[str, int] = {}  # the number of each task's latest job
    jobs: dict[tuple[str, int], _Begun] = {}
    last: _Begun | None = None  # the job that ran last
    released = 0
    for line, note, speed in notes:
        if isinstance(note, Release):
            before = latest.get(note.task, 0)
            if note.job <= before:
                why = "released twice" if note.job == before else f"released after job {before}"
                raise TraceFault(line, f"{note.task} job {note.job} is {why}")
            period = periods.get(note.task)
            due = None if period is None else note.tick + period
            jobs[note.task, note.job] = _Begun(released, note.tick, due)
            latest[note.task], released = note.job, released + 1
        elif isinstance(note, Run | Done):
            job = jobs.get((note.task, note.job))
            if job is None:
                why = "is not released" if note.job > latest.get(note.task, 0) else "is complete"
                raise TraceFault(line, f"{note.task} job {note.job} {why}")
            if isinstance(note, Done):
                job.completion = note.at.time(speed)
                yield jobs.pop((note.task, note.job)).named(note.task, note.job)
                continue
            if last and last is not job and last.completion is None and not (
                    is_dropped and last.deadline is not None and last.deadline <= note.begin.tick):
                last.preemptions += 1
            last = job
            job.units, job.energy = job.units + note.units, job.energy + note.energy
            job.start = note.begin.time(speed) if job.start is None else job.start
    yield from (job.named(*key) for key, job in jobs.items())


def in_order(pairs: Iterable[tuple[int, Job]]) -> Iterator[Job]:
    """The jobs of `ended` in the order of their release lines; those that end before an earlier one wait for it.

    >>> [job.task for job in in_order([(1, Job("b", 1, 0, None)), (0, Job("a", 1, 0, None))])]
    ['a', 'b']
    """
    waiting: dict[int, Job] = {}
    place = 0
    for found, job in pairs:
        waiting[found] = job
        while place in waiting:
            yield waiting.pop(place)
            place += 1


# Deadlines that jobs of a run miss, and what is done then. A run of the program has none


class Missed(StrEnum):
    """What is done with a job at a deadline that it misses: it continues, it is dropped, or the run stops.

    Raises BadValue for another word.

    >>> Missed("drop"), Missed.STOP == "stop"
    (<Missed.DROP: 'drop'>, True)
    >>> Missed("skip")
    Traceback (most recent call last):
    rtdvs.errors.BadValue: a missed deadline is continue, drop, stop, not skip
    """

    CONTINUE = "continue"
    DROP = "drop"
    STOP = "stop"

    @classmethod
    def _missing_(cls, value: object) -> None:
        raise BadValue(f"a missed deadline is {', '.join(cls)}, not {value}")

    def text(self) -> str:
        """What the title of a trace says of it.

        >>> Missed.DROP.text()
        'late jobs are dropped'
        """
        return {"continue": "late jobs continue", "drop": "late jobs are dropped",
                "stop": "the run stops at a missed deadline"}[self]


@dataclass(frozen=True, slots=True)
class Miss:
    """A job that isn't complete at its deadline, a tick; `used` are the work units that it has had by then.

    >>> Miss("t3", 1, due=14, used=0).text()
    't3 job 1 was due at 14 and is not complete: it has had 0 units'
    """

    task: str
    job: int
    due: int
    used: int

    def text(self) -> str:
        """A line for it."""
        return f"{self.task} job {self.job} was due at {self.due} and is not complete: it has had {self.used} units"


def split_governor(word: str) -> tuple[str, Missed | None]:
    """A trace's word for its governor: the governor's own, and what is done at a missed deadline if it says that.

    >>> split_governor("static-continue"), split_governor("static")
    (('static', <Missed.CONTINUE: 'continue'>), ('static', None))
    """
    name, _, last = word.rpartition("-")
    return (name, Missed(last)) if name and last in [*Missed] else (word, None)


def is_late(job: Job, ticks: int) -> bool:
    """Whether a job of a run of these ticks isn't complete at its deadline.

    >>> is_late(Job("a", 1, 0, deadline=4), ticks=4), is_late(Job("a", 2, 4, deadline=8), ticks=4)
    (True, False)
    """
    due, done = job.deadline, job.completion
    return due is not None and due <= ticks and (done is None or done > due)


def late_jobs(notes: Iterable[Placed], jobs: Iterable[Job], ticks: int) -> tuple[Miss, ...]:
    """The jobs of a run of these ticks that aren't complete at their deadlines, by rising deadlines.

    >>> late_jobs([], [Job("a", 1, 0, deadline=4), Job("a", 2, 4, deadline=8)], ticks=4)
    (Miss(task='a', job=1, due=4, used=0),)
    """
    due = {(job.task, job.number): job.deadline for job in jobs if job.deadline is not None and is_late(job, ticks)}
    used = dict.fromkeys(due, 0)
    for _, note, _ in notes if due else ():
        if isinstance(note, Run) and (note.task, note.job) in due and note.end <= (due[note.task, note.job], 0):
            used[note.task, note.job] += note.units
    found = (Miss(task, job, tick, used[task, job]) for (task, job), tick in due.items())
    return tuple(sorted(found, key=lambda miss: miss.due))
