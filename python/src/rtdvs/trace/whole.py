"""Traces of runs, read strictly, in memory or from their files, and what they say of the jobs."""

import io
from collections.abc import Callable, Iterator
from dataclasses import asdict, dataclass, replace
from fractions import Fraction
from itertools import islice, pairwise, takewhile
from pathlib import Path
from typing import Self, TextIO

from rtdvs._display import Frame, html_of, picture
from rtdvs.model import Task, TaskSet
from rtdvs.trace import _noted, reader, tables
from rtdvs.trace.jobs import Job
from rtdvs.trace.notes import Decision, End, Head, Idle, Note, Release, TaskEnergy, task_text


@dataclass(frozen=True, slots=True, repr=False)
class Trace(Head, _noted.Noted):
    """A whole trace: its head, tasks and notes. Its tasks, with declared worst cases, are those of version 2.

    >>> trace = Trace.parse(SAMPLE)
    >>> trace.energy, trace.switches, trace.idle_time, trace.residency()
    (6000, 1, Fraction(1, 2), {3: Fraction(1, 1), 2: Fraction(1, 1)})
    >>> trace.text() == SAMPLE
    True
    """

    tasks: tuple[Task, ...]
    notes: tuple[Note, ...]

    @classmethod
    def parse(cls, text: str) -> Self:
        r"""The trace of a text; raises TraceFault.

        >>> Trace.parse("trace 1\nplan edf cc 0\n")
        Traceback (most recent call last):
        rtdvs.errors.TraceFault: line 2: not a plan line
        """
        return cls._of(io.StringIO(text, newline="\n"))

    @classmethod
    def read(cls, path: Path) -> Self:
        """The trace of a file; raises TraceFault, OSError.

        >>> Trace.read(Path("/"))
        Traceback (most recent call last):
        IsADirectoryError: [Errno 21] Is a directory: '/'
        """
        with open(path, encoding="latin-1", newline="\n") as file:
            return cls._of(file)

    @classmethod
    def _of(cls, file: TextIO) -> Self:
        head, *items = reader.parse_lines(reader.lines_of(file))
        tasks = tuple(item for item in items if isinstance(item, Task))
        notes = tuple(item for item in items if not isinstance(item, (Head, Task)))
        return cls(**asdict(head), tasks=tasks, notes=notes)

    def text(self) -> str:
        """The text of the trace, with its last line feed.

        >>> Trace(1, "edf", "mine", 2, (), (End(2, 0, 0),)).text()
        'trace 1\\nplan edf mine 2\\nend 2 0 0\\n'
        """
        notes = (note.text() for note in self.notes)
        return "\n".join([Head.text(self), *map(task_text, self.tasks), *notes, ""])

    def lines(self) -> list[str]:
        r"""The lines of the text, each with its line feed.

        >>> Trace.parse(SAMPLE).lines()[-1]
        'end 2 6000 0\n'
        """
        return self.text().splitlines(keepends=True)

    def first_version(self) -> Self:
        """The same run in version 1, which doesn't have the tasks and the energy of each.

        >>> Trace.parse(SAMPLE).first_version().text().splitlines()[:3]
        ['trace 1', 'plan edf mine 2', 'release 0 t 1']
        """
        notes = tuple(note for note in self.notes if not isinstance(note, TaskEnergy))
        return replace(self, version=1, tasks=(), notes=notes)

    @property
    def end(self) -> End:
        """The last note.

        >>> Trace.parse(SAMPLE).end
        End(ticks=2, run_energy=6000, idle_energy=0)
        """
        last = self.notes[-1]
        assert isinstance(last, End)
        return last

    @property
    def run_energy(self) -> int:
        """The energy of all runs, as the end line has it.

        >>> Trace.parse(SAMPLE).run_energy
        6000
        """
        return self.end.run_energy

    @property
    def idle_energy(self) -> int:
        """The energy of all idle units, as the end line has it.

        >>> Trace.parse(SAMPLE).idle_energy
        0
        """
        return self.end.idle_energy

    @property
    def energy(self) -> int:
        """The energy of runs and idle units together.

        >>> Trace.parse(SAMPLE).energy
        6000
        """
        return self.run_energy + self.idle_energy

    @property
    def decisions(self) -> tuple[Decision, ...]:
        """The decisions, in order.

        >>> Trace.parse(SAMPLE).decisions[1]
        Decision(tick=1, speed=2, num=2, den=1)
        """
        return tuple(note for note in self.notes if isinstance(note, Decision))

    @property
    def spans(self) -> Iterator[tuple[Decision, int]]:
        """Each decision with the tick up to which its speed is in force.

        >>> [(decision.tick, end) for decision, end in Trace.parse(SAMPLE).spans]
        [(0, 1), (1, 2)]
        """
        return zip(self.decisions, [*(each.tick for each in self.decisions[1:]), self.ticks], strict=True)

    @property
    def switches(self) -> int:
        """The number of decisions after which the speed is another than before; the first one is none.

        >>> Trace.parse(SAMPLE).switches
        1
        """
        return sum(one.speed != two.speed for one, two in pairwise(self.decisions))

    def residency(self) -> dict[int, Fraction]:
        """The ticks at each speed that was chosen, in the order of their first use.

        >>> Trace.parse(SAMPLE).residency()
        {3: Fraction(1, 1), 2: Fraction(1, 1)}
        """
        times: dict[int, Fraction] = {}
        for decision, end in self.spans:
            times[decision.speed] = times.get(decision.speed, Fraction(0)) + end - decision.tick
        return times

    @property
    def idle_time(self) -> Fraction:
        """The ticks, and parts of ticks, in which no job runs.

        >>> Trace.parse(SAMPLE).idle_time
        Fraction(1, 2)
        """
        idle = ((note.units, speed) for note, speed in self.at_speeds() if isinstance(note, Idle))
        return sum((Fraction(units, speed) for units, speed in idle), Fraction(0))

    def jobs(self, tasks: TaskSet | None = None) -> tuple[Job, ...]:
        """The jobs in the order of their release lines; of a task set, if it is given.

        A job's deadline is its release and its task's period. In version 1 without a task set the period is
        the distance of the task's first two releases. Raises TraceFault if the trace isn't of the set, or if
        a job runs or is complete without a release line.

        >>> Trace.parse(SAMPLE).jobs()[0].laxity
        Fraction(1, 2)
        >>> Trace.parse("trace 1\\nplan edf mine 2\\nrelease 0 a 1\\nend 2 0 0\\n").jobs()[0].deadline is None
        True
        >>> text = "trace 1\\nplan edf mine 1\\nspeed 0 2 1/1\\nrun 0:0 1:0 a 1 2 5\\nend 1 5 0\\n"
        >>> Trace.parse(text).jobs(TaskSet((Task("a", 4, 2),)))
        Traceback (most recent call last):
        rtdvs.errors.TraceFault: line 4: a job 1 is not released
        """
        return tuple(self.each_job(tasks))

    def frame(self, table: str = "segments", joule: Fraction | None = None, charge: int = 0) -> Frame:
        """A table of the trace as a pandas frame, as rtdvs.trace.frame makes it; ImportError without pandas.

        >>> Trace.parse(SAMPLE).frame("jobs")["laxity"].tolist()
        [0.5]
        """
        return tables.frame(self, table, joule, charge)

    def __repr__(self) -> str:
        late = f", {len(self.misses())} missed, not a run of the program" if self.missed else ""
        jobs = sum(isinstance(note, Release) for note in self.notes)
        return (f"<Trace: {self.scheduler} {self.governor}, {self.ticks} ticks, {jobs} job{'s'[:jobs != 1]}, "
                f"energy {self.energy}{late}>")

    def _repr_svg_(self) -> str | None:
        return picture(self)

    def _repr_html_(self) -> str:
        return picture(self) or html_of(tables.TABLES["segments"], tables.rows(self), repr(self))


@dataclass(frozen=True, slots=True)
class TraceFile(Head, _noted.Noted):
    r"""A trace whose lines are read anew, and strictly, for each pass over its notes: in little memory.

    `lines` gives them, each with its line feed.

    >>> from rtdvs.trace import SAMPLE
    >>> trace = TraceFile.of(lambda: iter(SAMPLE.splitlines(keepends=True)))
    >>> trace.governor, trace.names, [job.units for job in trace.each_job()]
    ('mine', ('t',), [4])
    """

    tasks: tuple[Task, ...]
    lines: Callable[[], Iterator[str]]

    @classmethod
    def of(cls, lines: Callable[[], Iterator[str]]) -> Self:
        """The trace of some lines, of which only the first ones are read; raises TraceFault for these, OSError."""
        head, *items = takewhile(lambda item: isinstance(item, Head | Task), reader.parse_lines(lines()))
        return cls(**asdict(head), tasks=tuple(item for item in items if isinstance(item, Task)), lines=lines)

    @property
    def notes(self) -> Iterator[Note]:
        """The notes, by a pass over the lines; raises TraceFault and OSError."""
        items = islice(reader.parse_lines(self.lines()), 1, None)
        return (item for item in items if not isinstance(item, Head | Task))


SAMPLE = """trace 2
plan edf mine 2
task t 2 0 4
release 0 t 1
speed 0 3 3/1
run 0:0 1:0 t 1 3 5000
speed 1 2 2/1
run 1:0 1:1 t 1 1 1000
done 1:1 t 1 4
idle 1:1 2:0 1 0
energy t 6000
end 2 6000 0
"""
"""A small trace, for the examples."""
