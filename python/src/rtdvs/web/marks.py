"""What a page draws of a trace: jobs with their facts, runs, idle times and decisions, as rows of JSON.

The facts are worked out here; the page only writes them. A time is a whole number of ticks, or a text such as
"2 2/3".
"""

from collections.abc import Callable, Iterator, Mapping
from fractions import Fraction

from rtdvs.model import TaskSet
from rtdvs.trace import Decision, Done, Idle, Job, Release, Run, Trace, is_late

PIECE = 4000        # marks that are read together
Row = list[object]
Name = tuple[str, int]


def time_of(time: Fraction | None) -> int | str | None:
    """A time in ticks; None stays None.

    >>> time_of(Fraction(8, 3)), time_of(Fraction(2, 3)), time_of(Fraction(4)), time_of(None)
    ('2 2/3', '2/3', 4, None)
    """
    if time is None:
        return None
    whole, rest = divmod(time.numerator, time.denominator)
    return f"{whole or ''} {rest}/{time.denominator}".strip() if rest else whole


def empty_piece() -> dict[str, list[Row]]:
    """Room for some marks of a trace, in the order of time; a run names its job by its place among all jobs.

    >>> empty_piece()["idles"]
    []
    """
    return {"jobs": [], "runs": [], "idles": [], "decisions": []}


def raw_energy(job: Job) -> str:
    """A job's energy as the trace has it.

    >>> raw_energy(Job("t", 1, 0, 8, energy=500))
    '500'
    """
    return str(job.energy)


def job_row(job: Job, place: int, speed: int, ticks: int, energy: Callable[[Job], str] = raw_energy) -> Row:
    """A job: its task's place, number, release, deadline, completion, response, laxity, units, energy, the speed
    at its completion, and whether it misses its deadline.

    >>> job_row(Job("t", 1, 0, 8, Fraction(0), Fraction(8, 3), 8, 0, 500), 0, 3, 16)
    [0, 1, 0, 8, '2 2/3', '2 2/3', '5 1/3', 8, '500', 3, 0]
    """
    times = (time_of(time) for time in (job.completion, job.response, job.laxity))
    late = int(is_late(job, ticks))
    return [place, job.number, job.release, job.deadline, *times, job.units, energy(job), speed, late]


def mark_pieces(trace: Trace, tasks: TaskSet, size: int = PIECE,
                energy: Callable[[Job], str] = raw_energy) -> Iterator[dict[str, list[Row]]]:
    """The marks of a trace in pieces of about that many. Raises TraceFault for a job that can't be.

    >>> from rtdvs.model import Task
    >>> from rtdvs.trace import SAMPLE
    >>> piece, = mark_pieces(Trace.parse(SAMPLE), TaskSet((Task("t", 2, 4),)))
    >>> piece["decisions"], piece["runs"]
    ([[0, 3, '3/1', 5], [1, 2, '2/1', 7]], [[0, 0, 1, 3, 3], [0, 1, '1 1/2', 2, 1]])
    """
    rows = {task.name: place for place, task in enumerate(tasks)}
    jobs = {(job.task, job.number): job for job in trace.jobs(tasks)}
    places = {name: place for place, name in enumerate(jobs)}
    speeds = {(note.task, note.job): speed for note, speed in trace.at_speeds() if isinstance(note, Done)}
    piece, count = empty_piece(), 0
    for line, note, speed in trace.numbered():
        match note:
            case Release(task=task, job=number):
                last = speeds.get((task, number), 0)
                piece["jobs"].append(job_row(jobs[task, number], rows[task], last, trace.ticks, energy))
            case Run():
                piece["runs"].append(_segment(note, speed, places))
            case Idle():
                piece["idles"].append(_segment(note, speed, {}))
            case Decision():
                piece["decisions"].append([note.tick, note.speed, f"{note.num}/{note.den}", line])
            case _:
                continue
        count += 1
        if count % size == 0:
            yield piece
            piece = empty_piece()
    yield piece


def _segment(note: Run | Idle, speed: int, places: Mapping[Name, int]) -> Row:
    """A run, with the place of its job, or idle time: begin, end, speed and units."""
    job = [places[note.task, note.job]] if isinstance(note, Run) else []
    return [*job, time_of(note.begin.time(speed)), time_of(note.end.time(speed)), speed, note.units]
