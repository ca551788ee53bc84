"""What the picture of a trace has: bars and completions, and how they are thinned in a long run."""

from collections.abc import Iterable, Iterator, Mapping
from dataclasses import dataclass

from rtdvs.trace import Idle, Job, Position, Run, Trace


@dataclass(frozen=True, slots=True)
class Bar:
    """A run or idle time from tick to tick, at a speed in work units per tick.

    >>> Bar(0.0, 1.5, speed=3).end
    1.5
    """

    begin: float
    end: float
    speed: int


@dataclass(frozen=True, slots=True)
class Completion:
    """A job's completion: its tick, release and deadline, the units used, the speed there, the job's greatest.

    >>> Completion(at=1.5, release=0, due=2, used=4, speed=2, highest=3).used
    4
    """

    at: float
    release: int
    due: int | None
    used: int
    speed: int
    highest: int


def bars(trace: Trace) -> dict[str, list[Bar]]:
    """The runs of each task, and idle time under the empty name. Segments that meet at one speed are one bar.

    >>> from rtdvs.trace import SAMPLE
    >>> bars(Trace.parse(SAMPLE))["t"]
    [Bar(begin=0.0, end=1.0, speed=3), Bar(begin=1.0, end=1.5, speed=2)]
    """
    found: dict[str, list[Bar]] = {}
    last = None
    for note, speed in trace.at_speeds():
        if not isinstance(note, Run | Idle):
            continue
        job = (note.task, note.job, speed) if isinstance(note, Run) else ("", 0, speed)
        row = found.setdefault(job[0], [])
        begin = row.pop().begin if last == (job, note.begin) else _tick(note.begin, speed)
        row.append(Bar(begin, _tick(note.end, speed), speed))
        last = job, note.end
    return found


def _tick(position: Position, speed: int) -> float:
    """The float next to `position.time(speed)`."""
    return (position.tick * speed + position.offset) / speed


def completions(trace: Trace, of_tasks: Mapping[str, Iterable[Job]]) -> dict[str, list[Completion]]:
    """The completions of each task's jobs.

    >>> from rtdvs.trace import SAMPLE
    >>> trace = Trace.parse(SAMPLE)
    >>> completions(trace, {"t": trace.jobs()})
    {'t': [Completion(at=1.5, release=0, due=2, used=4, speed=2, highest=3)]}
    """
    speeds: dict[tuple[str, int], list[int]] = {}
    for note, speed in trace.at_speeds():
        if isinstance(note, Run):
            speeds.setdefault((note.task, note.job), []).append(speed)
    return {task: [Completion(float(job.completion), job.release, job.deadline, job.units, ran[-1], max(ran))
                   for job in jobs if job.completion is not None
                   for ran in [speeds.get((task, job.number), [0])]]
            for task, jobs in of_tasks.items()}


# Thinning


def thin(places: Iterable[float], near: float) -> list[float]:
    """Rising places without those that are nearer than that to the last one that is kept.

    >>> thin([0, 1, 2, 5, 6], 2)
    [0, 2, 5]
    """
    kept: list[float] = []
    for place in places:
        if not kept or place - kept[-1] >= near:
            kept.append(place)
    return kept


def join_narrow(row: Iterable[Bar], narrow: float, gap: float) -> Iterator[Bar]:
    """Bars in order; narrow ones at one speed and with smaller gaps than that as one.

    Bars that together are no wider than two gaps are one as well, as high as the highest.

    >>> list(join_narrow([Bar(0, 1, 3), Bar(1, 2, 3), Bar(2, 9, 3)], 2, 0.5))
    [Bar(begin=0, end=2, speed=3), Bar(begin=2, end=9, speed=3)]
    """
    last: Bar | None = None
    for bar in row:
        is_narrow = bar.end - bar.begin < narrow
        if is_narrow and last is not None and (
                last.speed == bar.speed and bar.begin - last.end <= gap or bar.end - last.begin <= 2 * gap):
            last = Bar(last.begin, bar.end, max(last.speed, bar.speed))
            continue
        if last is not None:
            yield last
        last = bar if is_narrow else None
        if not is_narrow:
            yield bar
    if last is not None:
        yield last


def steps(values: Iterable[tuple[float, float, float]], gap: float) -> list[tuple[float, float]]:
    """The corners of a line of steps, each from a begin to an end at a value.

    Of steps that together are shorter than the gap the lowest and the highest value are drawn.

    >>> steps([(0, 2, 1.0), (2, 4, 3.0)], 1)
    [(0, 1.0), (2, 1.0), (2, 3.0), (4, 3.0)]
    """
    corners: list[tuple[float, float]] = []
    low = high = 0.0
    start: float | None = None
    for begin, end, value in values:
        low, high = (value, value) if start is None else (min(low, value), max(high, value))
        start = begin if start is None else start
        if end - start < gap:
            continue
        corners += [(start, low), (start, high)] if low < high else []
        corners += [(start, value), (end, value)]
        start = None
    return corners if start is None else [*corners, (start, low), (start, high)]


def round_step(span: int, most: int) -> int:
    """The ticks between two labels: 1, 2 or 5 times a power of ten, for at most that many labels.

    >>> round_step(16, 20), round_step(100, 30), round_step(1000, 3)
    (1, 5, 500)
    """
    power = 1
    while span / power > most:
        for factor in (2, 5):
            if span / (power * factor) <= most:
                return power * factor
        power *= 10
    return power
