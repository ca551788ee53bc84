"""What a page writes of a trace: in ticks and work units, and with a board's milliseconds, MHz and joules if it has one."""

from collections.abc import Callable, Mapping
from fractions import Fraction

from rtdvs._numbers import decimal, plain, rounded
from rtdvs.board import Units, nanojoules
from rtdvs.model import Demands, Machine, TaskSet
from rtdvs.trace import COLUMNS, Job, Trace, task_statistics
from rtdvs.web.marks import raw_energy, time_of

MOST_ROWS = 60      # of demands on paper
Table = dict[str, object]


def factors(units: Units | None) -> Mapping[str, float] | None:
    """The milliseconds of a tick, the MHz of a unit a tick, and the thousands of cycles of a unit."""
    if units is None:
        return None
    return {"ms": float(units.milliseconds(1)), "MHz": float(units.megahertz(1)),
            "kcycles": float(units.cycles(1) / 1000)}


def tick_text(time: Fraction | int, units: Units | None = None) -> str:
    """A time in ticks, beside it the milliseconds.

    >>> tick_text(Fraction(8, 3)), tick_text(4)
    ('2 2/3', '4')
    """
    beside = "" if units is None else f" ({rounded(units.milliseconds(time))} ms)"
    return f"{time_of(Fraction(time))}{beside}"


def length_text(ticks: int, units: Units | None = None) -> str:
    """The length of a run.

    >>> length_text(16)
    '16 ticks'
    """
    return f"{ticks} ticks" + ("" if units is None else f" ({plain(units.milliseconds(ticks))} ms)")


def energy_text(trace: Trace, units: Units | None = None) -> str:
    """What a run takes, and with a board in which scale.

    >>> from rtdvs.trace import SAMPLE
    >>> energy_text(Trace.parse(SAMPLE))
    'energy 6000: 6000 running, 0 idle, in units × mV² × 1000; switches of the speed: 1'
    """
    switches = f"switches of the speed: {trace.switches}"
    if units is None:
        energy = f"energy {trace.energy}: {trace.run_energy} running, {trace.idle_energy} idle"
        return f"{energy}, in units × mV² × 1000; {switches}"
    reason = units.no_power()
    return f"{f'no power: {reason}' if reason else ', '.join(units.lines(trace))}; {switches}; {units.made.scale.text()}"


def job_energy(trace: Trace, units: Units | None = None) -> Callable[[Job], str]:
    """What gives the energy of a trace's jobs: their joules, or a dash without a board's power."""
    if units is None:
        return raw_energy
    joules = {} if units.no_power() else units.job_joules(trace)
    return lambda job: f"{rounded(joules.get((job.task, job.number), Fraction(0)))} J" if joules else "–"


def residency(trace: Trace, units: Units | None = None) -> list[tuple[str, str, str]]:
    """The time at each speed, from the slowest on, then the idle time; with their shares of the run.

    >>> from rtdvs.trace import SAMPLE
    >>> residency(Trace.parse(SAMPLE))
    [('2', '1', '0.5000'), ('3', '1', '0.5000'), ('idle', '0.5000', '0.2500')]
    """
    times = [(str(speed) if units is None else plain(units.megahertz(speed)), time, str(time))
             for speed, time in sorted(trace.residency().items())]
    times.append(("idle", trace.idle_time, decimal(trace.idle_time, 4)))
    return [(name, text if units is None else rounded(units.milliseconds(time)), decimal(time / trace.ticks, 4))
            for name, time, text in times]


def trace_tables(label: str, trace: Trace, tasks: TaskSet, units: Units | None = None) -> list[Table]:
    """The tables below a trace: the time at each speed, and the statistics of each task."""
    speeds, ticks, *captions = (("speed", "ticks", "ticks at each speed", "tasks, in ticks") if units is None
                                else ("MHz", "ms", "time at each speed", "tasks"))
    heading, *rows = ([COLUMNS, *(each.row() for each in task_statistics(trace, tasks))] if units is None
                      else units.table(trace))
    return [
        {"caption": f"{label}: {captions[0]}", "heading": [speeds, ticks, "share"], "rows": residency(trace, units)},
        {"caption": f"{label}: {captions[1]}", "heading": [name.replace("_", " ") for name in heading], "rows": rows},
    ]


def question_tables(tasks: TaskSet, machine: Machine, demands: Demands | None = None,
                    units: Units | None = None) -> list[Table]:
    """The tables of tasks, machine and demands, which are printed above the schedule.

    >>> from rtdvs.model import Point, Task
    >>> tables = question_tables(TaskSet((Task("a", 4, 4),)), Machine((Point(2, 1000),)))
    >>> [table["caption"] for table in tables]
    ['Tasks', 'Machine: idle share 0 thousandths, charge 0 units']
    """
    settings = f"Machine: idle share {machine.idle} thousandths, charge {machine.charge} units"
    asked: Table = {"caption": "Tasks", "heading": ["task", "period", "worst case", "offset"],
                    "rows": [[task.name, task.period, task.worst, task.offset] for task in tasks]}
    has: Table = {"caption": settings, "heading": ["speed", "millivolts"],
                  "rows": [[point.speed, point.millivolts] for point in machine.points]}
    if units is not None:
        asked |= _board_tasks(units)
        has |= _board_points(units)
    rows = [[task, job, work] for (task, job), work in (demands.units if demands else {}).items()]
    more = f", the first {MOST_ROWS} of {len(rows)}" if len(rows) > MOST_ROWS else ""
    jobs: Table = {"caption": f"Demands{more}", "heading": ["task", "job", "units"], "rows": rows[:MOST_ROWS]}
    return [asked, has, jobs] if rows else [asked, has]


def _board_tasks(units: Units) -> Table:
    """The tasks with milliseconds and cycles beside what is in the files."""
    rows = [[task.name, task.period, plain(units.milliseconds(task.period)), task.worst,
             plain(units.cycles(task.worst)), task.offset, plain(units.milliseconds(task.offset))]
            for task in units.made.tasks]
    return {"caption": f"Tasks: {units.made.scale.text()}",
            "heading": ["task", "period", "ms", "worst case", "cycles", "offset", "ms"], "rows": rows}


def _board_points(units: Units) -> Table:
    """The points with MHz, and the milliwatts of running there if power was measured."""
    costs = () if units.no_power() else nanojoules(units.board)
    speeds = [units.megahertz(point.speed) for point in units.made.machine.points]
    power = [rounded(cost * speed) for cost, speed in zip(costs, speeds)] or ["–"] * len(speeds)
    rows = [[point.speed, plain(speed), point.millivolts, milliwatts]
            for point, speed, milliwatts in zip(units.made.machine.points, speeds, power, strict=True)]
    return {"heading": ["speed", "MHz", "millivolts", "mW"], "rows": rows}
