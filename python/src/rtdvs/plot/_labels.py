"""How a picture names times, speeds and energies: in a trace's own units, or in those of a board."""

from collections.abc import Iterator
from dataclasses import dataclass
from fractions import Fraction
from math import ceil

from rtdvs._numbers import plain, readable, rounded, short
from rtdvs.board import Spent, Units
from rtdvs.model import Task
from rtdvs.plot._thinning import round_step
from rtdvs.trace import Trace, split_governor


@dataclass(frozen=True, slots=True)
class Labels:
    """In ticks and work units.

    >>> Labels().speed(Fraction(836, 280)), Labels().span(0, 16, 16)
    ('2.99', '16 ticks')
    """

    time_unit = "ticks"
    speed_unit = "units/tick"
    work_unit = times = works = ""

    def time(self, tick: Fraction | int) -> str:
        """A time."""
        return plain(Fraction(tick))

    def speed(self, speed: Fraction | int) -> str:
        """A speed or a demand, which is in units per tick."""
        return short(Fraction(speed))

    def work(self, units: int) -> str:
        """Some work."""
        return str(units)

    def facts(self, task: Task, charge: int) -> str:
        """A task in one line, with the charge that its worst case has twice."""
        offset = f", offset {self.time(task.offset)}" if task.offset else ""
        charged = f"+{self.work(2 * charge)}" if charge else ""
        return (f"period {self.time(task.period)}{offset}{self.times}, "
                f"worst {self.work(task.worst)}{charged}{self.works}")

    def marks(self, first: int, last: int, width: float) -> Iterator[Fraction]:
        """The ticks that have a label, in a picture of a width in pixels."""
        step = round_step(last - first, max(1, int(width / (12 + 7 * len(str(last))))))
        return map(Fraction, range(-(-first // step) * step, last + 1, step))

    def span(self, first: int, last: int, ticks: int) -> str:
        """What of a run is drawn."""
        if (first, last) == (0, ticks):
            return f"{self.time(last)} {self.time_unit}"
        return f"{self.time_unit} {self.time(first)} to {self.time(last)} of {self.time(ticks)}"

    def energy(self, trace: Trace) -> list[str]:
        """The energy of a run, in parts that can be on lines of their own."""
        return ["energy of the run:", f"{readable(trace.run_energy)} running,", f"{readable(trace.idle_energy)} idle,",
                "in units × mV² × 1000"]


@dataclass(frozen=True, slots=True)
class BoardLabels(Labels):
    """In milliseconds, megahertz, thousands of cycles and joules."""

    units: Units
    time_unit = "ms"
    speed_unit = "MHz"
    work_unit, times, works = " in 1000 cycles", " ms", " kcycles"

    def time(self, tick: Fraction | int) -> str:
        return plain(self.units.milliseconds(tick))

    def speed(self, speed: Fraction | int) -> str:
        return short(self.units.megahertz(speed))

    def work(self, units: int) -> str:
        return rounded(self.units.cycles(units) / 1000)

    def marks(self, first: int, last: int, width: float) -> Iterator[Fraction]:
        tick = self.units.milliseconds(1)
        letters = len(plain(Fraction(round(last * tick * 1000), 1000)))
        step = Fraction(round_step(ceil((last - first) * tick * 1000), max(1, int(width / (12 + 7 * letters)))), 1000)
        return (number * step / tick for number in range(ceil(first * tick / step), int(last * tick / step) + 1))

    def energy(self, trace: Trace) -> list[str]:
        if reason := self.units.no_power():
            return ["energy of the run:", f"{reason}"]
        run = self.units.spent(trace)
        parts = ["energy of the run:", f"{rounded(run.joules)} J,", f"{rounded(run.milliwatts)} mW on average"]
        hours = run.hours(self.units.board.battery)
        return parts if hours is None else [*parts[:2], f"{parts[2]},", f"{rounded(hours)} hours of the battery"]


def power(run: Spent, battery: Fraction | None) -> str:
    """The mean milliwatts of a run, and the hours that a battery of milliwatt hours lasts.

    >>> power(Spent(Fraction(6), Fraction(2000)), Fraction(9000)), power(Spent(Fraction(6), Fraction(2000)), None)
    ('3000 mW, 3 h', '3000 mW')
    """
    hours = run.hours(battery)
    return f"{rounded(run.milliwatts, 4)} mW" + ("" if hours is None else f", {rounded(hours, 3)} h")


def labels_of(units: Units | None) -> Labels:
    """The labels of a board, or of a trace without one.

    >>> labels_of(None)
    Labels()
    """
    return Labels() if units is None else BoardLabels(units)


def title_parts(trace: Trace, span: str) -> list[str]:
    """The title of a trace, in parts that can be on lines of their own.

    >>> from rtdvs.trace import SAMPLE
    >>> title_parts(Trace.parse(SAMPLE.replace("mine", "cc-drop")), "2 ticks")
    ['edf, cc: 2 ticks,', 'not a run of the program']
    """
    governor, missed = split_governor(trace.governor)
    head = f"{trace.scheduler}, {governor}: {span}"
    return [head] if missed is None else [f"{head},", "not a run of the program"]


def late_parts(trace: Trace) -> list[str]:
    """What is said of missed deadlines, in parts; nothing for a run that can't have any.

    >>> from rtdvs.trace import SAMPLE
    >>> late_parts(Trace.parse(SAMPLE.replace("mine", "cc-drop")))
    ['deadlines missed: 0;', 'late jobs are dropped']
    """
    missed = trace.missed
    return [] if missed is None else [f"deadlines missed: {len(trace.misses())};", missed.text()]
