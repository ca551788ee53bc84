"""A board's units for its files and their traces: milliseconds, megahertz, cycles and joules. The one place for it.

What a run takes of a board's battery is exact: joules, mean milliwatts and hours.
"""

from collections import defaultdict
from collections.abc import Iterator, Mapping
from dataclasses import dataclass
from fractions import Fraction
from functools import cached_property

from rtdvs._numbers import plain, rounded
from rtdvs.board import scale
from rtdvs.board.description import Board, board_fault, is_measured
from rtdvs.errors import BadValue, TraceFault
from rtdvs.trace import Ran, Run, Trace, ran_at, task_statistics


@dataclass(frozen=True, slots=True)
class Spent:
    """The joules of a run, and how many milliseconds it takes.

    >>> spent = Spent(Fraction(1, 100), Fraction(50))
    >>> spent.milliwatts, spent.hours(Fraction(3700))
    (Fraction(200, 1), Fraction(37, 2))
    """

    joules: Fraction
    milliseconds: Fraction

    @property
    def milliwatts(self) -> Fraction:
        """The mean power."""
        return self.joules * 10**6 / self.milliseconds

    def hours(self, battery: Fraction | None) -> Fraction | None:
        """How long a battery, in milliwatt hours, lasts; None without one, or if no energy is used."""
        return battery / self.milliwatts if battery is not None and self.joules else None


def nanojoules(board: Board) -> tuple[Fraction, ...]:
    """The nanojoules of a running cycle at each point, by rising frequency; raises BadValue.

    They are measured, or in proportion to the square of the voltage, from the milliwatts of the highest point.

    >>> board = Board.parse('''
    ... task = [{name = "a", period_ms = 1, worst_cycles = 1}]
    ... point = [{mhz = 500, volts = 1}, {mhz = 1000, volts = 2, milliwatts = 800}]''')
    >>> nanojoules(board)
    (Fraction(1, 5), Fraction(4, 5))
    """
    top = board.rising[-1]
    if top.milliwatts is None:
        raise board_fault("joules need milliwatts at the highest point")
    if is_measured(board.points):
        return tuple((point.milliwatts or Fraction(0)) / point.megahertz for point in board.rising)
    if top.volts is None or not all(point.volts for point in board.points):
        raise board_fault("joules need volts at each point, or milliwatts at each")
    return tuple(((point.volts or 0) / top.volts)**2 * top.milliwatts / top.megahertz for point in board.rising)


@dataclass(frozen=True)
class Units:
    """The units of a board whose files are made.

    >>> from rtdvs.board.scale import Scale, design
    >>> board = Board.parse('''
    ... task = [{name = "a", period_ms = 2, worst_cycles = 4000}]
    ... point = [{mhz = 4, volts = 1, milliwatts = 8}]''')
    >>> units = Units(board, design(board, Scale(Fraction(1, 2), Fraction(1000))))
    >>> units.milliseconds(3), units.megahertz(Fraction(1, 2)), units.cycles(4)
    (Fraction(3, 2), Fraction(1, 1), Fraction(4000, 1))
    """

    board: Board
    made: scale.Design

    def milliseconds(self, ticks: Fraction | int) -> Fraction:
        """The milliseconds of some ticks."""
        return ticks * self.made.scale.tick

    def cycles(self, units: Fraction | int) -> Fraction:
        """The cycles of some work units."""
        return units * self.made.scale.unit

    def megahertz(self, speed: Fraction | int) -> Fraction:
        """The megahertz of a speed or a demand, in units per tick, as the files have it after rounding."""
        return self.cycles(speed) / self.milliseconds(1) / 1000

    @cached_property
    def _costs(self) -> Mapping[int, Fraction]:
        """The nanojoules of a running cycle at each speed."""
        points = zip(self.made.machine.points, nanojoules(self.board), strict=True)
        return {point.speed: cost for point, cost in points}

    def joules(self, ran: Mapping[int, Ran]) -> Fraction:
        """The joules of running and idle units, by their speeds; raises BadValue if no power was measured.

        An idle cycle counts as the board's share of a running one.
        """
        cost = sum((self._costs[speed] * (each.units + each.idle * self.board.idle_share)
                    for speed, each in ran.items()), Fraction(0))
        return self.cycles(cost) / 10**9

    def spent_at(self, ran: Mapping[int, Ran]) -> Spent:
        """What these units take at their speeds, and how long; raises BadValue as `joules` does."""
        ticks = sum((Fraction(each.units + each.idle, speed) for speed, each in ran.items()), Fraction(0))
        return Spent(self.joules(ran), self.milliseconds(ticks))

    def spent(self, trace: Trace) -> Spent:
        """What a run of the board's files takes; the trace isn't checked. Raises BadValue as `joules` does.

        >>> from rtdvs.board.scale import Scale, design
        >>> board = Board.parse('''
        ... task = [{name = "a", period_ms = 2, worst_cycles = 4000}]
        ... point = [{mhz = 4, volts = 1, milliwatts = 8}]''')
        >>> run = "speed 0 4 4/1\\nrun 0:0 1:0 a 1 4 4000000\\nend 1 4000000 0\\n"
        >>> trace = Trace.parse(f"trace 1\\nplan edf mine 1\\n{run}")
        >>> Units(board, design(board, Scale(Fraction(1), Fraction(1000)))).spent(trace).joules  # 4000 cycles of 2 nJ
        Fraction(1, 125000)
        """
        return self.spent_at(trace.ran())

    def job_joules(self, trace: Trace) -> dict[tuple[str, int], Fraction]:
        """The joules of each job that runs, by its task and number; raises BadValue as `joules` does."""
        costs = defaultdict[tuple[str, int], Fraction](Fraction)
        for note, speed in trace.at_speeds():
            if isinstance(note, Run):
                costs[note.task, note.job] += note.units * self._costs[speed]
        return {job: self.cycles(cost) / 10**9 for job, cost in costs.items()}

    def lines(self, trace: Trace) -> Iterator[str]:
        """What a run takes, in lines: joules, milliwatts, and the hours of a battery; raises BadValue as `joules`."""
        run, battery = self.spent(trace), self.board.battery
        yield f"{rounded(run.joules)} joules in {plain(run.milliseconds)} ms"
        yield f"{rounded(run.milliwatts)} milliwatts on average"
        if battery is not None:
            hours, of = run.hours(battery), f"from {plain(battery)} milliwatt hours"
            yield f"no energy was used {of}" if hours is None else f"{rounded(hours)} hours {of}"

    def table(self, trace: Trace) -> list[tuple[str, ...]]:
        """The statistics of each task below their names: milliseconds, joules and mean milliwatts of its runs.

        Dashes are in place of joules and milliwatts if no power was measured.
        """
        times = ("mean_response", "greatest_response", "jitter", "least_laxity")
        rows = [("task", "jobs", "complete", "missed", *(f"{name}_ms" for name in times), "preemptions", "J", "mW")]
        for each in task_statistics(trace, self.made.tasks):
            found = [getattr(each, name) for name in times]
            own = ran_at((note, speed) for note, speed in trace.at_speeds()
                         if isinstance(note, Run) and note.task == each.task)
            cost = None if self.no_power() else Spent(self.joules(own), self.milliseconds(trace.ticks))
            power = ("-", "-") if cost is None else (rounded(cost.joules), rounded(cost.milliwatts))
            rows.append((each.task, str(each.jobs), str(each.complete), str(each.missed),
                         *(rounded(None if time is None else self.milliseconds(time)) for time in found),
                         str(each.preemptions), *power))
        return rows

    def no_power(self) -> str:
        """Why there are no joules; empty if there are."""
        try:
            nanojoules(self.board)
        except BadValue as fault:
            return str(fault).removeprefix("board: ")
        return ""

    def check(self, trace: Trace) -> None:
        """Raises BadValue if a trace can't be of the board's files in this tick and unit."""
        try:
            trace.belongs_to(self.made.tasks, self.made.machine)
        except TraceFault as fault:
            raise board_fault(f"the trace isn't of this board where {self.made.scale.text()}: {fault}; "
                              "--folder names the files that were run") from None
