"""A board in ticks and work units: the scale, the files of the program in it, and what was rounded.

What doesn't fit is rounded so that the set is never easier: periods, offsets and speeds down, worst cases,
voltages and the charge up.
"""

import math
import re
from collections.abc import Callable, Iterable, Iterator, Sequence
from dataclasses import dataclass
from fractions import Fraction
from itertools import pairwise
from pathlib import Path

from rtdvs._files import write_whole
from rtdvs._numbers import plain
from rtdvs.board.description import Board, BoardPoint, BoardTask, board_fault, is_measured
from rtdvs.model import LONGEST_HYPERPERIOD, MOST_MILLIVOLTS, MOST_SPEED, Demands, Machine, TaskSet, jobs_of, load

_SAID = r"[0-9]{1,99}(?:\.[0-9]{1,99}|/0*[1-9][0-9]{0,99})?"


@dataclass(frozen=True, slots=True)
class Scale:
    """A tick in milliseconds and a work unit in cycles.

    >>> Scale(tick=Fraction(1, 2), unit=Fraction(1000)).tick
    Fraction(1, 2)
    """

    tick: Fraction
    unit: Fraction

    @classmethod
    def parse(cls, text: str) -> "Scale | None":
        """The scale that a comment of a file says; None if there is none.

        >>> Scale.parse("# a tick is 1/3 ms, a unit 50 cycles\\n[[task]]\\n").tick
        Fraction(1, 3)
        """
        said = re.search(rf"^#.*\ba tick is ({_SAID}) ms, a unit ({_SAID}) cycles$", text, re.MULTILINE)
        return cls(Fraction(said[1]), Fraction(said[2])) if said else None

    def text(self) -> str:
        """Both in words.

        >>> Scale(Fraction(1, 2), Fraction(1000)).text()
        'a tick is 0.5 ms, a unit 1000 cycles'
        """
        return f"a tick is {plain(self.tick)} ms, a unit {plain(self.unit)} cycles"


@dataclass(frozen=True, slots=True)
class Rounding:
    """A quantity that was changed to fit, and what was taken in its place; in one unit, unless two are named.

    >>> Rounding("switch", given=Fraction(5, 2), taken=Fraction(3), unit="microseconds").taken
    Fraction(3, 1)
    """

    quantity: str
    given: Fraction
    taken: Fraction
    unit: str
    unit_taken: str = ""

    def text(self) -> str:
        """The line for it.

        >>> Rounding("task a: period", Fraction(10, 3), Fraction(3), "ms").text()
        'task a: period 10/3 ms taken as 3 ms'
        """
        taken = f"{plain(self.taken)} {self.unit_taken or self.unit}"
        return f"{self.quantity} {plain(self.given)} {self.unit} taken as {taken}"


@dataclass(frozen=True, slots=True)
class Design:
    """The files for a board, their scale, and what was rounded.

    >>> board = Board.parse('''
    ... task = [{name = "a", period_ms = 1, worst_cycles = 1000}]
    ... point = [{mhz = 1000, volts = 1}]''')
    >>> design(board, Scale(Fraction(1), Fraction(1000))).ticks_of(Fraction(5, 2))
    2
    """

    tasks: TaskSet
    machine: Machine
    scale: Scale
    roundings: tuple[Rounding, ...]

    def ticks_of(self, milliseconds: Fraction) -> int:
        """The whole ticks of a time, at least one."""
        return max(1, milliseconds // self.scale.tick)


def choose_tick(board: Board) -> Fraction:
    """A tick in milliseconds: from a tenth to a thousandth of the shortest period.

    It is 1, 2 or 5 times a power of ten, or a whole part of all periods. The longest is taken that adds at
    most a thousandth to the utilisation by rounding periods, or the one that adds least. Raises BadValue if
    the periods have no common multiple up to 2^48 ticks under any.

    >>> one, two = BoardTask("a", Fraction(5), Fraction(1)), BoardTask("b", Fraction(8), Fraction(1))
    >>> choose_tick(Board((one, two), ()))
    Fraction(1, 2)
    """
    periods = [task.period for task in board.tasks]
    most = sum(task.worst / task.period for task in board.tasks) / 1000
    fitting = [tick for tick in _ticks(periods)
               if math.lcm(*(period // tick for period in periods)) <= LONGEST_HYPERPERIOD]
    if not fitting:
        raise board_fault("the periods have no common multiple up to 2^48 ticks; give rounder periods, or a tick")

    def cost(tick: Fraction) -> tuple[Fraction | float, Fraction]:
        added = (task.worst / (task.period // tick * tick) - task.worst / task.period for task in board.tasks)
        return max(most, sum(added)), -tick

    return min(fitting, key=cost)


def _ticks(periods: Sequence[Fraction]) -> list[Fraction]:
    shortest, part = min(periods), _common_part(periods)
    power = Fraction(10) ** (len(str(shortest.numerator)) - len(str(shortest.denominator)) + 1)
    ticks = [power / 10**places * factor for places in range(6) for factor in (1, 2, 5)]
    ticks.append(part / max(1, math.ceil(part * 10 / shortest)))
    return [tick for tick in ticks if shortest / 1000 <= tick <= shortest / 10]


def choose_unit(board: Board, tick: Fraction) -> Fraction:
    """A work unit in cycles: the coarsest that rounds nothing, in parts if the highest speed were below 1000.

    A unit is at least a millionth of what the highest point does in a tick, which is the program's limit.

    >>> fast = BoardPoint(Fraction(100), Fraction(1))
    >>> choose_unit(Board((BoardTask("a", Fraction(5), Fraction(70000)),), (fast,)), Fraction(1))
    Fraction(100, 1)
    """
    cycles = [_cycles(point, tick) for point in board.points]
    finest = max(cycles) / MOST_SPEED
    unit = _common_part([*cycles, *(task.worst for task in board.tasks)])
    if unit < finest:
        grid = _common_part(cycles)
        return grid / (grid // finest) if grid >= finest else finest
    parts: list[int] = [factor * 10**power for power in range(4) for factor in (1, 2, 5)]
    return unit / min(part for part in parts if max(cycles) / unit * part >= 1000)


def choose_scale(board: Board, tick: Fraction | None = None, unit: Fraction | None = None) -> Scale:
    """The scale of a board; a tick in milliseconds and a unit in cycles may be given. Raises BadValue.

    >>> one = BoardTask("a", Fraction(5), Fraction(70000))
    >>> choose_scale(Board((one,), (BoardPoint(Fraction(100)),))).text()
    'a tick is 0.5 ms, a unit 50 cycles'
    """
    chosen = choose_tick(board) if tick is None else tick
    return Scale(chosen, choose_unit(board, chosen) if unit is None else unit)


def design(board: Board, scale: Scale) -> Design:
    """The files of a board in a scale, checked by the program's limits; raises BadValue.

    >>> board = Board.parse('''
    ... task = [{name = "a", period_ms = 2.5, worst_cycles = 1001}]
    ... point = [{mhz = 1, volts = 0.9995}]''')
    >>> made = design(board, Scale(Fraction(1), Fraction(10)))
    >>> made.tasks.tasks, made.machine.points
    ((Task(name='a', period=2, worst=101, offset=0),), (Point(speed=100, millivolts=1000),))
    >>> print(*(rounding.text() for rounding in made.roundings), sep="\\n")
    task a: period 2.5 ms taken as 2 ms
    task a: worst case 1001 cycles taken as 1010 cycles
    point 1 MHz: volts 0.9995 V taken as 1 V
    """
    tasks = TaskSet.of((task.name, task.period // scale.tick, math.ceil(task.worst / scale.unit),
                        task.offset // scale.tick) for task in board.tasks)
    machine, changed = machine_of(board, scale)
    roundings = _changed(_task_roundings(board.tasks, tasks, scale)) + changed
    return Design(tasks, machine, scale, roundings)


def machine_of(board: Board, scale: Scale) -> tuple[Machine, tuple[Rounding, ...]]:
    """The machine of a board's points in a scale, and what was rounded; raises BadValue.

    >>> points = BoardPoint(Fraction(1), Fraction(1)), BoardPoint(Fraction(5, 2), Fraction(2))
    >>> machine, roundings = machine_of(Board((), points), Scale(Fraction(1), Fraction(1000)))
    >>> machine.points[1], [rounding.text() for rounding in roundings]
    (Point(speed=2, millivolts=2000), ['point 2.5 MHz: speed 2.5 MHz taken as 2 MHz'])
    """
    points = board.rising
    if not points:
        raise board_fault("no points")
    speeds = [_cycles(point, scale.tick) // scale.unit for point in points]
    volts = _effective_millivolts(points) if is_measured(points) else [_millivolts(point) for point in points]
    _check_rising(points, speeds, volts)
    charge = math.ceil(board.switch / 1000 / scale.tick * speeds[-1])
    machine = Machine.of(zip(speeds, volts), math.ceil(board.idle_share * 1000), charge)
    return machine, _changed(_machine_roundings(board, points, machine, scale))


def usual_demands(board: Board, made: Design, ticks: int) -> Demands:
    """The demands of all jobs of these ticks: what jobs usually take, rounded up to units.

    >>> board = Board.parse('''
    ... task = [{name = "a", period_ms = 5, worst_cycles = 2000, usual_cycles = 1001}]
    ... point = [{mhz = 1, volts = 1}]''')
    >>> usual_demands(board, design(board, Scale(Fraction(1), Fraction(1000))), 6).units
    {('a', 1): 2, ('a', 2): 2}
    """
    usual = {task.name: task.usual for task in board.tasks if task.usual is not None}
    return Demands({
        (task.name, job): math.ceil(usual[task.name] / made.scale.unit)
        for task, job in jobs_of(made.tasks, ticks) if task.name in usual
    })


def settle(board: Board, scale: Scale, energy_of: Callable[[Design], Fraction],
           share: Fraction = Fraction(1, 100)) -> Iterator[tuple[Design, Fraction]]:
    """Halves the tick until the energy moves by at most a share of itself; gives each design with its energy.

    `energy_of` runs a design over a fixed time. The last one given is settled. Raises BadValue if a tick is
    too short.

    >>> board = Board.parse('''
    ... task = [{name = "a", period_ms = 1, worst_cycles = 1000}]
    ... point = [{mhz = 1000, volts = 1}]''')
    >>> energies = iter([Fraction(90), Fraction(99), Fraction(100)])
    >>> found = settle(board, choose_scale(board), lambda made: next(energies))
    >>> [plain(made.scale.tick) for made, _ in found]
    ['0.1', '0.05', '0.025']
    """
    made = design(board, scale)
    energy = energy_of(made)
    yield made, energy
    before = energy * 2 + 1
    while abs(before - energy) > share * energy:
        finer = made.scale.tick / 2
        made = design(board, choose_scale(board, finer))
        before, energy = energy, energy_of(made)
        yield made, energy


def _cycles(point: BoardPoint, tick: Fraction) -> Fraction:
    return point.megahertz * 1000 * tick


def _common_part(numbers: Iterable[Fraction]) -> Fraction:
    """The greatest number of which all are whole multiples."""
    given = list(numbers)
    below = math.lcm(*(number.denominator for number in given))
    return Fraction(math.gcd(*(int(number * below) for number in given)), below)


def _task_roundings(tasks: Iterable[BoardTask], made: TaskSet, scale: Scale) -> Iterator[Rounding]:
    for task, taken in zip(tasks, made):
        yield Rounding(f"task {task.name}: period", task.period, taken.period * scale.tick, "ms")
        yield Rounding(f"task {task.name}: offset", task.offset, taken.offset * scale.tick, "ms")
        yield Rounding(f"task {task.name}: worst case", task.worst, taken.worst * scale.unit, "cycles")


def _machine_roundings(board: Board, points: Sequence[BoardPoint], machine: Machine,
                       scale: Scale) -> Iterator[Rounding]:
    for point, taken in zip(points, machine.points):
        where = f"point {plain(point.megahertz)} MHz:"
        yield Rounding(f"{where} speed", point.megahertz, taken.speed * scale.unit / scale.tick / 1000, "MHz")
        if not is_measured(points) and point.volts is not None:
            yield Rounding(f"{where} volts", point.volts, Fraction(taken.millivolts, 1000), "V")
        if is_measured(points) and point.milliwatts is not None:
            yield Rounding(where, point.milliwatts, Fraction(taken.millivolts), "milliwatts", "effective millivolts")
    yield Rounding("idle share", board.idle_share, Fraction(machine.idle, 1000), "of a running cycle")
    switch = machine.charge * scale.tick * 1000 / machine.points[-1].speed
    yield Rounding("switch", board.switch, switch, "microseconds")


def _changed(roundings: Iterable[Rounding]) -> tuple[Rounding, ...]:
    return tuple(each for each in roundings if each.unit_taken or each.given != each.taken)


def _millivolts(point: BoardPoint) -> int:
    if point.volts is None:
        raise board_fault(f"point {plain(point.megahertz)} MHz: give volts at each point, or milliwatts at each")
    return math.ceil(point.volts * 1000)


def _effective_millivolts(points: Sequence[BoardPoint]) -> list[int]:
    """Whole millivolts, rounded up: their squares are in proportion to a cycle's energies; the dearest has 20000."""
    energies = [(point.milliwatts or Fraction(0)) / point.megahertz for point in points]
    squares = (math.ceil(energy / max(energies) * MOST_MILLIVOLTS**2) for energy in energies)
    return [math.isqrt(square - 1) + 1 for square in squares]


def _check_rising(points: Sequence[BoardPoint], speeds: Sequence[int], volts: Sequence[int]) -> None:
    found = zip((plain(point.megahertz) for point in points), speeds, volts)
    for (lower, slow, before), (higher, fast, after) in pairwise(found):
        if fast == slow:
            raise board_fault(f"points {lower} and {higher} MHz: both are speed {fast}")
        if after < before and is_measured(points):
            raise board_fault(f"point {lower} MHz: a cycle takes more energy than at {higher} MHz; leave the point out")
        if after < before:
            raise board_fault(f"point {higher} MHz: the voltage is below that of {lower} MHz")


# The files of a board in a folder: their first lines say the scale, by which a run is read in joules again


def write_design(folder: Path, made: Design, note: str = "", demands: Demands | None = None) -> None:
    """Writes tasks.toml, machine.toml, and demands.csv if there are demands; raises OSError.

    `note` is a line for the machine: what was left out of a device tree.
    """
    folder.mkdir(parents=True, exist_ok=True)
    files = {"tasks.toml": f"# {made.scale.text()}\n{made.tasks.text()}",
             "machine.toml": machine_text(made.machine, made.scale.text(), note)}
    if demands is not None:
        files["demands.csv"] = demands.text()
    for name, text in files.items():
        write_whole(folder / name, text)


def machine_text(machine: Machine, head: str, note: str = "") -> str:
    """The machine file after comments.

    >>> from rtdvs.model import Point
    >>> machine_text(Machine((Point(2, 900),)), "a tick is 1 ms, a unit 5 cycles").splitlines()[:2]
    ['# a tick is 1 ms, a unit 5 cycles', 'idle = 0']
    """
    return "".join(f"# {line}\n" for line in (head, note) if line) + machine.text()


def read_design(folder: Path, board: Board) -> Design:
    """The design in a folder, in the scale that its files say; raises BadValue and OSError.

    It is refused if the files don't say a scale, or if they aren't those of the board in it.
    """
    contents = {name: load(folder / name) for name in ("tasks.toml", "machine.toml")}
    scales = {name: Scale.parse(content.decode("latin-1")) for name, content in contents.items()}
    scale = scales["tasks.toml"]
    for name, said in scales.items():
        if said is None or scale is None:
            raise board_fault(f"{folder / name} doesn't say what a tick and a unit are; make it by design --folder")
        if said != scale:
            raise board_fault(f"{folder / name}: {said.text()}, but in tasks.toml {scale.text()}")
    assert scale is not None
    made = design(board, scale)
    if TaskSet.parse(contents["tasks.toml"]) != made.tasks:
        raise board_fault(f"{folder / 'tasks.toml'} has other tasks than this board")
    if Machine.parse(contents["machine.toml"]) != made.machine:
        raise board_fault(f"{folder / 'machine.toml'} has another machine than this board")
    return made
