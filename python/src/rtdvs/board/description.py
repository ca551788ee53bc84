"""Boards as their makers describe them: milliseconds, cycles, MHz, volts and milliwatts.

The form of the TOML file is that of `python3 -m rtdvs design --help`; the points may also come from a device
tree. All numbers are exact.
"""

import re
import tomllib
from collections.abc import Iterable, Mapping, Sequence
from dataclasses import dataclass, replace
from fractions import Fraction
from typing import Any

from rtdvs._numbers import plain, rounded
from rtdvs.board.device_tree import OperatingPoint
from rtdvs.errors import BadValue


@dataclass(frozen=True, slots=True)
class BoardTask:
    """A task: period and offset in milliseconds; the worst case, and what a job usually takes, in cycles.

    >>> BoardTask("a", period=Fraction(5, 2), worst=Fraction(1000)).offset
    Fraction(0, 1)
    """

    name: str
    period: Fraction
    worst: Fraction
    offset: Fraction = Fraction(0)
    usual: Fraction | None = None


@dataclass(frozen=True, slots=True)
class BoardPoint:
    """An operating point: its frequency in MHz, its voltage in volts, and its measured milliwatts.

    >>> BoardPoint(Fraction(600), volts=Fraction(19, 20)).milliwatts is None
    True
    """

    megahertz: Fraction
    volts: Fraction | None = None
    milliwatts: Fraction | None = None


@dataclass(frozen=True, slots=True)
class Board:
    """A board: a switch takes `switch` microseconds, an idle cycle `idle_share` of a running one's energy.

    `battery` is in milliwatt hours.

    >>> Board((), (BoardPoint(Fraction(600)),), switch=Fraction(20)).idle_share
    Fraction(0, 1)
    """

    tasks: tuple[BoardTask, ...]
    points: tuple[BoardPoint, ...]
    idle_share: Fraction = Fraction(0)
    switch: Fraction = Fraction(0)
    battery: Fraction | None = None

    @classmethod
    def parse(cls, text: str, points: Sequence[OperatingPoint] = ()) -> "Board":
        """The board of a description, with the points of a device tree if there are some; raises BadValue.

        >>> board = Board.parse('''
        ... task = [{name = "a", period_ms = 2.5, worst_cycles = 1000}]
        ... point = [{mhz = 100, volts = 1.1}]''')
        >>> board.tasks[0].period, board.points[0].volts
        (Fraction(5, 2), Fraction(11, 10))
        """
        table = _toml(text)
        _check_keys("", table, {"idle_share", "switch_us", "battery_mwh", "highest_milliwatts", "task", "point"})
        board = cls(
            tuple(_task(f"task {place}: ", entry) for place, entry in enumerate(_tables(table, "task"), 1)),
            _points(table, points),
            _quantity("", table, "idle_share", Fraction(0)) or Fraction(0),
            _quantity("", table, "switch_us", Fraction(0)) or Fraction(0),
            _quantity("", table, "battery_mwh"),
        )
        _check_worst_cases(board)
        return board

    @property
    def rising(self) -> tuple[BoardPoint, ...]:
        """The points by rising frequency.

        >>> Board((), (BoardPoint(Fraction(600)), BoardPoint(Fraction(400)))).rising[0].megahertz
        Fraction(400, 1)
        """
        return tuple(sorted(self.points, key=lambda point: point.megahertz))


def points_of(points: Iterable[OperatingPoint]) -> tuple[BoardPoint, ...]:
    """The points of a device tree as a board's.

    >>> points_of([OperatingPoint("a", 600_000_000, 950_000)])[0].volts
    Fraction(19, 20)
    """
    return tuple(BoardPoint(Fraction(point.hertz, 10**6), Fraction(point.microvolts, 10**6)) for point in points)


def is_measured(points: Iterable[BoardPoint]) -> bool:
    """Whether milliwatts are given at each point; they're then used in place of volts.

    >>> is_measured([BoardPoint(Fraction(600), milliwatts=Fraction(400)), BoardPoint(Fraction(800))])
    False
    """
    return all(point.milliwatts is not None for point in points)


def board_fault(reason: str) -> BadValue:
    return BadValue(f"board: {reason}")


def _exact(text: str) -> Fraction:
    if re.fullmatch(r"[+-]?[0-9_.]+(?:[eE][+-]?[0-9]{1,2})?", text) is None:
        raise ValueError(f"not a number in reach: {text[:32]}")
    return Fraction(text)


def _toml(text: str) -> Mapping[str, Any]:
    try:
        return tomllib.loads(text.removeprefix("\ufeff").replace("\r\n", "\n"), parse_float=_exact)
    except RecursionError:
        raise board_fault("nested too deep") from None
    except ValueError as error:
        raise board_fault(f"not TOML: {error}") from None


def _tables(table: Mapping[str, Any], key: str) -> list[Mapping[str, Any]]:
    entries = table.get(key, [])
    if not isinstance(entries, list) or not all(isinstance(entry, dict) for entry in entries):
        raise board_fault(f"{key} is no array of tables; write [[{key}]]")
    if key == "task" and not entries:
        raise board_fault("no tasks")
    return entries


def _check_keys(where: str, table: Mapping[str, Any], known: set[str]) -> None:
    if unknown := table.keys() - known:
        raise board_fault(f"{where}unknown key {min(unknown)}")


def _quantity(where: str, table: Mapping[str, Any], key: str, least: Fraction | None = None) -> Fraction | None:
    """The number at a key, from `least` on, or above 0; None if the key is absent."""
    value = table.get(key)
    if value is None:
        return None
    if isinstance(value, bool) or not isinstance(value, int | Fraction):
        raise board_fault(f"{where}{key} is not a number")
    if value < least if least is not None else value <= 0:
        raise board_fault(f"{where}{key} has to be {'above 0' if least is None else f'{least} or more'}")
    return Fraction(value)


def _needed(where: str, table: Mapping[str, Any], key: str) -> Fraction:
    found = _quantity(where, table, key)
    if found is None:
        raise board_fault(f"{where}missing {key}")
    return found


def _task(where: str, table: Mapping[str, Any]) -> BoardTask:
    _check_keys(where, table, {"name", "period_ms", "offset_ms", "worst_cycles", "worst_ms", "at_mhz", "usual_cycles"})
    name = table.get("name")
    if not isinstance(name, str):
        raise board_fault(f"{where}missing name" if name is None else f"{where}name is not text")
    if ("worst_ms" in table) == ("worst_cycles" in table):
        raise board_fault(f"{where}give either worst_cycles, or worst_ms and at_mhz")
    worst = (_needed(where, table, "worst_ms") * _needed(where, table, "at_mhz") * 1000
             if "worst_ms" in table else _needed(where, table, "worst_cycles"))
    usual = _quantity(where, table, "usual_cycles")
    if usual is not None and usual > worst:
        raise board_fault(f"{where}usual_cycles are over the worst case")
    offset = _quantity(where, table, "offset_ms", Fraction(0)) or Fraction(0)
    return BoardTask(name, _needed(where, table, "period_ms"), worst, offset, usual)


def _points(table: Mapping[str, Any], of_tree: Sequence[OperatingPoint]) -> tuple[BoardPoint, ...]:
    """The points of the description, or of a device tree, whose highest one may have its milliwatts there."""
    given, highest = _tables(table, "point"), _quantity("", table, "highest_milliwatts")
    if given and of_tree:
        raise board_fault("the points are given twice: here and by a device tree")
    if not of_tree and highest is not None:
        raise board_fault("highest_milliwatts is for a device tree; give milliwatts at the highest point")
    if not of_tree:
        return tuple(_point(f"point {place}: ", entry) for place, entry in enumerate(given, 1))
    *lower, last = sorted(points_of(of_tree), key=lambda point: point.megahertz)
    return *lower, replace(last, milliwatts=highest)


def _point(where: str, table: Mapping[str, Any]) -> BoardPoint:
    _check_keys(where, table, {"mhz", "volts", "milliwatts"})
    return BoardPoint(_needed(where, table, "mhz"), _quantity(where, table, "volts"),
                      _quantity(where, table, "milliwatts"))


def _check_worst_cases(board: Board) -> None:
    """Refuses a task that its period is too short for at any speed."""
    for place, task in enumerate(board.tasks, 1):
        top = max((point.megahertz for point in board.points), default=None)
        if top is not None and task.worst > task.period * top * 1000:
            raise board_fault(f"task {place}: the worst case takes {rounded(task.worst / top / 1000)} ms "
                              f"at {plain(top)} MHz, the highest point, and the period is {plain(task.period)} ms")
