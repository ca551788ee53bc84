"""Operating points, and the files of machines."""

from collections.abc import Iterable, Iterator, Mapping
from dataclasses import dataclass
from functools import partial
from typing import Self

from rtdvs import errors
from rtdvs.model import _checks, _formats, limits


@dataclass(frozen=True, slots=True)
class Point:
    """A speed in work units per tick, and its voltage in millivolts; raises FileRefused, as Task does.

    >>> Point(speed=2, millivolts=3000).speed
    2
    >>> Point(speed=2.5, millivolts=3000)
    Traceback (most recent call last):
    rtdvs.errors.FileRefused: point: wrong kind of speed
    """

    speed: int
    millivolts: int

    def __post_init__(self) -> None:
        _checks.check_fields(self, "point")


@dataclass(frozen=True, slots=True, init=False)
class Machine(_formats.Listed[Point]):
    """The points, the slowest first; idle in thousandths, charge in work units for a switch.

    Iteration gives the points. Raises FileRefused for what a machine file can't have.

    >>> machine = Machine([Point(2, 3000), Point(3, 4000)], charge=1)
    >>> machine.top_speed, [point.speed for point in machine]
    (3, [2, 3])
    >>> Machine.parse(machine.text()) == machine
    True
    >>> Machine([Point(3, 4000), Point(2, 3000)])
    Traceback (most recent call last):
    rtdvs.errors.FileRefused: machine: point 2: not rising
    """

    _field, _kinds = "points", {"speed": "int64", "millivolts": "int64"}

    points: tuple[Point, ...]
    idle: int
    charge: int

    def __init__(self, points: Iterable[Point], idle: int = 0, charge: int = 0) -> None:
        fault = partial(errors.FileRefused, "machine")
        object.__setattr__(self, "idle", _checks.checked_number("idle", idle, fault))
        object.__setattr__(self, "charge", _checks.checked_number("charge", charge, fault))
        found = _checks.entries("machine", points, Point, limits.MOST_POINTS)
        object.__setattr__(self, "points", tuple(_rising(found)))

    @property
    def top_speed(self) -> int:
        """The highest speed, in work units per tick.

        >>> Machine([Point(2, 3000), Point(3, 4000)]).top_speed
        3
        """
        return self.points[-1].speed

    @classmethod
    def of(cls, rows: Iterable[Point | Iterable[object] | Mapping[str, object]], idle: int = 0,
           charge: int = 0) -> Self:
        """The machine of rows: points, pairs of a speed and its millivolts, or these by their names.

        Raises FileRefused with the place of the row.

        >>> Machine.of([(2, 3000), (3, 4000)]).top_speed
        3
        """
        return cls(_rising(_checks.made("machine", rows, Point, limits.MOST_POINTS)), idle, charge)

    @classmethod
    def parse(cls, text: str | bytes) -> Self:
        """The machine of a machine file's text; raises FileRefused.

        >>> Machine.parse("idle = 100\\n[[point]]\\nspeed = 2\\nmillivolts = 3000")
        Machine(points=(Point(speed=2, millivolts=3000),), idle=100, charge=0)
        """
        top = _formats.document(text, "machine", "idle", "charge", "point")
        points = _rising(entry.read(Point) for entry in top.array(limits.MOST_POINTS))
        return cls(points, top.values.get("idle", 0), top.values.get("charge", 0))

    def text(self) -> str:
        """The machine file.

        >>> Machine([Point(2, 3000)], charge=1).text()
        'idle = 0\\ncharge = 1\\n\\n[[point]]\\nspeed = 2\\nmillivolts = 3000\\n'
        """
        settings = f"idle = {self.idle}\ncharge = {self.charge}\n"
        return "\n".join([settings, *(_formats.entry_text("point", point) for point in self.points)])

    def _caption(self) -> str:
        return f"idle {self.idle}, charge {self.charge}"


def _rising(points: Iterable[Point]) -> Iterator[Point]:
    """The points, of which each has to be faster than the one before, at no lower voltage."""
    last = None
    for place, point in enumerate(points, 1):
        if last and (point.speed <= last.speed or point.millivolts < last.millivolts):
            raise errors.FileRefused("machine", "not rising", place)
        yield (last := point)
