"""What a picture of a trace has to have: worked out from the trace's lines, and read back from the page's marks.

Positions are in pixels, in the order of the marks' kinds.
"""

import re
from collections.abc import Callable, Iterator
from dataclasses import dataclass, field
from fractions import Fraction
from typing import Any, NamedTuple

from rtdvs.model import Machine, TaskSet

READ = """return [...document.querySelectorAll(".sheet")].map((sheet) => ({
  title: sheet.querySelector("h2").textContent, energy: sheet.querySelector(".energy").firstChild.data,
  axis: [...sheet.querySelectorAll(".axis text")].map((each) => [Number(each.getAttribute("x")), each.textContent]),
  grid: sheet.querySelector(".grid").getAttribute("d"),
  rows: [...sheet.querySelectorAll(".rows g.row")].map((row) => ({
    paths: [...row.querySelectorAll("path")].map((each) => [each.getAttribute("class"), each.getAttribute("d"),
      each.querySelector("title")?.textContent ?? ""]),
    texts: [...row.querySelectorAll("text")].map((each) => [each.getAttribute("class"),
      Number(each.getAttribute("x")), each.firstChild.data]),
  })),
}))"""
BAR, FULL, ROW, SPEED = 28, 56, 50, 96     # pixels of the highest speed in a task's row and below, and of the rows
# Of each kind of mark, by the numbers of its path and its row's floor: its places along the ticks, and its height
PLACES: dict[str, Callable[[list[float], float], tuple[float, ...]]] = {
    "run": lambda n, floor: (n[0], n[3], floor - n[2]), "idle": lambda n, floor: (n[0], n[3], floor - n[2]),
    "release": lambda n, floor: (n[0], n[2]), "deadline": lambda n, floor: (n[0], n[2]),
    "done": lambda n, floor: (n[0] - 4, floor - n[1]), "decision": lambda n, floor: (n[0], floor - n[1] - 6),
    "miss": lambda n, floor: (n[0] + 6,),
}


class Mark(NamedTuple):
    """A mark: its kind, its places and its height in pixels, and its words."""

    kind: str
    places: tuple[float, ...]
    words: str


def moment(time: Fraction) -> str:
    """A time as the page writes it.

    >>> moment(Fraction(8, 3)), moment(Fraction(1, 2)), moment(Fraction(4))
    ('2 2/3', '1/2', '4')
    """
    whole, rest = divmod(time, 1)
    return f"{whole} {rest}".removeprefix("0 ") if rest else str(whole)


def units_of(number: int) -> str:
    return f"{number} unit{'' if number == 1 else 's'}"


@dataclass
class Drawing:
    """The marks of a trace's text, row by row; the last row is that of the speeds."""

    text: str
    tasks: TaskSet
    machine: Machine
    left: float
    right: float
    rows: list[list[Mark]] = field(default_factory=list)
    labels: list[list[tuple[float, float, str]]] = field(default_factory=list)
    demand: list[tuple[int, float, int, Fraction]] = field(default_factory=list)

    def __post_init__(self) -> None:
        self.rows = [[] for _ in [*self.tasks, None]]
        self.labels = [[] for _ in self.rows]
        self.names = [task.name for task in self.tasks]
        self.ticks = int(self.text.splitlines()[1].split()[-1])
        self.top = self.machine.points[-1].speed
        speed = 1
        for line in self.text.splitlines()[2:]:
            word, *fields = line.split()
            if word == "speed":
                speed = int(fields[1])
            if word in ("release", "done", "run", "idle", "speed"):
                getattr(self, f"_{word}")(fields, speed)

    def x(self, time: Fraction | int) -> float:
        return self.left + float(time) * (self.right - self.left) / self.ticks

    def _add(self, row: int, kind: str, words: str, *places: float) -> None:
        self.rows[row].append(Mark(kind, places, words))

    def _worst(self, row: int) -> int:
        return self.tasks[row].worst + 2 * self.machine.charge

    def _release(self, fields: list[str], speed: int) -> None:
        tick, row, job = int(fields[0]), self.names.index(fields[1]), f"{fields[1]} job {fields[2]}"
        due = tick + self.tasks[row].period
        self._add(row, "release", f"{job} is released at {tick}, due at {due}", self.x(tick), -40)
        if due <= self.ticks:
            self._add(row, "deadline", f"{job} is due at {due}", self.x(due), 26)

    def _done(self, fields: list[str], speed: int) -> None:
        row, time = self.names.index(fields[1]), position(fields[0], speed)
        words = f"{fields[1]} job {fields[2]} is complete at {moment(time)} with {fields[3]} of "
        self._add(row, "done", words + units_of(self._worst(row)), self.x(time), BAR * speed / self.top)

    def _run(self, fields: list[str], speed: int) -> None:
        row, begin, end = self.names.index(fields[2]), position(fields[0], speed), position(fields[1], speed)
        words = f"{fields[2]} job {fields[3]} runs from {moment(begin)} to {moment(end)} at speed {speed}: "
        self._add(row, "run", words + units_of(int(fields[4])), self.x(begin), self.x(end), BAR * speed / self.top)
        self.labels[row].append((self.x(begin), self.x(end), fields[3]))

    def _idle(self, fields: list[str], speed: int) -> None:
        begin, end = position(fields[0], speed), position(fields[1], speed)
        words = f"idle from {moment(begin)} to {moment(end)} at speed {speed}: {units_of(int(fields[2]))}"
        self._add(-1, "idle", words, self.x(begin), self.x(end), FULL * speed / self.top)

    def _speed(self, fields: list[str], speed: int) -> None:
        tick = int(fields[0])
        if tick < self.ticks:
            words = f"decision at tick {tick}: speed {speed} for {fields[2]}"
            self._add(-1, "decision", words, self.x(tick), FULL * speed / self.top)
        self.demand.append((tick, self.x(tick), speed, Fraction(fields[2])))


def position(text: str, speed: int) -> Fraction:
    tick, units = map(int, text.split(":"))
    return tick + Fraction(units, speed)


def numbers(path: str) -> list[float]:
    return [float(each) for each in re.findall(r"-?[0-9.]+", path)]


def marks_of(row: dict[str, Any], floor: float) -> list[Mark]:
    """The marks of a row of the page."""
    found = []
    for kind, path, words in row["paths"]:
        if kind.split()[0] in PLACES:
            found.append(Mark(kind.split()[0], PLACES[kind.split()[0]](numbers(path), floor), words))
    return found


def steps_of(row: dict[str, Any], kind: str, floor: float) -> Iterator[tuple[float, float, float]]:
    """Begin, end and height of each step of the line of speeds or of demands."""
    (path,) = [path for each, path, _ in row["paths"] if each == kind]
    first, *rest = numbers(path)
    for height, end in zip(rest[::2], rest[1::2], strict=True):
        yield first, end, floor - height
        first = end
