"""Reads the lines of a trace strictly."""

import re
from collections.abc import Callable, Iterable, Iterator
from functools import lru_cache, partial
from typing import TextIO

from rtdvs.errors import TraceFault
from rtdvs.model import GREATEST, LONGEST_LINE, LONGEST_TIME, MOST_LINES, MOST_TASKS, MOST_TICKS, MOST_WORK, Task
from rtdvs.trace.notes import TASK_FORM, Decision, Done, End, Head, Idle, Item, Line, Position, Release, Run, TaskEnergy


def _up_to(limit: int) -> str:
    """A pattern for the whole numbers from 1 to the limit.

    >>> _up_to(403)
    '[1-9][0-9]{0,1}|[1-3][0-9]{2}|40[0-2][0-9]{0}|403'
    """
    text = str(limit)
    below = [f"{text[:place]}[{int(place == 0)}-{int(digit) - 1}][0-9]{{{len(text) - place - 1}}}"
             for place, digit in enumerate(text) if int(digit) > (place == 0)]
    return "|".join([f"[1-9][0-9]{{0,{len(text) - 2}}}", *below, text])


_NAME, _PERIOD, _WORST = "([A-Za-z0-9_-]{1,32})", f"({_up_to(LONGEST_TIME)})", f"({_up_to(MOST_WORK)})"
_NUMBER, _GREAT = f"(0|{_up_to(GREATEST)})", f"(0|{_up_to(2**128 - 1)})"
_PLACE = f"({_NUMBER}:{_NUMBER})".replace("(0|", "(?:0|")
_SHAPES = {  # of fields; all others are numbers
    "name": _NAME, "task": _NAME, "period": _PERIOD, "worst": _WORST, "offset": f"(0|{_up_to(LONGEST_TIME)})",
    **dict.fromkeys(("num", "den", "energy", "run_energy", "idle_energy"), _GREAT),
    **dict.fromkeys(("begin", "end", "at"), _PLACE),
}


@lru_cache(maxsize=4)  # a line often begins where the one before it ends
def _at(place: str) -> Position:
    tick, offset = place.split(":")
    return Position(int(tick), int(offset))


_KINDS: dict[str, Callable[..., Line]] = {
    TASK_FORM: lambda name, period, offset, worst: Task(name, period, worst, offset),
    Release.form: Release, Decision.form: Decision, Run.form: Run, Idle.form: Idle, Done.form: Done,
    TaskEnergy.form: TaskEnergy, End.form: End,
}
_VALUES: dict[str, Callable[[str], object]] = {"name": str, "task": str, "begin": _at, "end": _at, "at": _at}


@lru_cache(maxsize=32)  # to compile all patterns takes 50 ms, and a command may need none
def _line(start: str) -> tuple[re.Pattern[str], list[Callable[[str], object]], Callable[..., Line]]:
    """The pattern of a line that begins so, what makes the values of its fields, and what makes the line of these."""
    form = next((form for form in _KINDS if form.startswith(start)), "(?!)")
    values = [_VALUES.get(field, int) for field in re.findall(r"{0\.(\w+)}", form)]
    shape = re.sub(r"{0\.(\w+)}", lambda field: _SHAPES.get(str(field[1]), _NUMBER), form)
    return re.compile(f"{shape}\n"), values, _KINDS.get(form, End)


def read_head(lines: Iterator[str]) -> Head:
    r"""What the first two lines say, with their line feeds; raises TraceFault.

    >>> read_head(iter(["trace 1\n", "plan edf mine 2\n"])).ticks
    2
    """
    line = next(lines, "")
    if line not in ("trace 1\n", "trace 2\n"):
        raise TraceFault(1, "neither trace 1 nor trace 2")
    plan = next(lines, "")
    found = re.fullmatch(f"plan {_NAME} {_NAME} ({_up_to(MOST_TICKS)})\n", plan)
    if not found:
        raise TraceFault(2, _misspelled(plan, "not a plan line"))
    return Head(int(line[6]), found[1], found[2], int(found[3]))


def _misspelled(line: str, reason: str) -> str:
    """Why a line is none of a trace: a general reason, if there is one."""
    if len(line.rstrip("\n")) > LONGEST_LINE:
        return f"it has more than {LONGEST_LINE} bytes"
    return reason if line.endswith("\n") else "it doesn't end with a line feed"


class Reader:
    r"""Reads a trace line by line, in little memory: its `head`, and an item for each of `lines`.

    `number` is that of the line that was given last. Raises TraceFault for the first line that the published
    format doesn't have.

    >>> reader = Reader(["trace 1\n", "plan edf mine 2\n", "end 2 0 0\n"])
    >>> reader.head.governor, [reader.read(line) for line in reader.lines()], reader.number
    ('mine', [End(ticks=2, run_energy=0, idle_energy=0)], 3)
    """

    def __init__(self, lines: Iterable[str]) -> None:
        self._source = iter(lines)
        self.head, self.number = read_head(self._source), 2
        self.sums: dict[str, int] = {}  # in version 2 the energy of each task's runs
        self._begun = self._decided = self.has_ended = False
        self._closed = -1  # energy lines, once one or the end line was given

    def lines(self) -> Iterator[str]:
        """The lines after the head, with their line feeds, up to the one after which `has_ended` is set."""
        for line in self._source:
            self.number += 1
            yield line
            if self.has_ended:
                break
        else:
            raise TraceFault(self.number + 1, "the trace ends before its end line")
        for line in self._source:
            raise TraceFault(self.number + 1, "a line after the end line")

    def spelled(self, line: str) -> Line:
        """What the line says that `lines` gave last, wherever it is."""
        shape, values, kind = _line(line[:3])
        found = shape.fullmatch(line)
        if not found or self.number > MOST_LINES:
            more = f"a trace has at most {MOST_LINES} lines"
            raise TraceFault(self.number, more if found else _misspelled(line, "not a line of a trace"))
        return kind(*[value(text) for value, text in zip(values, found.groups())])

    def read(self, line: str) -> Line:
        """What the line says that `lines` gave last; its order is checked, and in version 2 the energies."""
        item = self.spelled(line)
        if fault := self._fault(item):
            raise TraceFault(self.number, fault)
        if self.sums and isinstance(item, Run):
            self.sums[item.task] += item.energy
        self.has_ended = isinstance(item, End)
        return item

    def _fault(self, item: Line) -> str:
        """Why an item can't be the next one, or an empty text."""
        if isinstance(item, Task):
            return self._task_fault(item)
        self._begun = True
        if self.head.version == 2 and not self.sums:
            return "the lines of the tasks are missing"
        if self._closed < 0 and not isinstance(item, TaskEnergy | End):
            fault = self._note_fault(item)
            self._decided = True if isinstance(item, Decision) else self._decided
            return fault
        self._closed += 1
        wanted = [*self.sums.items(), ("", 0)][self._closed]
        return closing_fault(item, self.head.version, *wanted)

    def _task_fault(self, task: Task) -> str:
        if self.head.version == 1 or self._begun:
            return LATE_TASK
        fault = "two tasks of one name" if task.name in self.sums else ""
        fault = fault if len(self.sums) < MOST_TASKS else f"more than {MOST_TASKS} tasks"
        self.sums[task.name] = 0
        return fault

    def _note_fault(self, item: Release | Decision | Run | Idle | Done) -> str:
        if isinstance(item, Decision):
            return "" if item.speed and item.den else NO_FRACTION
        if not (self._decided or isinstance(item, Release) or isinstance(item, Done) and not item.at.offset):
            return "there is no decision before it"
        if self.sums and not isinstance(item, Idle) and item.task not in self.sums:
            return f"no task {item.task}"
        return ""


NO_FRACTION = "a speed of 0, or a fraction over 0"
LATE_TASK = "the lines of the tasks are after the plan line of version 2"


def closing_fault(item: Line, version: int, name: str, total: int) -> str:
    """Why an item can't be the energy line of that task, or the end line if the name is empty.

    >>> closing_fault(TaskEnergy("a", 5), 2, "a", 6)
    'the run lines of a add up to 6'
    """
    if isinstance(item, End):
        return name and f"the energy line of {name} is missing"
    if isinstance(item, Task):
        return LATE_TASK
    if not isinstance(item, TaskEnergy):
        return "a line between the energy lines and the end line"
    if version == 1:
        return "only version 2 has energy lines"
    if item.task != name:
        return "the energy lines are one for each task, in the order of the file"
    return "" if item.energy == total else f"the run lines of {name} add up to {total}"


def parse_lines(lines: Iterable[str]) -> Iterator[Item]:
    r"""Reads a trace line by line, in little memory: its head, in version 2 its tasks, and its notes.

    Each line has its line feed. The head is what the first two lines say, so item n is line n + 1. Raises
    TraceFault for the first line that the published format doesn't have, after all lines before it were
    given.

    >>> [item.text() for item in parse_lines(["trace 1\n", "plan edf mine 2\n", "end 2 0 0\n"])]
    ['trace 1\nplan edf mine 2', 'end 2 0 0']
    """
    reader = Reader(lines)
    yield reader.head
    yield from map(reader.read, reader.lines())


def lines_of(file: TextIO) -> Iterator[str]:
    r"""The lines of an open file, in parts of at most two characters more than a line may have.

    >>> import io
    >>> [len(line) for line in lines_of(io.StringIO("trace 1\n" + 1000 * "x"))]
    [8, 257, 257, 257, 229]
    """
    return iter(partial(file.readline, LONGEST_LINE + 2), "")
