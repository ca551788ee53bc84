"""An example as the editor's fields hold it: its files, its call, the field of a refusal, and the menu."""

import json
import re
from collections.abc import Callable, Iterator, Mapping, Sequence
from dataclasses import dataclass
from fractions import Fraction
from functools import partial
from math import ceil
from pathlib import Path
from typing import Any

from rtdvs.engine import CRATE, Call
from rtdvs.errors import BadRequest, FileRefused
from rtdvs.model import Demands, Machine, TaskSet

LONGEST_FIELD = 1000    # characters
TABLES = {"tasks": ("name", "period", "worst", "offset"), "points": ("speed", "millivolts"),
          "demands": ("task", "job", "units")}
SINGLE = ("scheduler", "governor", "ticks", "idle", "charge")
MORE = ("beside", "admission", "page")
"""Fields that may be missing: a second pair, `none` for the package's run of a set that isn't admitted, and the
page that asks, whose newer call ends an older one."""
EXAMPLE_DATA = ("crates", "example_runs", "data")
Rows = Sequence[Mapping[str, str]]
MENU = {
    "paper": "Three tasks on three speeds, from the paper of Pillai and Shin (2001), with demands.",
    "controller": "A controller on a battery: six tasks, four speeds, an idle share and a charge for switches.",
    "ahead": "Three tasks for which look-ahead (la) asks for more than the highest speed.",
    "offsets": "Two tasks, the second of which is released for the first time at tick 2.",
}
"""The examples of the menu: their folders, the first one first, and a sentence for each."""
START: dict[str, object] = {
    "name": "late", "about": "Two tasks that EDF admits. Under RM, which denies them, b misses its deadline.",
    "example": {
        "tasks": [{"name": "a", "period": "4", "worst": "8"}, {"name": "b", "period": "5", "worst": "9"}],
        "points": [{"speed": str(volts - 1), "millivolts": f"{volts}000"} for volts in (3, 4, 5)], "demands": [],
        "scheduler": "edf", "governor": "cc", "ticks": "20", "idle": "0", "charge": "0"}}
"""The example that needs no file: the last of the menu, or all of it without the repository's."""


@dataclass(frozen=True, slots=True)
class Example:
    """What the fields of the editor hold, as their texts."""

    tasks: Rows
    points: Rows
    demands: Rows
    single: Mapping[str, str]

    def files(self) -> dict[str, str]:
        """The files, in which a field that isn't a whole number stays a text, so that it is refused there."""
        settings = [f"{name} = {_value(self.single[name])}" for name in ("idle", "charge") if self.single[name]]
        files = {"tasks": _tables("task", self.tasks), "machine": "\n".join([*settings, _tables("point", self.points)])}
        if self.demands:
            worsts = {task["name"]: task["worst"] for task in self.tasks}
            rows = [",".join(map(_quoted, (row["task"], row["job"], _units(row["units"], worsts.get(row["task"], "")))))
                    for row in self.demands]
            files["demands"] = "\n".join(["task,job,units", *rows, ""])
        return files

    def parsed(self) -> tuple[TaskSet, Machine, Demands | None]:
        """What is in the files; raises FileRefused.

        >>> Example((), (), (), {"idle": "", "charge": ""}).parsed()
        Traceback (most recent call last):
        rtdvs.errors.FileRefused: tasks: no tasks
        """
        files = self.files()
        tasks = TaskSet.parse(files["tasks"])
        demands = Demands.parse(files["demands"], tasks) if "demands" in files else None
        return tasks, Machine.parse(files["machine"]), demands

    def pairs(self) -> dict[str, tuple[str, str]]:
        """The pairs of a scheduler and a governor that are drawn, by their labels.

        >>> Example((), (), (), {"scheduler": "edf", "governor": "cc", "beside": "rm static"}).pairs()
        {'A': ('edf', 'cc'), 'B': ('rm', 'static')}
        """
        first = self.single["scheduler"], self.single["governor"]
        scheduler, _, governor = self.single.get("beside", "").partition(" ")
        return {"A": first, "B": (scheduler, governor)} if scheduler else {"": first}

    def call(self, pair: tuple[str, str]) -> Call[str]:
        """The call of `run` for a pair."""
        options = [("--scheduler", pair[0]), ("--governor", pair[1]), ("--ticks", self.single["ticks"])]
        files = [(f"--{name}", text) for name, text in self.files().items()]
        return Call("run", (*options, ("--format", "2")), tuple(files))

    def jobs(self) -> int:
        """The most jobs that a run can have; 0 if that isn't known, and then the program refuses it.

        >>> Example((({"period": "4"},)), (), (), {"ticks": "9"}).jobs()
        3
        """
        try:
            ticks = int(self.single["ticks"])
            return sum(ticks // int(task["period"]) + 1 for task in self.tasks)
        except (ValueError, ZeroDivisionError):
            return 0


def example_of(body: bytes) -> Example:
    """The example of a request; raises BadRequest.

    >>> example_of(b'{"tasks": []}')
    Traceback (most recent call last):
    rtdvs.errors.BadRequest: not an example
    """
    try:
        found = json.loads(body)
        tables = {kind: [{name: field_text(row.get(name, "")) for name in names} for row in found[kind]]
                  for kind, names in TABLES.items()}
        more = {name: field_text(found.get(name, "")) for name in MORE}
        return Example(**tables, single={name: field_text(found[name]) for name in SINGLE} | more)
    except (AttributeError, KeyError, RecursionError, TypeError, ValueError):
        raise BadRequest("not an example") from None


def field_text(value: Any) -> str:
    """A text that can be a word of a call; raises ValueError.

    >>> field_text("8 ms")
    '8 ms'
    """
    if not isinstance(value, str) or len(value) > LONGEST_FIELD or "\0" in value:
        raise ValueError(value)
    value.encode()
    return value


def _value(text: str) -> str:
    """A value of a TOML file: a whole number that such a file can have, or else a string.

    >>> _value("8"), _value("8 ms"), _value("9" * 20)
    ('8', '"8 ms"', '"99999999999999999999"')
    """
    is_number = re.fullmatch("0|-?[1-9][0-9]{0,18}", text) is not None and -2**63 <= int(text) < 2**63
    return text if is_number else _string(text)


def _string(text: str) -> str:
    r"""A string of a TOML file.

    >>> print(_string("\x7f"))
    "\u007f"
    """
    return json.dumps(text, ensure_ascii=False).replace("\x7f", "\\u007f")


def _tables(kind: str, rows: Rows) -> str:
    """The tables of a TOML file. A field without a text is left out; a name is always a string."""
    lines: list[str] = []
    for row in rows:
        values = (f"{key} = {_value(text) if key != 'name' else _string(text)}" for key, text in row.items() if text)
        lines += [f"[[{kind}]]", *values, ""]
    return "\n".join(lines)


def _units(text: str, worst: str) -> str:
    """Work units, or a share of the worst case in percent, which is rounded up; what is neither stays as it is.

    >>> _units("8", "12"), _units("50%", "13"), _units("12.5 %", "8"), _units("x%", "8"), _units("1", "y")
    ('8', '7', '1', 'x%', '1')
    """
    found = re.fullmatch(r"([0-9]{1,3})(\.[0-9]{1,6})? *%", text.strip())
    if not found or not re.fullmatch("[0-9]{1,19}", worst):
        return text
    return str(ceil(Fraction(f"{found[1]}{found[2] or ''}") / 100 * int(worst)))


def _quoted(text: str) -> str:
    """A field of a CSV file."""
    return f'"{text.replace(chr(34), chr(34) * 2)}"' if re.search('[",\r\n]', text) else text


# The field of a refusal


def field_of(fault: Exception, example: Example) -> str:
    """The editor's field that a refusal names; `tasks.0.period` is that of the first task, "" is none.

    >>> field_of(FileRefused("tasks", "period out of range", 2), Example((), (), (), {}))
    'tasks.1.period'
    """
    line = str(fault)
    for pattern, place in _FIELDS:
        if found := re.match(pattern, line):
            return place(found, example)
    return ""


def _column(kind: str, found: re.Match[str], example: Example) -> str:
    """The field of a row that a line names, or the row's first one."""
    column = next((name for name in TABLES[kind] if re.search(rf"\b{name}\b", found[2])), TABLES[kind][0])
    return f"{kind}.{int(found[1]) - 1}.{column}"


def _not_rising(found: re.Match[str], example: Example) -> str:
    """The speed of a point, or its millivolts if the speeds of the two points rise."""
    place = int(found[1]) - 1
    before, here = (int(example.points[each]["speed"]) for each in (place - 1, place))
    return f"points.{place}.{'millivolts' if before < here else 'speed'}"


def _worst(found: re.Match[str], example: Example) -> str:
    """The worst case of the task that a line names."""
    names = [task["name"] for task in example.tasks]
    return f"tasks.{names.index(found[1])}.worst" if found[1] in names else "scheduler"


def _over_worst(found: re.Match[str], example: Example) -> str:
    rows = [(row["task"], row["job"]) for row in example.demands]
    return f"demands.{rows.index((found[1], found[2]))}.units" if (found[1], found[2]) in rows else ""


def _word(found: re.Match[str], example: Example) -> str:
    """The field of a word of the call, by its place: 2 is the first option, 3 its value."""
    place = int(found[1]) // 2 - 1
    return ("scheduler", "governor", "ticks")[place] if place < 3 else ""


_FIELDS: Sequence[tuple[str, Callable[[re.Match[str], Example], str]]] = (
    (r"tasks: task (\d+): (.*)", partial(_column, "tasks")),
    (r"tasks: tasks \d+ and (\d+) have one (name)", partial(_column, "tasks")),
    (r"tasks: periods", lambda found, example: "tasks.0.period"),
    (r"machine: point (\d+): not rising", _not_rising),
    (r"machine: point (\d+): (.*)", partial(_column, "points")),
    (r"machine: .*\b(idle|charge)\b", lambda found, example: found[1]),
    (r"demands: row (\d+): (.*)", partial(_column, "demands")),
    (r"over worst: (\S+) (\d+) ", _over_worst),
    (r"denied rm (\S+) ", _worst),
    (r"denied edf ", lambda found, example: "scheduler"),
    (r"limit: |a whole number", lambda found, example: "ticks"),
    (r"words: rm has no governor", lambda found, example: "governor"),
    (r"words: (\d+): ", _word),
)


# The menu


def examples() -> Iterator[dict[str, object]]:
    """The repository's examples of the menu, or those of the installed package, and one; each with its sentence."""
    installed = Path(__file__).resolve().parents[5:6]
    tops = (CRATE.parents[1], *(folder / "share" / "rtdvs" for folder in installed))
    for name, about in MENU.items():
        for folder in (top.joinpath(*EXAMPLE_DATA, name) for top in tops):
            if (folder / "tasks.toml").is_file():
                yield {"name": name, "about": about, "example": read_example(folder)}
                break
    yield START


def read_example(folder: Path) -> dict[str, object]:
    """The editor's fields for the files of a folder; raises FileRefused and OSError."""
    tasks, machine = TaskSet.read(folder / "tasks.toml"), Machine.read(folder / "machine.toml")
    named = folder / "demands.csv"
    units = Demands.read(named, tasks).units if named.exists() else {}
    periods = [task.period for task in tasks]
    return {
        "tasks": [{name: str(getattr(task, name)) for name in TABLES["tasks"]} for task in tasks],
        "points": [{name: str(getattr(point, name)) for name in TABLES["points"]} for point in machine],
        "demands": [{"task": task, "job": str(job), "units": str(number)} for (task, job), number in units.items()],
        "scheduler": "edf", "governor": "cc", "ticks": str(max(2 * min(periods), *periods)),
        "idle": str(machine.idle), "charge": str(machine.charge),
    }
