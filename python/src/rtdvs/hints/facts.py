"""What the names in a second line are: looked up in the refusal, the words and the files; None if that isn't known."""

import json
import re
from bisect import bisect_right
from collections.abc import Callable, Iterable, Sequence
from dataclasses import dataclass
from difflib import get_close_matches
from fractions import Fraction
from pathlib import Path
from typing import Any, TypeVar

from rtdvs._numbers import decimal, trimmed
from rtdvs.errors import ENTRIES
from rtdvs.hints.given import Given
from rtdvs.hints import toml_faults, words
from rtdvs.model import GREATEST, MOST_JOBS, RANGES, Machine, TaskSet

T = TypeVar("T")

HEADERS = {"demands": ("task", "job", "units"), "deadlines": ("task", "deadline"), "requests": ("arrival", "units")}
KEYS = {"tasks": ("name", "period", "worst", "offset"), "machine": ("speed", "millivolts")}
TOPS = {"tasks": ("task",), "machine": ("point", "idle", "charge")}
OF_TASK = {"wcet": "worst", "c": "worst", "cost": "worst", "execution": "worst", "worst_case": "worst", "t": "period",
           "phase": "offset", "release": "offset", "id": "name", "mhz": "speed", "frequency": "speed", "freq": "speed",
           "hz": "speed", "volts": "millivolts", "voltage": "millivolts", "mv": "millivolts", "v": "millivolts",
           "tasks": "task", "points": "point", "opp": "point", "state": "point"}
"""What others call a key, and its name here."""
LONGEST_TEXT = 60  # of what is quoted


@dataclass(frozen=True, slots=True)
class Found:
    """A line of the program that was read, its parts, and what else is known. LookupError is raised for what isn't."""

    line: str
    parts: dict[str, str]
    given: Given

    @property
    def kind(self) -> str:
        """The kind of file of the line; `load: tasks` has it after the word."""
        return self.line.removeprefix("load: ").split(":")[0]

    @property
    def key(self) -> str:
        """The key or column that the reason names last."""
        names = re.findall(r"\w+", self.line.rpartition(": ")[2])
        known = {*RANGES, *HEADERS["demands"], *HEADERS["deadlines"], *HEADERS["requests"], "name"}
        return next((name for name in [self.parts.get("field", ""), *names] if name in known), "")

    def number(self, name: str) -> int:
        """A part of the line that is a number."""
        return int(self.parts[name])

    def tasks(self) -> TaskSet:
        """The task set of the call."""
        return known(self.given.tasks())

    def machine(self) -> Machine:
        """The machine of the call."""
        return known(self.given.machine())

    def path(self) -> Path:
        """The path of the file of the line."""
        return known(self.given.path(self.kind))

    def word(self, place: int) -> str:
        """The word of the call at that place, from 1."""
        word = at(self.given.words, place)
        return str(known(None if isinstance(word, bytes) else word))

    def entry(self, back: int = 0) -> dict[str, Any]:
        """The task or point that the line names, or one further back, as the file has it."""
        entry = at(self.given.entries(self.kind), self.number("place") - back)
        return known(entry if isinstance(entry, dict) else None)

    def record(self, back: int = 0) -> tuple[int, list[str]] | None:
        """The record of the row that the line names, or one further back, with the number of its line."""
        records, row = self.given.records(self.kind), int(self.parts.get("row", 0)) - back
        return records[row] if 1 <= row < len(records) else None

    def cell(self, back: int = 0) -> str | None:
        """What the record has in the column that the line names."""
        record, names = self.record(back), HEADERS.get(self.kind, ())
        column = names.index(self.key) if self.key in names else 0
        return record[1][column] if record and column < len(record[1]) else None


def known(value: T | None) -> T:
    """The value, if there is one; raises LookupError, and a sentence that needs it is left out.

    >>> known("t1")
    't1'
    """
    if value is None:
        raise LookupError
    return value


def at(values: Sequence[T], place: int) -> T:
    """The value at a place, from 1; raises LookupError.

    >>> at("abc", 3)
    'c'
    """
    if place < 1:
        raise LookupError(place)
    return values[place - 1]


def listed(names: Iterable[str]) -> str:
    """Names in backticks, the last after `and`; raises LookupError for none.

    >>> listed(["a", "b", "c"])
    '`a`, `b` and `c`'
    """
    shown = [f"`{name}`" for name in names]
    return known(" and ".join([", ".join(shown[:-1]), shown[-1]] if shown[1:] else shown) or None)


def shortened(text: str) -> str:
    """A text that is quoted, on one line and cut."""
    shown = text.replace("\n", " ").rstrip("\r ")
    return shown if len(shown) <= LONGEST_TEXT else f"{shown[:LONGEST_TEXT]}.."


def above(value: Fraction, bound: int) -> str:
    """A number with as many decimals, two or more, as show that it is above the bound.

    >>> above(Fraction(1556, 280), 4), above(Fraction(400001, 100000), 4)
    ('5.56', '4.00001')
    """
    shown = (decimal(value, places) for places in range(2, 40))
    return trimmed(next((text for text in shown if Fraction(text) > bound), str(value)))


def near(word: str, names: Sequence[str], likeness: float = 0.6) -> str:
    """The name that a word is near to, or another name of it; raises LookupError for none."""
    plain = word.lower().replace("?", "_")
    other = OF_TASK.get(plain, "")
    return other if other in names else get_close_matches(plain, names, 1, likeness)[0]


# The words of a call

def _usage(found: Found) -> words.Usage:
    return words.COMMANDS[found.word(1)]


def _before(found: Found) -> str:
    """The option whose value is refused."""
    return found.word(found.number("place") - 1)


def _rule(found: Found) -> str | None:
    if found.line.startswith("words: "):
        option = found.parts.get("option") or (found.parts["word"] if "no value" in found.line else _before(found))
        return words.VALUES[option]
    return rule_of(found.key)


def rule_of(key: str) -> str | None:
    """What a key of a file, or a column, has to be.

    >>> rule_of("idle")
    'a whole number from 0 to 1000, without quotes'
    """
    if key == "name":
        return "a text in quotes"
    least, most = RANGES.get(key, (0, GREATEST))
    form = "without quotes" if key in RANGES else "in digits only"
    return f"a whole number from {least} to {most}, {form}" if key else None


def _split(found: Found) -> str | None:
    """An option and its value that were written as one word."""
    option, equals, value = found.word(found.number("place")).partition("=")
    return f"{option} {value}" if equals and option.startswith("--") else None


def _near(found: Found) -> str | None:
    word = found.parts.get("word") or found.parts.get("key") or ""
    if found.line.startswith("load: "):
        return _neighbour(found.path())
    if found.line.startswith("words: 1: "):
        return near(word, [*words.COMMANDS])
    if found.line.startswith("words: "):
        return None if _split(found) else near(word, _usage(found).options)
    if "unknown task" in found.line:
        return near((found.cell() or word).strip(), found.tasks().names)
    return near(word, KEYS[found.kind] if "place" in found.parts else TOPS[found.kind])


# Files

def _cause(found: Found) -> str | None:
    try:
        found.path().open("rb").close()
    except OSError as error:
        return error.strerror
    return None


def _from_here(path: Path) -> str:
    """A path, without the folder of the call."""
    return str(path.relative_to(Path.cwd())) if path.is_relative_to(Path.cwd()) else str(path)


def _neighbour(path: Path) -> str | None:
    """A file beside a path, with a name near to its own."""
    try:
        names = [each.name for each in path.parent.iterdir() if each.is_file()]
    except OSError:
        return None
    other = get_close_matches(path.name, names, 1, 0.7)[0]
    return None if other == path.name else _from_here(path.with_name(other))


def _fault(found: Found) -> toml_faults.Place:
    return known(toml_faults.toml_fault(known(found.given.content(found.kind))))


def _text(found: Found) -> str | None:
    text = at(found.given.lines(found.kind), _fault(found).line if found.kind in KEYS else found.number("n"))
    return shortened(text) if text.strip() else None


def _elsewhere(found: Found) -> str | None:
    """Where a key that is at a wrong place belongs."""
    key, kind, inside = found.parts["key"], found.kind, "place" in found.parts
    other = next(name for name in KEYS if name != kind)
    said = {
        f"`{key}` belongs below a `[[{ENTRIES[kind]}]]`": not inside and key in KEYS[kind],
        f"`{key}` belongs above the first `[[{ENTRIES[kind]}]]`": inside and key in TOPS[kind],
        f"It is a {ENTRIES[other].replace('point', 'machine')} file": not inside and key in TOPS[other],
        "Deadlines are in a file of their own, for `constrain`": inside and key == "deadline",
        "EDF and RM have no other priorities than deadlines and periods": inside and key == "priority",
    }
    return next((text for text, holds in said.items() if holds), None)


def _value(found: Found) -> str:
    """The value of the key that the line names, as the file has it."""
    table = found.entry() if "place" in found.parts else found.given.table(found.kind)
    return f"`{shortened(json.dumps(table[found.key], default=str, ensure_ascii=False))}`"


def _earlier(found: Found) -> str:
    """The line of the earlier row of the same task and job."""
    names, (_, record) = len(HEADERS[found.kind]) - 1, known(found.record())
    rows = found.given.records(found.kind)[1:found.number("row")]
    return [str(line) for line, other in rows if other[:names] == record[:names]][0]


# Runs

def _asked(found: Found, capacity: int) -> str | None:
    """What is asked for, in the unit in which the machine's capacity is this one; None if it has none."""
    of_machine = found.number("cap")
    return above(Fraction(found.number("num") * capacity, of_machine), capacity) if of_machine else None


def _most(found: Found) -> str | None:
    """The most ticks whose jobs are few enough; None if a run isn't what has too many."""
    tasks = found.tasks()
    if "constrain" in found.given.words[:1]:
        return None

    def jobs(ticks: int) -> int:
        return sum(max(-(-(ticks - task.offset) // task.period), 0) for task in tasks)

    too_many = MOST_JOBS * max(task.period for task in tasks) + max(task.offset for task in tasks) + 1
    return str(bisect_right(range(1, too_many), MOST_JOBS, key=jobs))


FACTS: dict[str, Callable[[Found], str | None]] = {
    "above": lambda found: found.cell(1),
    "asked": lambda found: _asked(found, found.machine().top_speed),
    "before": _before,
    "cause": _cause,
    "cell": lambda found: known(found.cell()).replace("\n", " ")[:LONGEST_TEXT],
    "column": lambda found: str(_fault(found).column),
    "command": lambda found: found.word(1),
    "commands": lambda found: listed(words.COMMANDS),
    "earlier": _earlier,
    "elsewhere": _elsewhere,
    "entries": lambda found: "a table `[[task]]` for each task" if found.kind == "tasks" else
    "a table `[[point]]` for each point, and `idle` and `charge` above the first",
    "entry": lambda found: ENTRIES[found.kind],
    "fault": lambda found: _fault(found).fault,
    "field": lambda found: found.key or None,
    "first": lambda found: shortened([line for line in found.given.lines(found.kind) if line.strip()][0]),
    "folder": lambda found: str(Path.cwd()) if found.path() else None,
    "former": lambda found: "{speed} with {millivolts} mV".format_map(found.entry(1)),
    "given": lambda found: shortened(found.word(found.number("place"))),
    "header": lambda found: ",".join(HEADERS[found.kind]),
    "line": lambda found: str(_fault(found).line),
    "millivolts": lambda found: str(found.entry()["millivolts"]),
    "most": _most,
    "names": lambda found: listed(found.tasks().names),
    "near": _near,
    "options": lambda found: listed(_usage(found).options),
    "path": lambda found: _from_here(found.path()),
    "period": lambda found: str(found.tasks()[known(found.record())[1][0]].period),
    "periods": lambda found: listed(dict.fromkeys(str(entry["period"]) for entry in found.given.entries("tasks"))),
    "present": lambda found: listed(found.entry()),
    "ratio": lambda found: _asked(found, 1),
    "record": lambda found: shortened(",".join(known(found.record())[1])),
    "required": lambda found: listed(_usage(found).required),
    "rule": _rule,
    "speed": lambda found: str(found.entry()["speed"]),
    "split": _split,
    "text": _text,
    "top": lambda found: str(found.machine().top_speed),
    "twice": lambda found: str(at(found.given.entries("tasks"), found.number("second"))["name"]),
    "value": _value,
}
"""Each name in a second line that isn't a part of the program's line."""
