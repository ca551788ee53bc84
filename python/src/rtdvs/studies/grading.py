"""Grades of traces that were written by hand: how many lines and decisions are right, and the first fault.

A line is right if the right trace has it, in the order there. The right trace is that of the simulator for the
tasks, the machine, the demands and the plan line; the checker gives the reason of the first fault.
"""

import re
from bisect import bisect_left
from collections.abc import Iterator, Sequence
from dataclasses import dataclass
from fractions import Fraction
from pathlib import Path

from rtdvs import _display, _numbers
from rtdvs.errors import BadValue, RtdvsError, TraceFault
from rtdvs.model import Demands, Machine, TaskSet, jobs_of, table_text
from rtdvs.rules import Plan, check, simulate
from rtdvs.trace import Decision, Done, End, Head, Idle, Reader, Release, Run, TaskEnergy, Trace

ENDING = ".trace"
PLACE = "TICK:UNITS"
FIELDS = {"begin": PLACE, "end": PLACE, "at": PLACE, "used": "UNITS"}  # others have their names in capitals
PLAN_FORM = "plan SCHEDULER GOVERNOR TICKS"
ROW_FORM = "task NAME PERIOD OFFSET WORST"
FORMS = {form.split()[0]: form for form in (ROW_FORM, *(
    re.sub(r"{0\.(\w+)}", lambda field: FIELDS.get(str(field[1]), str(field[1]).upper()), form)
    for form in (Release.form, Decision.form, Run.form, Idle.form, Done.form, TaskEnergy.form, End.form)))}


def expected(number: int, line: str) -> str:
    """The line and the form that belongs there, if the line with this number has another; or an empty text.

    >>> expected(8, "done 2.5 t1 1 8"), expected(8, "done 2:1 t1 1 8")
    ('it is "done 2.5 t1 1 8", and not done TICK:UNITS TASK JOB UNITS in whole numbers', '')
    """
    line = line.rstrip("\n")
    heads = ["trace 2\n", "plan edf none 1\n"]
    if number <= len(heads):
        heads[number - 1] = f"{line}\n"
    try:
        reader = Reader(heads)
        if number > len(heads):
            reader.spelled(f"{line}\n")
        return ""
    except TraceFault:
        form = {1: "trace 1 or trace 2", 2: PLAN_FORM}.get(number) or FORMS.get(line.split(" ")[0])
        form = f"{form} in whole numbers" if form else f"a line that begins with {', '.join(FORMS)}"
        return f'it is "{line[:80]}", and not {form}'


# Reading what was handed in

def mended(content: bytes) -> tuple[list[str], tuple[str, ...]]:
    r"""The lines of a text, each with its line feed, and what had to be mended in them.

    >>> mended(b"trace 1\r\nplan edf\tcc 16 \r\n\r\n")
    (['trace 1\n', 'plan edf cc 16\n'], ('CRLF', 'tabs or blanks in line 2', 'empty lines at the end'))
    """
    text, said = content.decode("latin-1"), list[str]()
    for mark, by, what in (("\xef\xbb\xbf", "", "a byte order mark"), ("\r\n", "\n", "CRLF"), ("\r", "\n", "CR")):
        if mark in text:
            text = text.replace(mark, by)
            said.append(what)
    lines = text.split("\n")
    clean = [re.sub(r"[ \t]+", " ", line).strip(" ") for line in lines]
    changed = [number for number, pair in enumerate(zip(lines, clean), 1) if pair[0] != pair[1]]
    if changed:
        said.append(f"tabs or blanks in line{'s'[:len(changed) > 1]} {_listed(changed)}")
    if clean[-1]:
        said.append("no line feed at the end")
    elif clean[-2:] == ["", ""]:
        said.append("empty lines at the end")
    while clean and not clean[-1]:
        clean.pop()
    return [f"{line}\n" for line in clean], tuple(said)


def _listed(numbers: Sequence[int], most: int = 5) -> str:
    more = f" and {len(numbers) - most} more" if len(numbers) > most else ""
    return ", ".join(map(str, numbers[:most])) + more


# Grading

@dataclass(frozen=True, slots=True)
class Asked:
    """What was asked for: the files, and the plan line if there is one right one.

    Without demands those of a trace's own `done` lines are taken, as far as these are possible.

    >>> from rtdvs.model import Point, Task
    >>> asked = Asked(TaskSet((Task("t", 2, 4),)), Machine((Point(2, 1000),)))
    >>> text = b"trace 1\\nplan edf none 1\\nrelease 0 t 1\\nspeed 0 2 2/1\\nrun 0:0 1:0 t 1 2 2000000000\\n"
    >>> grade(asked, "a", text + b"end 1 2000000001 0\\n").reason
    'the lines add up to 2000000000 for runs and 0 for idle units'
    """

    tasks: TaskSet
    machine: Machine
    demands: Demands | None = None
    plan: Head | None = None

    @classmethod
    def by(cls, tasks: TaskSet, machine: Machine, demands: Demands | None, solution: Trace | None) -> "Asked":
        """What a right trace asks for: its plan, and its demands if there is no demand file; raises WrongTrace."""
        if solution is None:
            return cls(tasks, machine, demands)
        lines = solution.lines()
        check(tasks, machine, lines, demands)
        head = Head(solution.version, solution.scheduler, solution.governor, solution.ticks)
        return cls(tasks, machine, demands or said_demands(tasks, machine, head.ticks, lines), head)

    def head_of(self, lines: Sequence[str]) -> Head | None:
        """The plan that is asked for, in the version of the lines; without one that of the lines, if they have it."""
        try:
            own = Reader(lines).head
        except TraceFault:
            return self.plan
        return own if self.plan is None else Head(own.version, self.plan.scheduler, self.plan.governor, self.plan.ticks)


def said_demands(tasks: TaskSet, machine: Machine, ticks: int, lines: Sequence[str]) -> Demands:
    """The demands that `done` lines say, as far as a job of the run can have them.

    >>> from rtdvs.model import Point, Task
    >>> tasks, machine = TaskSet((Task("t", 2, 4),)), Machine((Point(2, 1000),))
    >>> said_demands(tasks, machine, 4, ["done 1:1 t 1 3\\n", "done 4:0 t 2 5\\n"]).units
    {('t', 1): 3}
    """
    found = (re.fullmatch(r"done \d+:\d+ ([\w-]+) (\d{1,20}) (\d{1,20})\n", line) for line in lines)
    said = {(done[1], int(done[2])): int(done[3]) - 2 * machine.charge for done in found if done}
    jobs = ((task, (task.name, job)) for task, job in jobs_of(tasks, ticks))
    return Demands({job: said[job] for task, job in jobs if 0 <= said.get(job, -1) <= task.worst})


@dataclass(frozen=True, slots=True)
class Grade:
    """How much of a trace is right.

    It has `lines` of the `of_lines` of the right trace, and `decisions` of `of_decisions`; these are 0 if
    nobody can say which trace is meant. `line` and `reason` are of the first fault, None and empty without
    one. `mended` is what was mended in reading.

    >>> Grade("a.trace", 31, 44, 9, 12, 12, "no task t4").share
    Fraction(31, 44)
    """

    name: str
    lines: int
    of_lines: int
    decisions: int
    of_decisions: int
    line: int | None = None
    reason: str = ""
    mended: tuple[str, ...] = ()

    @property
    def share(self) -> Fraction:
        """The share of right lines.

        >>> Grade("a.trace", 0, 0, 0, 0, 1, "neither trace 1 nor trace 2").share
        Fraction(0, 1)
        """
        return Fraction(self.lines, self.of_lines or 1)

    @property
    def is_right(self) -> bool:
        """Whether there is no fault.

        >>> Grade("a.trace", 44, 44, 12, 12).is_right
        True
        """
        return self.line is None


COLUMNS = {"file": "object", "lines": "int64", "of_lines": "int64", "share": "float64", "decisions": "int64",
           "of_decisions": "int64", "decision_share": "float64", "fault_line": "Int64", "reason": "object",
           "mended": "object"}


class Grades(tuple[Grade, ...], _display.Shown):
    """The grades of some traces, as a tuple that a notebook shows as a table.

    >>> print(Grades([Grade("a.trace", 31, 44, 9, 12, 12, "no task t4")]).csv(), end="")
    file,lines,of_lines,share,decisions,of_decisions,decision_share,fault_line,reason,mended
    a.trace,31,44,0.7045,9,12,0.7500,12,no task t4,
    """

    __slots__ = ()
    _kinds = COLUMNS

    def _rows(self) -> Iterator[tuple[_display.Cell, ...]]:
        for each in self:
            chosen = Fraction(each.decisions, each.of_decisions or 1)
            yield (each.name, each.lines, each.of_lines, each.share, each.decisions, each.of_decisions, chosen,
                   each.line, each.reason, "; ".join(each.mended))

    def csv(self) -> str:
        """The table in CSV; shares have four decimal places."""
        rows = ([_numbers.decimal(cell, 4) if isinstance(cell, Fraction) else cell for cell in row]
                for row in self._rows())
        return table_text([[*COLUMNS], *rows])

    def text(self) -> str:
        """The table for a terminal: shares are percent, and the fault and what was mended are at the end."""
        rows = [("file", "lines", "right", "decisions", "right")]
        rows += [(each.name, *_of(each.lines, each.of_lines), *_of(each.decisions, each.of_decisions)) for each in self]
        ends = ["first fault", *(_end(each) for each in self)]
        return "".join(f"{row}  {end}\n" for row, end in zip(_numbers.aligned(rows).splitlines(), ends, strict=True))


def _of(right: int, wanted: int) -> tuple[str, str]:
    return f"{right}/{wanted}", f"{_numbers.decimal(Fraction(100 * right, wanted or 1), 1)} %"


def _end(grade: Grade) -> str:
    said = "none" if grade.is_right else f"line {grade.line}: {grade.reason}"
    return said + (f" (mended: {', '.join(grade.mended)})" if grade.mended else "")


def grade(asked: Asked, name: str, content: bytes) -> Grade:
    """The grade of a trace by its bytes.

    >>> from rtdvs.model import Point, Task
    >>> asked = Asked(TaskSet((Task("t", 2, 4),)), Machine((Point(2, 1000),)))
    >>> grade(asked, "a", b"trace 1\\r\\nplan edf none 1\\r\\n").mended
    ('CRLF',)
    """
    lines, said = mended(content)
    head = asked.head_of(lines)
    demands = asked.demands or (said_demands(asked.tasks, asked.machine, head.ticks, lines) if head else None)
    line, reason = _first_fault(asked, demands, lines)
    wanted = _right_lines(asked, demands, head)
    kept = common(wanted, lines)
    counts = (len(kept), len(wanted), _decisions(kept), _decisions(wanted))
    return Grade(name, *counts, line, reason, said)


def _decisions(lines: Sequence[str]) -> int:
    return sum(line.startswith("speed ") for line in lines)


def _first_fault(asked: Asked, demands: Demands | None, lines: Sequence[str]) -> tuple[int | None, str]:
    """The first wrong line and its reason, with the form if it is misspelled."""
    wanted = asked.plan and f"plan {asked.plan.scheduler} {asked.plan.governor} {asked.plan.ticks}"
    try:
        Reader(lines)
        if wanted and lines[1] != f"{wanted}\n":
            return 2, f"wanted {wanted}"
        check(asked.tasks, asked.machine, lines, demands)
    except TraceFault as fault:
        form = expected(fault.line, lines[fault.line - 1]) if fault.line <= len(lines) else ""
        return fault.line, f"{fault.reason}: {form}" if form else fault.reason
    except RtdvsError as refused:
        return 2, str(refused)
    return None, ""


def _right_lines(asked: Asked, demands: Demands | None, head: Head | None) -> list[str]:
    """The lines of the right trace, in the version of the head; none if there is no such run."""
    if head is None:
        return []
    try:
        Plan(asked.tasks, asked.machine, head.scheduler).admit()
        trace = simulate(asked.tasks, asked.machine, head.scheduler, head.ticks, head.governor, demands)
    except RtdvsError:
        return []
    return (trace if head.version == 2 else trace.first_version()).lines()


def common(wanted: Sequence[str], lines: Sequence[str]) -> list[str]:
    """The most lines that both have in the same order. The lines that are wanted differ from each other.

    >>> common("abcde", "bxacedd")
    ['a', 'c', 'd']
    """
    places = {line: place for place, line in enumerate(wanted)}
    ends: list[int] = []      # the least end of a chain of each length
    found: list[tuple[int, int]] = []  # each place with the length of the longest chain up to it
    for place in (places[line] for line in lines if line in places):
        length = bisect_left(ends, place)
        ends[length:length + 1] = [place]
        found.append((place, length))
    chain: list[int] = []
    for place, length in reversed(found):
        if length == len(ends) - 1 - len(chain) and (not chain or place < chain[-1]):
            chain.append(place)
    return [wanted[place] for place in reversed(chain)]


def handed_in(folder: Path) -> tuple[list[Path], list[Path]]:
    """The traces of a folder and of those in it, in order, and the other files; raises BadValue without a trace.

    >>> handed_in(Path("/absent"))
    Traceback (most recent call last):
    rtdvs.errors.BadValue: /absent: no such folder
    """
    if not folder.is_dir():
        raise BadValue(f"{folder}: no such folder")
    files = sorted(path for path in folder.rglob("*") if path.is_file() and not path.name.startswith("."))
    traces = [path for path in files if path.suffix.lower() == ENDING]
    if not traces:
        raise BadValue(f"{folder}: no file there has a name that ends with {ENDING}")
    return traces, [path for path in files if path not in traces]


def grades(asked: Asked, folder: Path) -> Grades:
    """The grades of all traces of a folder; raises BadValue if it has none, and OSError.

    >>> from rtdvs.model import Point, Task
    >>> grades(Asked(TaskSet((Task("t", 2, 4),)), Machine((Point(2, 1000),))), Path("/absent"))
    Traceback (most recent call last):
    rtdvs.errors.BadValue: /absent: no such folder
    """
    traces, _ = handed_in(folder)
    return Grades(grade(asked, str(path.relative_to(folder)), path.read_bytes()) for path in traces)
