"""All exceptions of the package, each made of its data, and the lines of the program read into them.

    RtdvsError
        Refused         what was given is refused, by the program or by this package; also a ValueError
            BadValue        an argument of a function: WordFault, DrawFault, BadRequest
            Denied, WordsRefused, LoadFailed, FileRefused, TooManyJobs, OverWorst, Differs
        EngineError     the program has no answer
            WriteFailed, OutOfMemory, NoText, NoEngine, SystemFault, Crashed, TimedOut
        TraceFault      a line of a trace: WrongTrace; also a ValueError
        Wrong           a note of a trace
        DeadlineMissed  a job of a simulation; also a ValueError

Each can be pickled and copied, and equals another one of its class with the same data.
"""

import re
from dataclasses import dataclass, fields
from typing import ClassVar

NUMBER, NAME = r"(0|[1-9][0-9]*)", r"([A-Za-z0-9_-]{1,32})"
ENTRIES = {"tasks": "task", "machine": "point", "demands": "row", "deadlines": "row", "requests": "row",
           "trace": "line", "lesson": "example"}
"""The kinds of files, each with the word for one of its parts."""


@dataclass(eq=False)
class RtdvsError(Exception):
    """The root of all exceptions of this package; `args` are the data, and `form` makes the text of them.

    `status` is the program's exit status, if it has one for this.

    >>> Denied("edf", 248, 240) == Denied("edf", asked=248, capacity=240)
    True
    """

    status: ClassVar[int | None] = None
    form: ClassVar[str] = ""

    def __post_init__(self) -> None:
        super().__init__(*(getattr(self, field.name) for field in fields(self)))

    def __str__(self) -> str:
        return self.form.format(self)

    def __eq__(self, other: object) -> bool:
        return isinstance(other, RtdvsError) and (type(self), self.args) == (type(other), other.args)

    def __hash__(self) -> int:
        return hash((type(self), self.args))


@dataclass(eq=False)
class Reasoned(RtdvsError):
    """An exception whose only value is its text.

    >>> str(Reasoned("the trace is at 0:0"))
    'the trace is at 0:0'
    """

    form = "{0.reason}"
    reason: str


class Refused(RtdvsError, ValueError):
    """What was given is refused, by the program or by this package; the text is the line that the program prints.

    >>> isinstance(Denied("edf", 248, 240), Refused), Denied.status, BadValue.status
    (True, 1, None)
    """


class BadValue(Reasoned, Refused):
    """An argument of a function isn't one that it takes; the text says why.

    >>> raise BadValue("ticks out of range")
    Traceback (most recent call last):
    rtdvs.errors.BadValue: ticks out of range
    """


class WordFault(BadValue):
    """A word isn't what was asked for; the text says what that is.

    >>> raise WordFault("a whole number from 1 on, not 016")
    Traceback (most recent call last):
    rtdvs.errors.WordFault: a whole number from 1 on, not 016
    """


class DrawFault(BadValue):
    """What is asked for can't be drawn; the text says why.

    >>> DrawFault("count is 1 to 64").reason
    'count is 1 to 64'
    """


class BadRequest(BadValue):
    """What is sent to the page's server isn't an example.

    >>> str(BadRequest("not an example"))
    'not an example'
    """


@dataclass(eq=False)
class Denied(Refused):
    """Status 1: an admission test fails: `test` is edf, rm, offset, misses, demand or units.

    `asked` work units are more than the `capacity`. Only rm, offset and misses name a task; demand has ticks.

    >>> error = Denied("rm", asked=42, capacity=40, task="c")
    >>> str(error), error.ticks
    ('denied rm c 42 40', None)
    """

    status = 1
    test: str
    asked: int | None = None
    capacity: int | None = None
    task: str | None = None
    ticks: int | None = None

    def __str__(self) -> str:
        test = self.test if self.test == "misses" else f"denied {self.test}"
        values = (self.task, self.ticks, self.asked, self.capacity)
        return " ".join([test, *(str(value) for value in values if value is not None)])


@dataclass(eq=False)
class WordsRefused(Refused):
    """Status 2: an argument is refused; `place` is that of the word, if there is one.

    >>> str(WordsRefused("bad value 016", place=3))
    'words: 3: bad value 016'
    """

    status = 2
    reason: str
    place: int | None = None

    def __str__(self) -> str:
        return f"words: {self.reason}" if self.place is None else f"words: {self.place}: {self.reason}"


@dataclass(eq=False)
class LoadFailed(Refused):
    """Status 3: a file can't be loaded; `kind` is tasks, machine, demands, deadlines, requests or trace.

    >>> str(LoadFailed("demands"))
    'load: demands'
    """

    status, form = 3, "load: {0.kind}"
    kind: str


@dataclass(eq=False)
class FileRefused(Refused):
    """Status 4: a file, or a value that would be its content, is refused; `kind` as in LoadFailed.

    `place` counts tasks, points, rows or lines from 1, and is None for the whole. A task, a point or a request
    that is in no set has the kind task, point or request.

    >>> str(FileRefused("tasks", "missing worst", place=2)), str(FileRefused("machine", "no points"))
    ('tasks: task 2: missing worst', 'machine: no points')
    """

    status = 4
    kind: str
    reason: str
    place: int | None = None

    def __str__(self) -> str:
        place = "" if self.place is None else f"{ENTRIES[self.kind]} {self.place}: "
        return f"{self.kind}: {place}{self.reason}"


@dataclass(eq=False)
class TooManyJobs(Refused):
    """Status 5: a run would have more jobs than the most that is taken.

    >>> str(TooManyJobs(100001, most=100000))
    'limit: 100001 jobs, at most 100000'
    """

    status, form = 5, "limit: {0.jobs} jobs, at most {0.most}"
    jobs: int
    most: int


@dataclass(eq=False)
class OverWorst(Refused):
    """Status 6: a job has more work units than its task's worst case.

    >>> str(OverWorst("a", 1, units=3, worst=2))
    'over worst: a 1 3 2'
    """

    status, form = 6, "over worst: {0.task} {0.job} {0.units} {0.worst}"
    task: str
    job: int
    units: int
    worst: int


@dataclass(eq=False)
class Differs(Refused):
    """Status 7: a trace isn't that of its run: the line that differs, as the run and as the trace have it.

    >>> print(Differs(10, "speed 3 2 8/5", "speed 3 3 8/5"))
    differs: line 10
    wanted: speed 3 2 8/5
    found: speed 3 3 8/5
    """

    status, form = 7, "differs: line {0.line_number}\nwanted: {0.wanted}\nfound: {0.found}"
    line_number: int
    wanted: str
    found: str


class EngineError(RtdvsError):
    """The program has no answer.

    >>> error_of(9, b"")
    OutOfMemory()
    """


class WriteFailed(EngineError):
    """Status 8: a write to standard output failed.

    >>> print(error_of(8, b"write: out failed\\n"))
    write: out failed
    """

    status, form = 8, "write: out failed"


class OutOfMemory(EngineError):
    """Status 9: memory ran out.

    >>> print(error_of(9, b"no memory\\n"))
    no memory
    """

    status, form = 9, "no memory"


class NoText(EngineError):
    """Status 10: the system doesn't give the arguments as text.

    >>> print(error_of(10, b""))
    the arguments are not text for the system
    """

    status, form = 10, "the arguments are not text for the system"


class NoEngine(Reasoned, EngineError):
    """No program or library is found, or it can't be started; the text says what to build or install.

    >>> str(NoEngine("/absent/rtdvs: no such program"))
    '/absent/rtdvs: no such program'
    """


@dataclass(eq=False)
class SystemFault(EngineError):
    """The system refused what a call needs: a folder, a file, a descriptor or a process.

    >>> str(SystemFault("/tmp/rtdvs-1", "No space left on device"))
    '/tmp/rtdvs-1: No space left on device'
    """

    form = "{0.what}: {0.reason}"
    what: str
    reason: str


class Crashed(Reasoned, EngineError):
    """The program ended by a signal or with another status, or printed what it never prints.

    >>> error_of(42, b"")
    Crashed(reason='the program ended with status 42')
    """


@dataclass(eq=False)
class TimedOut(EngineError):
    """The program didn't end within the time limit, in seconds.

    >>> str(TimedOut(0.5))
    'no answer within 0.5 seconds'
    """

    form = "no answer within {0.seconds} seconds"
    seconds: float


@dataclass(eq=False)
class TraceFault(RtdvsError, ValueError):
    """A line of a trace is refused: its number, from 1, and the reason.

    >>> str(TraceFault(3, "a line after the end line"))
    'line 3: a line after the end line'
    """

    form = "line {0.line}: {0.reason}"
    line: int
    reason: str


class WrongTrace(TraceFault):
    """The first line of a trace that breaks the rules, and why.

    >>> WrongTrace(3, "wanted job 1").reason
    'wanted job 1'
    """


class Wrong(Reasoned):
    """The note that is read is wrong; the text is why.

    >>> str(Wrong("the trace is at 0:0"))
    'the trace is at 0:0'
    """


@dataclass(eq=False)
class DeadlineMissed(RtdvsError, ValueError):
    """A job isn't complete at its deadline, a tick; `used` are the work units that it has had.

    >>> str(DeadlineMissed("b", 1, due=6, used=8))
    'b job 1 was due at 6 and is not complete: it has had 8 units'
    """

    form = "{0.task} job {0.job} was due at {0.due} and is not complete: it has had {0.used} units"
    task: str
    job: int
    due: int
    used: int


# The program's lines

_TASK, _KIND = f"(?P<task>{NAME})", f"(?P<kind>{'|'.join(ENTRIES)})"
_PLACE = f"(?P<place>{NUMBER})"
_ASKED = f"(?P<asked>{NUMBER}) (?P<capacity>{NUMBER})"
_LINES: tuple[tuple[type[RtdvsError], str], ...] = (
    (Denied, f"denied (?P<test>edf|units) {_ASKED}"),
    (Denied, f"denied (?P<test>rm) {_TASK} {_ASKED}"),
    (Denied, f"denied (?P<test>offset) {_TASK}"),
    (Denied, f"(?P<test>misses) {_TASK} {_ASKED}"),
    (Denied, f"denied (?P<test>demand) (?P<ticks>{NUMBER}) {_ASKED}"),
    (WordsRefused, f"words: ({_PLACE}: )?(?P<reason>.+)"),
    (LoadFailed, f"load: {_KIND}"),
    (FileRefused, f"{_KIND}: (({'|'.join(dict.fromkeys(ENTRIES.values()))}) {_PLACE}: )?(?P<reason>.+)"),
    (TooManyJobs, f"limit: (?P<jobs>{NUMBER}) jobs, at most (?P<most>{NUMBER})"),
    (OverWorst, f"over worst: {_TASK} (?P<job>{NUMBER}) (?P<units>{NUMBER}) (?P<worst>{NUMBER})"),
    (Differs, f"differs: line (?P<line_number>{NUMBER})\nwanted: (?P<wanted>.*)\nfound: (?P<found>.*)"),
    (WriteFailed, "(write: out failed)?"),
    (OutOfMemory, "(no memory)?"),
    (NoText, ""),
)
_TEXTS = {"test", "task", "kind", "reason", "wanted", "found"}


def groups(pattern: str, text: str) -> tuple[str, ...]:
    """The groups of a pattern that fits all of the text; ValueError if it doesn't.

    >>> groups(f"load: {NAME}", "load: tasks")
    ('tasks',)
    """
    match = re.fullmatch(pattern, text)
    if not match:
        raise ValueError(text)
    return match.groups()


def error_of(status: int, notes: bytes) -> RtdvsError:
    """The exception of a status other than 0 (below 0: a signal) and of what is on standard error.

    >>> error_of(3, b"load: tasks\\n")
    LoadFailed(kind='tasks')
    >>> error_of(-9, b"")
    Crashed(reason='the program was ended by signal 9')
    """
    line = notes.decode(errors="replace").removesuffix("\n")
    if status < 0:
        return Crashed(f"the program was ended by signal {-status}")
    for kind, pattern in _LINES:
        if kind.status == status and (match := re.fullmatch(pattern, line)):
            found = {name: text for name, text in match.groupdict().items() if text is not None}
            return kind(**{name: text if name in _TEXTS else int(text) for name, text in found.items()})
    if any(kind.status == status for kind, _ in _LINES):
        return Crashed(f"the program ended with status {status} and an unknown line: {line}")
    return Crashed(f"the program ended with status {status}: {line}".removesuffix(": "))
