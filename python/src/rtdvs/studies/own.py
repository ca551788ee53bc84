"""What a user brings to the evaluation: machines, numbers of tasks, governors in files of Python, and traces."""

import re
from collections.abc import Iterator, Mapping
from dataclasses import dataclass, field
from fractions import Fraction
from functools import lru_cache
from pathlib import Path
from typing import Any
from zlib import crc32

from rtdvs.errors import NAME, BadValue, DeadlineMissed, TraceFault
from rtdvs.model import Governor, Machine, TaskSet
from rtdvs.rules import Chooser, View, check, simulate
from rtdvs.studies.comparison import Case
from rtdvs.trace import Trace


@dataclass(frozen=True, slots=True)
class OwnGovernor:
    """A governor that is a function in a file of Python; it can be pickled, and is loaded where it is called.

    >>> OwnGovernor.parse("mine.py:careful")
    OwnGovernor(path=PosixPath('mine.py'), name='careful')
    """

    path: Path
    name: str

    @classmethod
    def parse(cls, word: str) -> "OwnGovernor":
        """The governor of a word FILE.py:NAME; raises BadValue."""
        path, colon, name = word.rpartition(":")
        if not colon or not path.endswith(".py") or not re.fullmatch(NAME, name) or not name.isidentifier():
            raise BadValue(f"a governor is FILE.py:NAME, not {word}")
        return cls(Path(path), name)

    def chooser(self) -> Chooser:
        """The function; raises BadValue for a file that has none of that name or can't be run, and OSError.

        What the function raises is a BadValue with its name and the tick.
        """
        return _loaded(self, self.path.read_bytes())

    def mark(self) -> str:
        """The name and the sum of the file, by which a change is seen; raises OSError."""
        return f"{self.name} {crc32(self.path.read_bytes()):08x}"

    def energy(self, case: Case, scheduler: str) -> Fraction:
        """The energy of a run; raises BadValue if a job is late or the function raises, and OSError."""
        try:
            trace = simulate(case.tasks, case.machine, scheduler, case.ticks, self.chooser(), case.demands, self.name)
        except DeadlineMissed as missed:
            raise BadValue(f"governor {self.name}: {missed}") from None
        return Fraction(trace.energy)


@lru_cache(maxsize=16)
def _loaded(governor: OwnGovernor, content: bytes) -> Chooser:
    names: dict[str, Any] = {"__name__": governor.path.stem, "__file__": str(governor.path)}
    try:
        exec(compile(content, governor.path, "exec"), names)
    except Exception as fault:
        raise BadValue(f"{governor.path}: {type(fault).__name__}: {fault}") from fault
    function: Any = names.get(governor.name)
    if not callable(function):
        raise BadValue(f"{governor.path}: it has no function {governor.name}")

    def asked(view: View) -> Any:
        try:
            return function(view)
        except Exception as fault:
            line = f"governor {governor.name} at tick {view.now}: {type(fault).__name__}: {fault}"
            raise BadValue(line) from fault

    return asked


@dataclass(frozen=True, slots=True)
class OwnTraces:
    """The traces of another simulator: in a folder, which gives the name, a folder for each machine.

    There is a trace for each set, COUNT_TENTHS_NUMBER.trace.

    >>> OwnTraces(Path("other")).file("board", "8_7_1")
    PosixPath('other/board/8_7_1.trace')
    """

    folder: Path

    @property
    def name(self) -> str:
        """The name of its curve.

        >>> OwnTraces(Path("there/other")).name
        'other'
        """
        return self.folder.resolve().name

    def file(self, machine: str, name: object) -> Path:
        """The file of a set's trace on a machine."""
        return self.folder / machine / f"{name}.trace"

    def energy(self, case: Case, scheduler: str, machine: str, name: object) -> Fraction:
        """The energy of the trace of a set, which is checked; raises BadValue with the file, and OSError."""
        file = self.file(machine, name)
        try:
            trace = Trace.read(file)
            if (trace.scheduler, trace.ticks) != (scheduler, case.ticks):
                raise TraceFault(2, f"it is no run of {case.ticks} ticks under {scheduler}")
            check(case.tasks, case.machine, trace.lines(), case.demands, any_governor=True)
        except TraceFault as fault:
            raise BadValue(f"{file}: {fault}") from None
        return Fraction(trace.energy)

    def missing(self, machine: str, sets: Mapping[object, TaskSet]) -> Iterator[Path]:
        """The traces that aren't there; the task file of each is written beside it; raises OSError."""
        for name, tasks in sets.items():
            file = self.file(machine, name)
            if not file.exists():
                file.parent.mkdir(parents=True, exist_ok=True)
                tasks.write(file.with_suffix(".toml"))
                yield file


@dataclass(frozen=True, slots=True)
class Own:
    """What a sweep has of a user's: machines by name, and curves of governors and of traces under a scheduler.

    >>> Own(governors=(OwnGovernor(Path("mine.py"), "careful"),)).curves()
    ('edf careful',)
    """

    machines: Mapping[str, Machine] = field(default_factory=dict)
    scheduler: str = "edf"
    governors: tuple[OwnGovernor, ...] = ()
    traces: tuple[OwnTraces, ...] = ()

    def __post_init__(self) -> None:
        names = self._names()
        if twice := {name for name in names if names.count(name) > 1 or name in [*Governor]}:
            raise BadValue(f"two curves of one name: {min(twice)}")

    def curves(self) -> tuple[str, ...]:
        """The names of the curves, beside those of the pairs."""
        return tuple(f"{self.scheduler} {name}" for name in self._names())

    def _names(self) -> list[str]:
        return [*(governor.name for governor in self.governors), *(traces.name for traces in self.traces)]

    def energies(self, case: Case, machine: str, name: object) -> Iterator[tuple[str, Fraction]]:
        """The energy of each curve for a set on a machine; raises BadValue and OSError."""
        for governor in self.governors:
            yield f"{self.scheduler} {governor.name}", governor.energy(case, self.scheduler)
        for traces in self.traces:
            yield f"{self.scheduler} {traces.name}", traces.energy(case, self.scheduler, machine, name)

    def mark(self) -> str:
        """What calls for one folder have in common; raises OSError."""
        parts = [f"machine {name} {crc32(machine.text().encode()):08x}" for name, machine in self.machines.items()]
        parts += [f"governor {self.scheduler} {governor.mark()}" for governor in self.governors]
        parts += [f"traces {self.scheduler} {traces.name}" for traces in self.traces]
        return "".join(f"{part}\n" for part in parts)


def scaled_to(tasks: TaskSet, top: int, of: int) -> TaskSet:
    """A set for another highest speed: worst cases in proportion, rounded down to whole units but not to 0.

    >>> from rtdvs.model import Task
    >>> scaled_to(TaskSet((Task("a", 400, 70_001),)), 10, 100_000)[0].worst
    7
    """
    return TaskSet.of((task.name, task.period, max(1, task.worst * top // of), task.offset) for task in tasks)
