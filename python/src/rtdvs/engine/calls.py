"""Calls of the program as values: what a call asks for, and what it left. Both can be pickled."""

from collections.abc import Callable, Mapping
from dataclasses import dataclass, field
from itertools import chain
from pathlib import Path
from typing import Any, Generic, TypeVar

from rtdvs.engine import answers
from rtdvs.errors import BadValue, Crashed, error_of
from rtdvs.model import LONGEST_LINE, Deadlines, Demands, Machine, Requests, TaskSet
from rtdvs.trace import Trace

T = TypeVar("T", covariant=True)
TaskSource = TaskSet | Path | bytes
MachineSource = Machine | Path | bytes
DemandSource = Demands | Path | bytes
DeadlineSource = Deadlines | Path | bytes
RequestSource = Requests | Path | bytes
TraceSource = Trace | Path | bytes
"""What a call takes for each kind of file: a value, the path of a file, or a file's bytes."""

LAST_BYTES = 4 * (LONGEST_LINE + 1)
"""The bytes that are kept of a trace for its last line: some lines more, since a library cuts less often then."""

Source = TaskSource | MachineSource | DemandSource | DeadlineSource | RequestSource | TraceSource
Word = str | bytes | Path
"""An argument of the program; in place of a file's name its content, or its path."""


def _as_it_is(text: str) -> Any:
    return text


@dataclass(frozen=True)
class Call(Generic[T]):
    """A call of the program: options with values, and with files (a text or a path).

    `parse` makes the typed answer of an answer's text. A call made by hand is a Call[str], whose answer is the text.
    With `last_bytes` only so many bytes are kept, the end of standard output, however long that is.

    >>> Call("workload", (("--seed", "1"),)).files
    ()
    """

    command: str
    options: tuple[tuple[str, str], ...] = ()
    files: tuple[tuple[str, str | bytes | Path], ...] = ()
    parse: Callable[[str], T] = field(default=_as_it_is, repr=False)
    last_bytes: int | None = field(default=None, repr=False)

    def words(self) -> list[Word]:
        """The arguments, in which a text is bytes; raises UnicodeEncodeError for a text that isn't Unicode.

        >>> Call("least", (("--units", "3"),), (("--machine", "idle = 1"),)).words()
        ['least', '--units', '3', '--machine', b'idle = 1']
        """
        files = ((name, file.encode() if isinstance(file, str) else file) for name, file in self.files)
        return [self.command, *chain.from_iterable(self.options), *chain.from_iterable(files)]


@dataclass(frozen=True, slots=True)
class Answer:
    """What a call left: its exit status (below 0: a signal), standard output or its end, and standard error.

    >>> Answer(1, b"", b"denied edf 248 240\\n").text()
    Traceback (most recent call last):
    rtdvs.errors.Denied: denied edf 248 240
    """

    status: int
    out: bytes
    notes: bytes

    def text(self) -> str:
        """Standard output of a call that ended with 0; raises the RtdvsError of any other status.

        >>> Answer(0, b"response t1 3\\n", b"").text()
        'response t1 3\\n'
        """
        if self.status != 0:
            raise error_of(self.status, self.notes)
        try:
            return self.out.decode()
        except UnicodeDecodeError:
            raise Crashed("an answer that is not UTF-8") from None


def _content(source: Source) -> str | bytes | Path:
    """What a call has of a source. A path is made absolute, so that it is the same file for each worker."""
    if isinstance(source, str):
        raise BadValue(f"a path is a Path and a content bytes, not the text {source[:32]!r}")
    if isinstance(source, Path):
        return source.absolute()
    return source if isinstance(source, bytes) else source.text()


def _call(command: str, parse: Callable[[str], T], options: Mapping[str, object], **files: Source | None) -> Call[T]:
    pairs = tuple((f"--{name}", str(value)) for name, value in options.items())
    return Call(command, pairs, tuple((f"--{name}", _content(source))
                                      for name, source in files.items() if source is not None), parse)


def run_call(tasks: TaskSource, machine: MachineSource, scheduler: str, governor: str, ticks: int,
             demands: DemandSource | None = None, version: int = 2) -> Call[Trace]:
    """The call of `run` for that many ticks.

    >>> run_call(Path("/t.toml"), Path("/m.toml"), "edf", "cc", ticks=16).options[2]
    ('--ticks', '16')
    """
    options = {"scheduler": scheduler, "governor": governor, "ticks": ticks, "format": version}
    return _call("run", answers.parse_trace, options, tasks=tasks, machine=machine, demands=demands)


def totals_call(tasks: TaskSource, machine: MachineSource, scheduler: str, governor: str, ticks: int,
                demands: DemandSource | None = None) -> Call[answers.RunTotals]:
    """The call of `run` for that many ticks, of whose trace only some last lines are kept.

    >>> totals_call(Path("/t.toml"), Path("/m.toml"), "edf", "cc", ticks=16).last_bytes
    1024
    """
    run = run_call(tasks, machine, scheduler, governor, ticks, demands)
    return Call(run.command, run.options, run.files, answers.parse_totals, LAST_BYTES)


def admit_call(tasks: TaskSource, machine: MachineSource, scheduler: str) -> Call[answers.Admitted]:
    """The call of `admit`.

    >>> admit_call(Path("/t.toml"), Path("/m.toml"), "edf").options
    (('--scheduler', 'edf'),)
    """
    return _call("admit", answers.parse_admitted, {"scheduler": scheduler}, tasks=tasks, machine=machine)


def response_call(tasks: TaskSource, machine: MachineSource) -> Call[dict[str, int]]:
    """The call of `response`.

    >>> response_call(Path("/t.toml"), Path("/m.toml")).files
    (('--tasks', PosixPath('/t.toml')), ('--machine', PosixPath('/m.toml')))
    """
    return _call("response", answers.parse_responses, {}, tasks=tasks, machine=machine)


def constrain_call(tasks: TaskSource, machine: MachineSource, deadlines: DeadlineSource) -> Call[answers.Constrained]:
    """The call of `constrain`.

    >>> constrain_call(Path("/t.toml"), Path("/m.toml"), Deadlines({"a": 3})).files[2]
    ('--deadlines', 'task,deadline\\na,3\\n')
    """
    return _call("constrain", answers.parse_constrained, {}, tasks=tasks, machine=machine, deadlines=deadlines)


def poll_call(tasks: TaskSource, machine: MachineSource, requests: RequestSource, server: str, scheduler: str,
              governor: str, ticks: int) -> Call[answers.Polled]:
    """The call of `poll` for that many ticks.

    >>> poll_call(Path("/t"), Path("/m"), Path("/r"), "s", "edf", "none", ticks=15).options[0]
    ('--server', 's')
    """
    options = {"server": server, "scheduler": scheduler, "governor": governor, "ticks": ticks}
    return _call("poll", answers.parse_polled, options, tasks=tasks, machine=machine, requests=requests)


def replay_call(tasks: TaskSource, machine: MachineSource, trace: TraceSource) -> Call[answers.Replayed]:
    """The call of `replay`.

    >>> replay_call(Path("/t.toml"), Path("/m.toml"), b"trace 2\\n").files[2]
    ('--trace', b'trace 2\\n')
    """
    return _call("replay", answers.parse_replayed, {}, tasks=tasks, machine=machine, trace=trace)


def migrate_call(tasks: TaskSource, machine: MachineSource, trace: TraceSource) -> Call[Trace]:
    """The call of `migrate`; its answer is the trace in version 2.

    >>> migrate_call(Path("/t.toml"), Path("/m.toml"), b"trace 1\\n").command
    'migrate'
    """
    return _call("migrate", answers.parse_trace, {}, tasks=tasks, machine=machine, trace=trace)


def least_call(machine: MachineSource, units: int, ticks: int) -> Call[answers.Least]:
    """The call of `least` for work units in ticks.

    >>> least_call(Path("/m.toml"), units=28, ticks=16).options
    (('--units', '28'), ('--ticks', '16'))
    """
    return _call("least", answers.parse_least, {"units": units, "ticks": ticks}, machine=machine)


def workload_call(seed: int) -> Call[tuple[answers.GovernorTotals, ...]]:
    """The call of `workload`.

    >>> workload_call(1)
    Call(command='workload', options=(('--seed', '1'),), files=())
    """
    return _call("workload", answers.parse_workload, {"seed": seed})
