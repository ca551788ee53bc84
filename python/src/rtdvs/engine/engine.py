"""Engines: each makes calls, with a typed answer for each command and one exception for each exit status."""

import os
import re
import shutil
import sys
from collections.abc import Callable, Iterable, Iterator, Sequence
from concurrent.futures import Executor
from dataclasses import dataclass, replace
from itertools import chain, tee
from math import ceil
from pathlib import Path
from typing import TypeVar

from rtdvs.engine import by_numbers, library
from rtdvs.engine.answers import Admitted, Constrained, GovernorTotals, Least, Polled, Replayed
from rtdvs.engine.calls import (
    Answer, Call, DeadlineSource, DemandSource, MachineSource, RequestSource, TaskSource, TraceSource, Word, admit_call,
    constrain_call, least_call, migrate_call, poll_call, replay_call, response_call, run_call, workload_call,
)
from rtdvs.engine.process import guarded, program_answer
from rtdvs.errors import Crashed, NoEngine, Refused
from rtdvs.model import Deadlines, Machine, TaskSet
from rtdvs.trace import Trace

T = TypeVar("T")

HERE = Path(__file__).resolve().parents[1]
CRATES = HERE.parents[2] / "crates"
CRATE = CRATES / "rtdvs"
LIBRARIES = (HERE / "librtdvs.so", HERE.parents[2] / "librtdvs.so", CRATES / "rtdvs_c" / "out" / "lib" / "librtdvs.so")
"""The library that a wheel carries, that of lib beside lib/python3/dist-packages, and the repository's."""

HOW_TO_GET_ONE = (
    "no program: build it with `rt run -- workload --seed 1` in crates/rtdvs, install the Debian package, "
    "or name it by --program or by the variable RTDVS"
)
BY_LIBRARY = (sys.executable, "-P", "-c", "import sys; sys.path.insert(0, sys.argv[1]); "
              "from rtdvs.engine.library import main; sys.exit(main(sys.argv[2:]))", str(HERE.parent))
"""A command in place of the program; the library's path comes before the program's words."""


# Engines

@dataclass(frozen=True)
class Engine:
    """The program, and the seconds that a call may take (None: any). It can be pickled.

    >>> Engine(Path("/absent/rtdvs")).workload(1)
    Traceback (most recent call last):
    rtdvs.errors.NoEngine: /absent/rtdvs: No such file or directory
    """

    program: Path
    timeout: float | None = None

    def answer(self, call: Call[object]) -> Answer:
        """Makes the call. Any exit status is an answer; raises NoEngine, SystemFault and TimedOut.

        >>> find_engine().answer(Call("least"))
        Answer(status=2, out=b'', notes=b'words: missing --machine\\n')
        """
        return _process_answer([str(self.program)], call, self.timeout)

    def answers(self, calls: Iterable[Call[object]], executor: Executor | None = None) -> Iterator[Answer]:
        """Makes the calls on the executor, or one after the other; answers come in the order of the calls.

        >>> [answer.status for answer in find_engine().answers([Call("least"), workload_call(1)])]
        [2, 0]
        """
        return map(self.answer, calls) if executor is None else executor.map(self.answer, calls)

    def map(self, calls: Iterable[Call[T]], executor: Executor | None = None) -> Iterator[T | Refused]:
        """The typed answers of calls, in their order; what is refused is a value, and an EngineError is raised.

        >>> from rtdvs import Machine, Point, Task, TaskSet
        >>> machine = Machine((Point(1, 1000),))
        >>> calls = [admit_call(TaskSet((Task("a", 4, worst),)), machine, "edf") for worst in (2, 5)]
        >>> [*find_engine().map(calls)]
        [Admitted(scheduler='edf', num=2, den=4, speed=1), Denied(test='edf', asked=5, capacity=4, task=None, ticks=None)]
        """
        asked, made = tee(calls)
        return map(_value_or_refusal, made, self.answers(asked, executor))

    def value(self, call: Call[T]) -> T:
        """The typed answer of a call; raises what is refused, and EngineError.

        >>> find_engine().value(workload_call(1))[0].governor
        'none'
        """
        return call.parse(self.answer(call).text())

    def run(self, tasks: TaskSource, machine: MachineSource, scheduler: str, governor: str, ticks: int,
            demands: DemandSource | None = None, version: int = 2) -> Trace:
        """The trace of a run of that many ticks; raises Denied, TooManyJobs, OverWorst and others.

        >>> from rtdvs import Machine, Point, Task, TaskSet
        >>> tasks, machine = TaskSet((Task("a", 4, 2),)), Machine((Point(1, 1000),))
        >>> find_engine().run(tasks, machine, "edf", "none", ticks=4)
        <Trace: edf none, 4 ticks, 1 job, energy 2000000000>
        """
        return self.value(run_call(tasks, machine, scheduler, governor, ticks, demands, version))

    def admit(self, tasks: TaskSource, machine: MachineSource, scheduler: str) -> Admitted:
        """Whether the scheduler admits the set: the static demand in units per tick; raises Denied and others.

        >>> from rtdvs import Machine, Point, Task, TaskSet
        >>> find_engine().admit(TaskSet((Task("a", 4, 2),)), Machine((Point(1, 1000),)), "edf")
        Admitted(scheduler='edf', num=2, den=4, speed=1)
        """
        return self.value(admit_call(tasks, machine, scheduler))

    def respond(self, tasks: TaskSource, machine: MachineSource) -> dict[str, int]:
        """Each task's response in ticks under RM at the highest speed; raises Denied and others.

        >>> from rtdvs import Machine, Point, Task, TaskSet
        >>> find_engine().respond(TaskSet((Task("a", 4, 2), Task("b", 8, 3))), Machine((Point(1, 1000),)))
        {'a': 2, 'b': 7}
        """
        return self.value(response_call(tasks, machine))

    def constrain(self, tasks: TaskSource, machine: MachineSource, deadlines: DeadlineSource) -> Constrained:
        """The lowest speed for deadlines below the periods, under EDF; raises Denied and others.

        >>> from rtdvs import Deadlines, Machine, Point, Task, TaskSet
        >>> machine = Machine((Point(1, 1000), Point(2, 2000)))
        >>> find_engine().constrain(TaskSet((Task("a", 4, 2),)), machine, Deadlines({"a": 1}))
        Constrained(num=2, den=1, speed=2)
        """
        return self.value(constrain_call(tasks, machine, deadlines))

    def poll(self, tasks: TaskSource, machine: MachineSource, requests: RequestSource, server: str, scheduler: str,
             governor: str, ticks: int) -> Polled:
        """When a polling server serves each request, in a run of that many ticks; raises RtdvsError.

        >>> from rtdvs import Machine, Point, Request, Requests, Task, TaskSet
        >>> tasks, machine = TaskSet((Task("s", 4, 2),)), Machine((Point(1, 1000),))
        >>> requests = Requests((Request(arrival=1, units=2),))
        >>> find_engine().poll(tasks, machine, requests, "s", "edf", "none", ticks=8).services
        (Service(request=1, arrival=1, units=2, job=2, position='6:0'),)
        """
        return self.value(poll_call(tasks, machine, requests, server, scheduler, governor, ticks))

    def replay(self, tasks: TaskSource, machine: MachineSource, trace: TraceSource) -> Replayed:
        """The totals of a trace that is that of its run; raises Differs and others.

        >>> from rtdvs import Machine, Point, Task, TaskSet
        >>> tasks, machine = TaskSet((Task("a", 4, 2),)), Machine((Point(1, 1000),))
        >>> find_engine().replay(tasks, machine, find_engine().run(tasks, machine, "edf", "none", ticks=4))
        Replayed(released=1, finished=1, run_energy=2000000000, idle_energy=0)
        """
        return self.value(replay_call(tasks, machine, trace))

    def migrate(self, tasks: TaskSource, machine: MachineSource, trace: TraceSource) -> Trace:
        """Such a trace in version 2; raises Differs and others.

        >>> from rtdvs import Machine, Point, Task, TaskSet
        >>> tasks, machine = TaskSet((Task("a", 4, 2),)), Machine((Point(1, 1000),))
        >>> first = find_engine().run(tasks, machine, "edf", "none", ticks=4, version=1)
        >>> find_engine().migrate(tasks, machine, first).tasks
        (Task(name='a', period=4, worst=2, offset=0),)
        """
        return self.value(migrate_call(tasks, machine, trace))

    def least(self, machine: MachineSource, units: int, ticks: int) -> Least:
        """The minimum energy for that many work units in those ticks; raises Denied and others.

        >>> from rtdvs import Machine, Point
        >>> find_engine().least(Machine((Point(1, 1000),)), units=2, ticks=4).energy
        2000000000
        """
        return self.value(least_call(machine, units, ticks))

    def workload(self, seed: int) -> tuple[GovernorTotals, ...]:
        """A generated set's runs under each governor; raises RtdvsError.

        >>> [totals.decisions for totals in find_engine().workload(1)]
        [19227, 23323, 23379, 24710]
        """
        return self.value(workload_call(seed))


def _value_or_refusal(call: Call[T], answer: Answer) -> T | Refused:
    try:
        return call.parse(answer.text())
    except Refused as refusal:
        return refusal


@dataclass(frozen=True)
class LibraryEngine(Engine):
    """The shared library, which `program` names: calls in this process, of several threads at a time.

    Such a call can't be stopped. With a time limit each call has a Python process of its own, which is killed after it.
    `admit`, `respond`, `constrain` and `least` of values, without a limit, take and answer numbers, and no text.

    >>> LibraryEngine(Path("/absent.so")).workload(1)  # doctest: +ELLIPSIS
    Traceback (most recent call last):
    rtdvs.errors.NoEngine: /absent.so: cannot open shared object file: ...
    """

    def answer(self, call: Call[object]) -> Answer:
        """Makes the call. Any exit status is an answer; raises NoEngine, SystemFault and TimedOut.

        >>> LibraryEngine(Path("/absent.so"), timeout=1).answer(Call("least"))  # doctest: +ELLIPSIS
        Traceback (most recent call last):
        rtdvs.errors.NoEngine: /absent.so: cannot open shared object file: ...
        """
        if self.timeout is None:
            return library.answer(self.program, call.words(), call.last_bytes)
        library.opened(self.program)
        return _process_answer([*BY_LIBRARY, str(self.program)], call, self.timeout)

    def admit(self, tasks: TaskSource, machine: MachineSource, scheduler: str) -> Admitted:
        """As the program's.

        >>> LibraryEngine(Path("/absent.so")).admit(Path("t.toml"), b"", "edf")  # doctest: +ELLIPSIS
        Traceback (most recent call last):
        rtdvs.errors.NoEngine: /absent.so: cannot open shared object file: ...
        """
        return (self._by_numbers(by_numbers.admitted, (machine, tasks), scheduler)
                or super().admit(tasks, machine, scheduler))

    def respond(self, tasks: TaskSource, machine: MachineSource) -> dict[str, int]:
        """As the program's.

        >>> LibraryEngine(Path("/absent.so")).respond(Path("t.toml"), b"")  # doctest: +ELLIPSIS
        Traceback (most recent call last):
        rtdvs.errors.NoEngine: /absent.so: cannot open shared object file: ...
        """
        return self._by_numbers(by_numbers.responses, (machine, tasks)) or super().respond(tasks, machine)

    def constrain(self, tasks: TaskSource, machine: MachineSource, deadlines: DeadlineSource) -> Constrained:
        """As the program's.

        >>> LibraryEngine(Path("/absent.so")).constrain(Path("t.toml"), b"", b"")  # doctest: +ELLIPSIS
        Traceback (most recent call last):
        rtdvs.errors.NoEngine: /absent.so: cannot open shared object file: ...
        """
        return (self._by_numbers(by_numbers.constrained, (machine, tasks, deadlines))
                or super().constrain(tasks, machine, deadlines))

    def least(self, machine: MachineSource, units: int, ticks: int) -> Least:
        """As the program's.

        >>> LibraryEngine(Path("/absent.so")).least(b"", 3, 4)  # doctest: +ELLIPSIS
        Traceback (most recent call last):
        rtdvs.errors.NoEngine: /absent.so: cannot open shared object file: ...
        """
        return self._by_numbers(by_numbers.least, (machine,), units, ticks) or super().least(machine, units, ticks)

    def _by_numbers(self, ask: Callable[..., T | None], files: Sequence[object], *more: object) -> T | None:
        """The answer to values without a text of them; None if one is a path or a content, or if a text is needed."""
        are_values = all(map(isinstance, files, (Machine, TaskSet, Deadlines)))
        return ask(library.opened(self.program), *files, *more) if are_values and self.timeout is None else None


def _process_answer(program: Sequence[str], call: Call[object], timeout: float | None) -> Answer:
    """The answer of a program to the call, whose texts become files of a folder of its own."""
    with guarded() as guard:
        words = [_word(word, guard.folder / str(place)) for place, word in enumerate(call.words())]
        return program_answer([*program, *words], guard, timeout, last_bytes=call.last_bytes)


def _word(word: Word, path: Path) -> str:
    """The word, or the path of a file with the content."""
    if isinstance(word, bytes):
        path.write_bytes(word)
        return str(path)
    return str(word)


# Without a built program

@dataclass(frozen=True)
class TryEngine(Engine):
    """`rt try` in the program's crate, which `program` names: slow, without a proof, at most 1 MiB an answer.

    It compiles for a minute, so a list of calls is made by one `answers`.

    >>> TryEngine(Path("crates/rtdvs"), timeout=600).program
    PosixPath('crates/rtdvs')
    """

    def answer(self, call: Call[object]) -> Answer:
        """Makes the call; raises NoEngine, and Crashed if it has no answer.

        >>> TryEngine(Path("/absent")).answer(Call("least"))
        Traceback (most recent call last):
        rtdvs.errors.NoEngine: rt: No such file or directory
        """
        return next(self.answers([call]))

    def answers(self, calls: Iterable[Call[object]], executor: Executor | None = None) -> Iterator[Answer]:
        """Compiles once and makes all calls, one after the other; the executor isn't used.

        >>> [*TryEngine(Path("crates/rtdvs")).answers([])]
        []
        """
        made = [*calls]
        if not made:
            return
        with guarded() as guard:
            data = _write_cases(made, guard.folder)
            words = ["rt", "try", "--seconds", str(ceil(self.timeout or 3600)), "--cases", f"{guard.folder}/cases"]
            words += [word for name, path in data.items() for word in ("--data", f"{name}={path}")]
            found = program_answer([*words, "--"], guard, None, self.program)
        for call, answer in zip(made, _tried(found, len(made)), strict=True):
            first = 0 if call.last_bytes is None else max(len(answer.out) - call.last_bytes, 0)
            yield replace(answer, out=answer.out[first:])


def _write_cases(calls: Sequence[Call[object]], folder: Path) -> dict[str, Path]:
    """Writes each call's arguments as a case, and each text once; gives the files by the arguments' names."""
    names: dict[bytes | Path, str] = {}
    (folder / "cases").mkdir()
    for place, call in enumerate(calls):
        words = (word if isinstance(word, str) else names.setdefault(word, f"file{len(names)}")
                 for word in call.words())
        (folder / "cases" / f"{place:06}").touch()
        (folder / "cases" / f"{place:06}.args").write_bytes("".join(f"{word}\n" for word in words).encode())
    data = {name: Path(_word(word, folder / name)) for word, name in names.items()}
    return {name: path for name, path in data.items() if path.is_file()}


def _tried(found: Answer, count: int) -> Iterator[Answer]:
    """The answers that `rt try --cases` printed; Crashed for a case without one."""
    texts = dict(re.findall(rb"^== (\d+)\n((?:(?!== ).*\n)*)", found.out, re.MULTILINE))
    notes: list[bytes] = []
    for line in found.notes.splitlines(keepends=True):
        case = re.match(rb"case=(\d+) run=(\S+)(?: status=(\d+))?", line)
        if not case:
            notes.append(line)
        elif case[2] != b"ended":
            raise Crashed(_last_words(notes))
        else:
            yield Answer(int(case[3]), texts.get(case[1], b""), b"".join(notes))
            notes, count = [], count - 1
    if count:
        raise Crashed(_last_words(notes))


def _last_words(notes: Sequence[bytes]) -> str:
    words = b"; ".join(line.strip() for line in notes[-3:]).decode(errors="replace")
    return f"rt try has no answer: {words}"


# Which engine

def find_engine(program: Path | None = None, timeout: float | None = None) -> Engine:
    """The engine of a program or a shared library, with a limit of seconds for each call; raises NoEngine.

    The first of these: the argument's, that of the variable RTDVS (a library's name has `.so`), the library of the
    wheel or of the Debian package, the repository's built library, its built program, `rtdvs` on the path, and
    `rt try`, which compiles the repository's sources for each list of calls. With a limit programs come before
    libraries: they are stopped at less cost.

    >>> find_engine(Path("/absent/rtdvs"))
    Traceback (most recent call last):
    rtdvs.errors.NoEngine: /absent/rtdvs: no such program
    """
    named = program or os.environ.get("RTDVS")
    if named:
        return _named(Path(named), timeout)
    libraries = (_named(path, timeout) for path in LIBRARIES if path.is_file())
    paths = (shutil.which(path) for path in (CRATE / "out" / "rtdvs", "rtdvs"))
    programs = (Engine(Path(path).absolute(), timeout) for path in paths if path)
    for engine in chain(libraries, programs) if timeout is None else chain(programs, libraries):
        return engine
    if CRATE.is_dir() and shutil.which("rt"):
        return TryEngine(CRATE, timeout)
    raise NoEngine(HOW_TO_GET_ONE)


def _named(path: Path, timeout: float | None) -> Engine:
    """The engine of a library that can be opened, or of a program: a file, or one on the path."""
    if ".so" in path.suffixes:
        library.opened(path.absolute())
        return LibraryEngine(path.absolute(), timeout)
    found = shutil.which(path.absolute()) or shutil.which(path)
    if found is None:
        raise NoEngine(f"{path}: no such program")
    return Engine(Path(found).absolute(), timeout)
