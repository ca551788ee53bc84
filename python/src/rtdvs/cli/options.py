"""What the commands share: options, input, output and a progress bar."""

import argparse
import inspect
import io
import os
import re
import signal
import sys
from collections.abc import Callable, Iterable, Iterator, Sequence
from concurrent.futures import Executor
from contextlib import AbstractContextManager, contextmanager, suppress
from fractions import Fraction
from functools import partial
from pathlib import Path
from threading import Thread, active_count
from time import monotonic
from typing import TYPE_CHECKING, Any, BinaryIO, TypeAlias, TypeVar

from rtdvs import _files, _numbers
from rtdvs.engine import Engine, TryEngine, find_engine, stop_calls
from rtdvs.errors import BadValue, Denied, TraceFault, WordFault
from rtdvs.model import MOST_TICKS, Demands, Governor, Machine, Scheduler, TaskSet, load
from rtdvs.trace import Done, Noted, Trace, TraceFile, lines_of, split_governor

if TYPE_CHECKING:
    from multiprocessing.context import BaseContext

Commands: TypeAlias = "argparse._SubParsersAction[argparse.ArgumentParser]"
Item = TypeVar("Item")
Input = Path | bytes
"""A file's path, or what standard input held."""

FILES = {"tasks": "the task file", "machine": "the machine file", "trace": "the trace, in version 1 or 2",
         "demands": "the demand file: the work units of single jobs"}
BAR = 30
SCHEDULERS, KINDS = tuple(map(str, Scheduler)), tuple(map(str, Governor))


# Options

def add_parser(commands: Commands, name: str, handler: Callable[[argparse.Namespace], int | None], about: str,
               example: str) -> argparse.ArgumentParser:
    """Adds a command: its handler, whose docstring or its module's is the help, and calls as an example.

    The handler returns the exit status, or None for 0.

    >>> commands = argparse.ArgumentParser(prog="rtdvs").add_subparsers()
    >>> parser = add_parser(commands, "shout", lambda args: 0, "prints loudly", "shout --ticks 3")
    >>> parser.epilog
    'example:\\n  %(prog)s --ticks 3'
    """
    described = inspect.getdoc(handler) or sys.modules[handler.__module__].__doc__
    calls = "".join(f"\n  %(prog)s{words.partition(name)[2]}" for words in example.split("\n"))
    parser = commands.add_parser(name, help=about, description=described, epilog=f"example:{calls}",
                                 formatter_class=argparse.RawDescriptionHelpFormatter)
    parser.set_defaults(handler=handler)
    return parser


def add_number(parser: argparse._ActionsContainer, name: str, about: str | None = None,
               within: tuple[int, int | None] = (1, None), **more: Any) -> None:
    """Adds an option for a whole number within bounds; `more` is for `add_argument`.

    >>> parser = argparse.ArgumentParser()
    >>> add_number(parser, "--count", "how many", (1, 9), nargs="+")
    >>> parser.parse_args(["--count", "2", "7"]).count
    [2, 7]
    """
    settings: dict[str, Any] = {"metavar": "N", **more}
    parser.add_argument(name, type=partial(whole_number, within=within), help=about, **settings)


def add_ticks(parser: argparse.ArgumentParser) -> None:
    """Adds `--ticks`, the length of a run.

    >>> parser = argparse.ArgumentParser()
    >>> add_ticks(parser)
    >>> parser.parse_args(["--ticks", "16"]).ticks
    16
    """
    add_number(parser, "--ticks", "the length of the run", (1, MOST_TICKS), required=True)


def add_pair(parser: argparse.ArgumentParser, scheduler: str | None = None, governor: str | None = None) -> None:
    """Adds `--scheduler` and `--governor`, which are required without a default.

    >>> parser = argparse.ArgumentParser()
    >>> add_pair(parser, "edf")
    >>> parser.parse_args(["--governor", "cc"])
    Namespace(scheduler='edf', governor='cc')
    """
    for name, words, default in (("scheduler", SCHEDULERS, scheduler), ("governor", KINDS, governor)):
        parser.add_argument(f"--{name}", choices=words, default=default, required=default is None,
                            help=default and f"{default} unless given")


def add_files(parser: argparse.ArgumentParser, required: Sequence[str], optional: Sequence[str] = ()) -> None:
    """Adds options for files, each an Input: tasks, machine, demands, trace.

    >>> parser = argparse.ArgumentParser()
    >>> add_files(parser, ["tasks"], ["demands"])
    >>> parser.parse_args(["--tasks", "a.toml"])
    Namespace(tasks=PosixPath('a.toml'), demands=None)
    """
    for kind in (*required, *optional):
        about, needed = f"{FILES[kind]}; - is standard input", kind in required
        parser.add_argument(f"--{kind}", type=input_path, required=needed, metavar="FILE", help=about)


def add_output(parser: argparse.ArgumentParser) -> None:
    """Adds `--output FILE`, in short `-o`; without it a command prints.

    >>> parser = argparse.ArgumentParser()
    >>> add_output(parser)
    >>> parser.parse_args(["--output", "cc.svg"]).output
    PosixPath('cc.svg')
    """
    parser.add_argument("-o", "--output", type=Path, metavar="FILE", help="write to this file, and print nothing")


def add_engine_options(parser: argparse.ArgumentParser, jobs: bool = False) -> None:
    """Adds `--program` and `--timeout` (seconds), and `--jobs`, the number of calls of the program at a time.

    >>> parser = argparse.ArgumentParser()
    >>> add_engine_options(parser, jobs=True)
    >>> parser.parse_args(["--timeout", "0.5", "--jobs", "4"])
    Namespace(program=None, timeout=0.5, jobs=4)
    """
    about = "the program rtdvs or its library librtdvs.so; without it that of $RTDVS, a built one, or rtdvs on the path"
    parser.add_argument("--program", type=Path, metavar="FILE", help=about)
    parser.add_argument("--timeout", type=seconds, metavar="SECONDS", help="the longest that a call may take")
    if jobs:
        add_number(parser, "--jobs", "calls of the program at a time (default: 1)", (1, 1024), default=1)


def add_unchecked(parser: argparse.ArgumentParser) -> None:
    """Adds `--unchecked`, by which a trace is taken without a look at its lines.

    >>> parser = argparse.ArgumentParser()
    >>> add_unchecked(parser)
    >>> parser.parse_args([]).unchecked
    False
    """
    parser.add_argument("--unchecked", action="store_true",
                        help="takes the trace without a check of its lines, and says so")


def whole_number(word: str, within: tuple[int, int | None]) -> int:
    """For argparse's `type`: decimal digits without sign or leading zero, within the bounds.

    >>> whole_number("16", within=(1, None))
    16
    >>> whole_number("016", within=(1, None))
    Traceback (most recent call last):
    argparse.ArgumentTypeError: a whole number from 1 on, not 016
    """
    try:
        return _numbers.whole(word, *within)
    except WordFault as fault:
        raise argparse.ArgumentTypeError(str(fault)) from None


def exact_fraction(word: str) -> Fraction:
    """For argparse's `type`: a decimal or a fraction, exactly.

    >>> exact_fraction("0.7"), exact_fraction("5/7")
    (Fraction(7, 10), Fraction(5, 7))
    """
    if not re.fullmatch(r"[0-9]{1,99}(\.[0-9]{1,99}|/0*[1-9][0-9]{0,99})?", word):
        raise argparse.ArgumentTypeError(f"a number such as 0.7 or 7/10, not {word}")
    return Fraction(word)


def seconds(word: str) -> float:
    """For argparse's `type`: a time above 0 in seconds.

    >>> seconds("0.5")
    0.5
    """
    time = exact_fraction(word)
    if not 0 < time <= 10**6:
        raise argparse.ArgumentTypeError(f"seconds above 0 and at most 1000000, not {word}")
    return float(time)


# Input and output

def input_path(word: str) -> Input:
    """The path that a word names; `-` is standard input, which is read to its end. For argparse's `type`.

    >>> input_path("tasks.toml")
    PosixPath('tasks.toml')
    """
    if word == "":
        raise argparse.ArgumentTypeError("a file's name, not an empty word")
    if word == "-" and sys.stdin is None:
        raise argparse.ArgumentTypeError("standard input is closed")
    return sys.stdin.buffer.read() if word == "-" else Path(word)


def read_tasks(args: argparse.Namespace) -> TaskSet:
    """The task set of `--tasks`; raises Refused and OSError.

    >>> read_tasks(argparse.Namespace(tasks=b"")).tasks
    Traceback (most recent call last):
    rtdvs.errors.FileRefused: tasks: no tasks
    """
    return TaskSet.parse(_content(args.tasks))


def read_machine(args: argparse.Namespace) -> Machine:
    """The machine of `--machine`; raises Refused and OSError.

    >>> read_machine(argparse.Namespace(machine=b"[[point]]\\nspeed = 2\\nmillivolts = 900")).points
    (Point(speed=2, millivolts=900),)
    """
    return Machine.parse(_content(args.machine))


def read_demands(args: argparse.Namespace, tasks: TaskSet) -> Demands | None:
    """The demands of `--demands`, or None without that option, which not all commands have; raises Refused and OSError.

    >>> from rtdvs.model import Task
    >>> read_demands(argparse.Namespace(demands=b"task,job,units\\na,1,2\\n"), TaskSet((Task("a", 4, 3),)))
    Demands(units={('a', 1): 2})
    """
    return None if getattr(args, "demands", None) is None else Demands.parse(_content(args.demands), tasks)


def read_files(args: argparse.Namespace) -> tuple[TaskSet, Machine, Demands | None]:
    """The contents of a task file, a machine file and a demand file; raises Refused, OSError.

    >>> files = {"tasks": b'task = [{ name = "a", period = 4, worst = 3 }]', "demands": None}
    >>> machine = b"[[point]]\\nspeed = 2\\nmillivolts = 900"
    >>> read_files(argparse.Namespace(machine=machine, **files))[2] is None
    True
    """
    tasks = read_tasks(args)
    return tasks, read_machine(args), read_demands(args, tasks)


def _content(source: Input) -> bytes:
    return source if isinstance(source, bytes) else load(source)


def open_input(source: Input) -> AbstractContextManager[BinaryIO]:
    """The file, or what standard input held, to be read line by line; raises OSError.

    >>> with open_input(b"trace 2\\n") as file:
    ...     next(file)
    b'trace 2\\n'
    """
    return io.BytesIO(source) if isinstance(source, bytes) else source.open("rb")


def read_text(source: Input, kind: str) -> str:
    """All of the input as text; raises OSError, and a BadValue that begins with the kind if it isn't UTF-8.

    >>> read_text(b"\\xff", "trace")
    Traceback (most recent call last):
    rtdvs.errors.BadValue: trace: not UTF-8
    """
    with open_input(source) as file:
        content = file.read()
    try:
        return content.decode("utf-8")
    except UnicodeDecodeError:
        raise BadValue(f"{kind}: not UTF-8") from None


def read_trace(args: argparse.Namespace) -> tuple[Trace, int]:
    """The trace of `--trace`, and the charge of `--charge` or `--machine`, or 0; raises OSError.

    It is checked first: raises TraceFault if it isn't a right one of the files of `--tasks` and `--machine`, and
    BadValue if these aren't given. With `--unchecked` it has to belong to those that are given.

    >>> from rtdvs.trace import SAMPLE
    >>> tasks = b'task = [{ name = "t", period = 3, worst = 4 }]'
    >>> read_trace(argparse.Namespace(trace=SAMPLE.encode(), tasks=tasks, machine=None, charge=1, unchecked=True))
    Traceback (most recent call last):
    rtdvs.errors.TraceFault: line 3: its tasks aren't those of the task file
    """
    trace = Trace.parse(read_text(args.trace, "trace"))
    return trace, _believed(args, trace)


def trace_file(args: argparse.Namespace) -> tuple[TraceFile, int]:
    """The same of a trace that stays in its file; what can't be read twice, such as a pipe, is kept in memory.

    >>> from rtdvs.trace import SAMPLE
    >>> trace_file(argparse.Namespace(trace=SAMPLE.encode(), tasks=None, machine=None, unchecked=False))
    Traceback (most recent call last):
    rtdvs.errors.BadValue: give --machine, by which the trace is checked, or --unchecked
    """
    source: Input = args.trace
    if isinstance(source, Path) and not source.is_file():
        source = source.read_bytes()
    trace = TraceFile.of(partial(input_lines, source))
    return trace, _believed(args, trace)


def input_lines(source: Input) -> Iterator[str]:
    """The lines of a trace, with their line feeds; raises OSError.

    >>> [*input_lines(b"trace 2\\n")]
    ['trace 2\\n']
    """
    with open_input(source) as file:
        yield from lines_of(io.TextIOWrapper(file, "latin-1", newline="\n"))


def _believed(args: argparse.Namespace, trace: Trace | TraceFile) -> int:
    """Checks a trace by the files that are given, and returns the charge."""
    machine = None if args.machine is None else read_machine(args)
    tasks = TaskSet(trace.tasks) if trace.tasks else None
    tasks = tasks if args.tasks is None else read_tasks(args)
    if machine is not None and tasks is None:
        raise BadValue("--machine needs --tasks: a trace of version 1 doesn't name its tasks")
    check_first(args, trace, tasks, machine)
    charge: int | None = getattr(args, "charge", None)
    return charge if charge is not None else machine.charge if machine else 0


def check_first(args: argparse.Namespace, trace: Trace | TraceFile, tasks: TaskSet | None,
                machine: Machine | None) -> None:
    """Checks the lines of a trace before a number of it is printed. With `--unchecked` says that it isn't checked.

    A trace of one of the seven pairs is checked by its rules, any other one for what holds under each governor;
    an unchecked one has to belong to the files that are given. Raises TraceFault, and BadValue without files.

    >>> from rtdvs.model import Point, Task
    >>> from rtdvs.trace import SAMPLE
    >>> trace, machine = Trace.parse(SAMPLE), Machine((Point(2, 1000), Point(3, 1500)))
    >>> check_first(argparse.Namespace(unchecked=False), trace, TaskSet(trace.tasks), machine)
    Traceback (most recent call last):
    rtdvs.errors.TraceFault: line 6: the energy is 3 * 1500 * 1500 * 1000 = 6750000000
    """
    if args.unchecked:
        if tasks is not None:
            trace.belongs_to(tasks, machine)
        print("note: the trace is not checked", file=sys.stderr)
        return
    if machine is None or tasks is None:
        files = "--machine" if tasks else "--tasks and --machine"
        raise BadValue(f"give {files}, by which the trace is checked, or --unchecked")
    from rtdvs.rules import GOVERNORS, check  # here, since few commands check a trace
    is_known = (trace.scheduler, split_governor(trace.governor)[0]) in GOVERNORS
    try:
        with suppress(Denied):
            check(tasks, machine, trace.lines(), any_governor=not is_known)
            return
        check(tasks, machine, trace.lines(), any_governor=True)
    except TraceFault:
        trace.belongs_to(tasks, machine)
        raise


def note_charge(trace: Noted, charge: int) -> None:
    """Prints a note on standard error if a job used more units than declared: then the machine's charge differs.

    >>> tasks = "trace 2\\nplan edf none 2\\ntask a 2 0 1\\n"
    >>> run = "release 0 a 1\\nspeed 0 1 1/1\\nrun 0:0 1:0 a 1 1 1\\ndone 1:0 a 1 1\\nidle 1:0 2:0 1 0\\n"
    >>> note_charge(Trace.parse(f"{tasks}{run}energy a 1\\nend 2 1 0\\n"), charge=0)
    """
    most = {task.name: task.worst + 2 * charge for task in trace.tasks}
    for note in trace.notes:
        if isinstance(note, Done) and note.used > most.get(note.task, note.used):
            print(f"note: {note.task} job {note.job} used {note.used} of {most[note.task]} declared units: "
                  "give the machine's charge by --charge", file=sys.stderr)
            return


def write_output(args: argparse.Namespace, text: str | bytes | Iterable[str]) -> None:
    """Writes the file of `--output`, which is as before if that fails, or to standard output; raises OSError.

    Several texts are written one after the other.

    >>> write_output(argparse.Namespace(output=Path("/dev/null")), "trace 2\\n")
    """
    if args.output is not None:
        _files.write_whole(args.output, text)
        return
    sys.stdout.flush()
    sys.stdout.buffer.writelines(_files.encoded(text))


# Calls

def engine_of(args: argparse.Namespace) -> Engine:
    """The engine of `--program` and `--timeout` (seconds); raises NoEngine.

    >>> engine_of(argparse.Namespace(program=Path("/absent/rtdvs"), timeout=None))
    Traceback (most recent call last):
    rtdvs.errors.NoEngine: /absent/rtdvs: no such program
    """
    engine = find_engine(args.program, args.timeout)
    if isinstance(engine, TryEngine) and sys.stderr.isatty():
        print("no built program, so rt try compiles one; it takes a minute", file=sys.stderr)
    return engine


def executor_of(args: argparse.Namespace) -> AbstractContextManager[Executor]:
    """Makes `--jobs` calls at a time, for `engine.answers(calls, executor)` in a `with` block.

    If the block isn't left at its end, the programs that run are ended, and no call is waited for.

    >>> with executor_of(argparse.Namespace(jobs=2)) as executor:
    ...     [*executor.map(abs, [1, -2])]
    [1, 2]
    """
    from concurrent.futures import ThreadPoolExecutor
    return _ended(ThreadPoolExecutor(args.jobs), stop_calls)


def processes_of(args: argparse.Namespace) -> AbstractContextManager[Executor]:
    """As executor_of, with `--jobs` processes, which end with this one.

    >>> with processes_of(argparse.Namespace(jobs=1)) as executor:
    ...     [*executor.map(abs, [1, -2])]
    [1, 2]
    """
    from concurrent.futures import ProcessPoolExecutor  # here, since only `evaluate` needs it
    return _ended(ProcessPoolExecutor(args.jobs, _pool_context(), _follow_the_first), _kill_processes)


def _pool_context() -> "BaseContext":
    """How a pool starts its processes: as is the default, but by a fork where a fork server would do it.

    Such a server has a folder for its socket, which stays if a signal ends this process. A pool forks before it has
    a thread. Beside other threads, as in a notebook, a fork isn't safe, and the default stays.

    >>> _pool_context().get_start_method() in ("fork", "forkserver", "spawn")
    True
    """
    from multiprocessing import get_context
    default = get_context()
    forks = default.get_start_method() == "forkserver" and active_count() == 1
    return get_context("fork") if forks else default


@contextmanager
def _ended(executor: Executor, stop: Callable[[], None]) -> Iterator[Executor]:
    """The executor, whose calls are stopped and not waited for if the block isn't left at its end."""
    try:
        yield executor
    except BaseException:
        executor.shutdown(wait=False, cancel_futures=True)
        stop()
        raise
    executor.shutdown()


def _kill_processes() -> None:
    from multiprocessing import active_children
    for process in active_children():
        process.kill()


def _follow_the_first() -> None:
    """Makes a process of a pool end with the one that started it, which alone takes an interrupt."""
    signal.signal(signal.SIGINT, signal.SIG_IGN)
    for number in (signal.SIGTERM, signal.SIGHUP):
        signal.signal(number, signal.SIG_DFL)
    Thread(target=_end_with_parent, daemon=True).start()


def _end_with_parent() -> None:
    from multiprocessing import parent_process
    parent = parent_process()
    if parent is not None:
        parent.join()
        os._exit(1)


def progress(items: Iterable[Item], total: int, label: str) -> Iterator[Item]:
    """The items, with a bar on standard error while they come, if that is a terminal.

    >>> [*progress("abc", 3, "letters")]
    ['a', 'b', 'c']
    """
    if not sys.stderr.isatty():
        yield from items
        return
    shown = 0.0
    try:
        for count, item in enumerate(items, 1):
            if monotonic() - shown > 0.1:
                shown = monotonic()
                bar = "#" * (BAR * count // max(total, count))
                print(f"\r{label} [{bar:{BAR}}] {count}/{total}", end="", file=sys.stderr, flush=True)
            yield item
    finally:
        print("\r\x1b[K", end="", file=sys.stderr, flush=True)
