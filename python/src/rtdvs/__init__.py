"""Exact schedules and energies of periodic tasks with voltage scaling.

    tasks, machine = TaskSet.read(Path("tasks.toml")), Machine.read(Path("machine.toml"))
    trace = find_engine().run(tasks, machine, "edf", "cc", ticks=16)

The packages below this one have the rest: rtdvs.board, rtdvs.export, rtdvs.rules, rtdvs.studies and others.
"""

from importlib import import_module
from typing import TYPE_CHECKING, Any

from rtdvs._version import __version__

if TYPE_CHECKING:
    from rtdvs.engine import Call, Engine, admit_call, find_engine, response_call, run_call
    from rtdvs.errors import (
        BadValue, DeadlineMissed, Denied, EngineError, FileRefused, NoEngine, OverWorst, Refused, RtdvsError,
        TimedOut, TooManyJobs, TraceFault, WrongTrace,
    )
    from rtdvs.hints import second_line
    from rtdvs.model import (
        PAIRS, Deadlines, Demands, Governor, Machine, Point, Request, Requests, Scheduler, Task, TaskSet,
    )
    from rtdvs.plot import plot_trace, save_trace
    from rtdvs.rules import Walk, check, explain, simulate
    from rtdvs.studies import Sweep, compare, evaluate, sensitivity, uunifast
    from rtdvs.trace import Job, Trace, task_statistics

# Each is imported when it is first asked for, so that a command imports no more than it needs: the first of these
# packages that has the name, and those before it.
_HOMES = ("errors", "model", "trace", "engine", "rules", "hints", "studies", "plot")
_PACKAGES = {*_HOMES, "board", "export", "web"}


def __getattr__(name: str) -> Any:
    """A public name of a package below, or that package itself."""
    if name in _PACKAGES:
        return import_module(f"rtdvs.{name}")
    if name in __all__:
        homes = (import_module(f"rtdvs.{home}") for home in _HOMES)
        return next(getattr(home, name) for home in homes if hasattr(home, name))
    raise AttributeError(f"module 'rtdvs' has no attribute {name!r}")


def __dir__() -> list[str]:
    """The public names, and the packages."""
    return sorted({*__all__, *_PACKAGES})


__all__ = [
    "BadValue", "Call", "DeadlineMissed", "Deadlines", "Demands", "Denied", "Engine", "EngineError", "FileRefused",
    "Governor", "Job", "Machine", "NoEngine", "OverWorst", "PAIRS", "Point", "Refused", "Request", "Requests",
    "RtdvsError", "Scheduler", "Sweep", "Task", "TaskSet", "TimedOut", "TooManyJobs", "Trace", "TraceFault", "Walk",
    "WrongTrace", "__version__", "admit_call", "check", "compare", "evaluate", "explain", "find_engine", "plot_trace",
    "response_call", "run_call", "save_trace", "second_line", "sensitivity", "simulate", "task_statistics", "uunifast",
]
