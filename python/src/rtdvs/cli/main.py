"""Exact schedules and energies of periodic tasks with voltage scaling: tools beside the program rtdvs."""

import argparse
import os
import signal
import sys
from collections.abc import Iterator, Sequence
from contextlib import contextmanager
from difflib import get_close_matches
from importlib import import_module
from pathlib import Path

from rtdvs._version import __version__
from rtdvs.cli.options import engine_of
from rtdvs.engine import end_calls, wait_for_calls
from rtdvs.errors import RtdvsError
from rtdvs.hints import COMMANDS as PROGRAM, FILES, second_line

SIGNALS = (signal.SIGINT, signal.SIGTERM, signal.SIGHUP)
PERIOD = 0.25  # seconds after which a process that waits looks for signals again
GRACE = 2.0  # seconds for an orderly end
COMMANDS = {name: {"statistics": "per_task"}.get(name, name.replace("-", "_")) for name in (
    "explain", "simulate", "statistics", "compare", "response", "sensitivity", "generate", "evaluate", "paper-table",
    "design", "plot", "convert", "page", "serve")}
"""The module of each command. `response` is the program's too."""
OF_BOARDS = {"--board", "--folder", "--device-tree"}

MODULE = "python3 -m rtdvs"
EPILOG = f"""commands of the program, with its options, output and exit status:
  {", ".join(PROGRAM)}

docs/COMMANDS.md has an example of each of these, docs/FORMATS.md the files. simulate needs no program."""


def parser(name: str = MODULE, command: str = "") -> argparse.ArgumentParser:
    """The parser of a command, of which only its module is imported, or of all, for a line that begins with this name.

    >>> parser().parse_args("generate published --count 5 --tenths 2 --number 1".split()).tenths
    2
    """
    top = argparse.ArgumentParser(prog=name, description=__doc__, epilog=EPILOG,
                                  formatter_class=argparse.RawDescriptionHelpFormatter)
    top.add_argument("--version", action="version", version=f"rtdvs {__version__}")
    commands = top.add_subparsers(title="commands", metavar="COMMAND", required=True)
    for each in [command] if command in COMMANDS else COMMANDS:
        import_module(f"rtdvs.cli.{COMMANDS[each]}").add_command(commands)
    return top


def main(words: Sequence[str] | None = None, name: str = MODULE) -> int:
    """Runs a command and returns its exit status: 1 only for a wrong trace, 2 for any other failure.

    The program's commands have its own. After an interrupt it is 128 and the signal's number.

    >>> main(["--foo"])
    2
    """
    words, args = sys.argv[1:] if words is None else words, argparse.Namespace()
    if sys.stderr is None:
        sys.stderr = open(os.devnull, "w")
    if sys.stdout is None:
        return _refused("standard output is closed")
    try:
        status = _handled(words, name, args)
        sys.stdout.flush()
        return status
    except BrokenPipeError:
        return 2
    except KeyboardInterrupt as end:
        return 128 + int(end.args[0] if end.args else signal.SIGINT)
    except OSError as fault:
        return _refused(f"{fault.filename or 'input or output'}: {fault.strerror}")
    except MemoryError:
        return _refused("no memory")
    except (RtdvsError, ValueError) as fault:
        return _refused(str(fault), _second(fault, args))


def _handled(words: Sequence[str], name: str, args: argparse.Namespace) -> int:
    """The exit status of a command, whose arguments are put into `args`, or of argparse's own answer."""
    try:
        if words and words[0] in PROGRAM and not _is_of_board(words):
            program = import_module("rtdvs.cli.program")
            return int(program.hand_on(words, engine_of(argparse.Namespace(program=None, timeout=None))))
        top = parser(name, *words[:1])
        if words and words[0] not in COMMANDS and not words[0].startswith("-"):
            top.error(_unknown(words[0]))
        top.parse_args(words or ["--help"], args)
        lists = (value if isinstance(value, list) else [value] for value in vars(args).values())
        if sum(isinstance(value, bytes) for values in lists for value in values) > 1:
            top.error("only one file can be standard input")
        return int(args.handler(args) or 0)
    except SystemExit as end:
        return end.code if isinstance(end.code, int) else 0


def _unknown(word: str) -> str:
    """What is said of a word that is no command.

    >>> _unknown("Compare"), _unknown("x")
    ('no command Compare; near it is compare; --help lists all', 'no command x; --help lists all')
    """
    near = get_close_matches(word.lower(), [*COMMANDS, *PROGRAM], 1)
    return "; ".join([f"no command {word}", *(f"near it is {each}" for each in near), "--help lists all"])


def _is_of_board(words: Sequence[str]) -> bool:
    """Whether a command that the program has too is the package's here: it is of a board, or its help is asked for.

    >>> _is_of_board(["response", "--board=a.toml"]), _is_of_board(["response", "--tasks", "a.toml"])
    (True, False)
    """
    names = {word.partition("=")[0] for word in words}
    return words[0] in COMMANDS and (bool(names & OF_BOARDS) or words[1:2] in (["-h"], ["--help"]))


def _second(fault: Exception, args: argparse.Namespace) -> str:
    """The second line of a refusal, of which the arguments name the files."""
    return second_line(fault, files={kind: source for kind, source in vars(args).items()
                                     if kind in FILES and isinstance(source, Path | bytes)})


def _refused(line: str, second: str = "") -> int:
    print(f"rtdvs: {line}", *([f"  {second}"] if second else []), sep="\n", file=sys.stderr)
    return 2


@contextmanager
def ended_by_signals() -> Iterator[None]:
    """In the block a signal ends all programs and is a KeyboardInterrupt; a second one ends the process at once.

    So does the end of two seconds, since an exception in a callback is lost. A signal that was ignored is so still.
    An alarm comes again and again, since a signal just before a thread waits for a lock doesn't end the waiting.

    >>> with ended_by_signals():
    ...     signal.getsignal(signal.SIGTERM) is _interrupt
    True
    """
    before = {number: signal.getsignal(number) for number in SIGNALS}
    taken = [number for number in SIGNALS if before[number] is not signal.SIG_IGN]
    try:
        signal.signal(signal.SIGALRM, lambda *_: None)
        signal.setitimer(signal.ITIMER_REAL, PERIOD, PERIOD)
        for number in taken:
            signal.signal(number, _interrupt)
        yield
    finally:
        signal.setitimer(signal.ITIMER_REAL, 0)
        for number in taken:
            signal.signal(number, before[number])


def _interrupt(number: int, frame: object) -> None:
    for each in (*SIGNALS, signal.SIGALRM):
        signal.signal(each, lambda *_: _leave(128 + number, PERIOD))
    signal.setitimer(signal.ITIMER_REAL, GRACE, PERIOD)
    end_calls()
    raise KeyboardInterrupt(number)


def _leave(status: int, grace: float) -> None:
    """Ends the process. Its programs are waited for, at most that long; a call in this process isn't."""
    wait_for_calls(grace)
    os._exit(status)


def entry(name: str = "rtdvs-tools") -> None:
    """Ends the process with the status of its command line, which begins with this name.

    >>> from unittest.mock import patch
    >>> with patch("sys.argv", ["rtdvs", "--foo"]):
    ...     entry()
    Traceback (most recent call last):
    SystemExit: 2
    """
    with ended_by_signals():
        status = main(name=name)
        try:
            sys.stdout.flush()
        except (AttributeError, OSError):
            # What is left can't be written, and the interpreter must not try it again.
            os.dup2(os.open(os.devnull, os.O_WRONLY), 1)
        if status > 128:
            _leave(status, GRACE)
    raise SystemExit(status)
