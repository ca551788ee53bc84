"""Explains each decision of a trace, and checks the whole trace.

For each decision: why it is made, what each task counts in the published demand, the sum, the first speed
that meets it, and the job that then runs. All of it is computed from the lines before by docs/RULES.md. Each
line is checked on the way: releases, legal ticks, decisions, demands, speeds, energies, completions,
deadlines and totals.

Without the demand file a job needs what its `done` line says, or its worst case without one. A run that ends
too early is then found one line later than `replay` finds it, at the line that is there instead of the `done`
line.

The status is 1 if the trace is wrong; standard error then names its first wrong line, and the form that a
misspelled one should have.

With --grade all files of a folder whose names end with .trace are graded, those in its folders too: the share of
right lines and of right decisions, and the first fault. CRLF, tabs, blanks and empty lines at ends are mended,
which is said. --trace then is the right trace, whose plan line and demands hold for all; without it each has
those of its own. The status is 1 if one of them is wrong.
"""

import argparse
import sys
from collections.abc import Iterable, Iterator
from pathlib import Path

from rtdvs import _files, errors
from rtdvs.cli.options import Commands, add_files, add_parser, input_lines, read_files, read_text
from rtdvs.rules import Walk, explain, last_line
from rtdvs.trace import Trace


def _handle(args: argparse.Namespace) -> int:
    if args.grade is not None:
        return _graded(args)
    if args.csv is not None:
        raise errors.BadValue("--csv needs --grade")
    if args.trace is None:
        raise errors.BadValue("give --trace or --grade")
    tasks, machine, demands = read_files(args)
    latest: list[str] = []
    walk = Walk(tasks, machine, _kept(input_lines(args.trace), latest), demands, args.any)
    try:
        summary = explain(walk, None if args.quiet else print)
    except errors.WrongTrace as fault:
        from rtdvs.studies import expected  # here, so that a right trace needs no study

        sys.stdout.flush()
        form = expected(fault.line, latest[0]) if latest else ""
        print(fault, *[f"  {form}"][:len(form)], sep="\n", file=sys.stderr)
        return 1
    print(last_line(summary, args.any, demands is not None))
    return 0


def _kept(lines: Iterable[str], latest: list[str]) -> Iterator[str]:
    """The lines; the one that was given last is kept."""
    for line in lines:
        latest[:] = [line]
        yield line


def _graded(args: argparse.Namespace) -> int:
    if args.any or args.quiet:
        raise errors.BadValue("--grade takes neither --any nor --quiet")
    from rtdvs.studies import Asked, grades, handed_in

    tasks, machine, demands = read_files(args)
    solution = None if args.trace is None else Trace.parse(read_text(args.trace, "trace"))
    try:
        asked = Asked.by(tasks, machine, demands, solution)
    except errors.WrongTrace as fault:
        raise errors.BadValue(f"--trace isn't a right trace: {fault}") from None
    _, others = handed_in(args.grade)
    if others:
        print("note: these have no name that ends with .trace:", *(path.name for path in others), file=sys.stderr)
    found = grades(asked, args.grade)
    print(found.text(), end="")
    if args.csv is not None:
        _files.write_whole(args.csv, found.csv())
    return 0 if all(each.is_right for each in found) else 1


def add_command(commands: Commands) -> None:
    """Adds the command `explain`.

    >>> parser = argparse.ArgumentParser()
    >>> add_command(parser.add_subparsers())
    >>> words = "explain --quiet --tasks t.toml --machine m.toml --trace run.trace"
    >>> parser.parse_args(words.split()).quiet
    True
    """
    parser = add_parser(commands, "explain", _handle, "explain each decision of a trace, check it, or grade many",
                        "explain --tasks tasks.toml --machine machine.toml --trace run.trace\n"
                        "explain --tasks seven/tasks.toml --machine seven/machine.toml --demands seven/demands.csv "
                        "--trace seven/solution.trace --grade handed --csv grades.csv")
    add_files(parser, ("tasks", "machine"), ("trace", "demands"))
    parser.add_argument("--any", action="store_true",
                        help="a trace of another governor: any demand, and any of the speeds at any tick")
    parser.add_argument("--quiet", action="store_true", help="the last line only")
    parser.add_argument("--grade", type=Path, metavar="FOLDER", help="grades the traces of a folder")
    parser.add_argument("--csv", type=Path, metavar="FILE", help="writes the grades there too, in CSV")
