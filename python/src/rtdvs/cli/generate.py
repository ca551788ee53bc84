"""Task sets, demands and exercises by a seed."""

import argparse
from pathlib import Path
from typing import Any

from rtdvs.cli import options
from rtdvs.model import LONGEST_HYPERPERIOD, LONGEST_TIME, MOST_SPEED, MOST_TASKS
from rtdvs.studies import (
    MOST_SEED, PUBLISHED_COUNTS, PUBLISHED_SEED, PUBLISHED_TICKS, Listed, LogUniform, SetName, exercise,
    published_sets, require, taken, taken_uniform, uunifast,
)


def add_command(commands: options.Commands) -> None:
    """Adds the command `generate`.

    >>> commands = argparse.ArgumentParser().add_subparsers()
    >>> add_command(commands)
    >>> list(commands.choices)
    ['generate']
    """
    parser = options.add_parser(commands, "generate", lambda args: 2,  # a kind is required
                        "random task sets, demands and exercises by a seed",
                        "generate uunifast --count 8 --utilisation 0.7 --seed 1\n"
                        "generate exercise --seed 7 --folder seven")
    kinds = parser.add_subparsers(metavar="KIND", required=True)
    for add in (_add_uunifast, _add_published, _add_demands, _add_exercise):
        add(kinds)


def _add_seed(parser: argparse._ActionsContainer, **option: Any) -> None:
    options.add_number(parser, "--seed", within=(1, MOST_SEED), **option)


def _add_uunifast(kinds: options.Commands) -> None:
    parser = options.add_parser(kinds, "uunifast", _run_uunifast, "a task set by UUniFast",
                        "generate uunifast --count 8 --utilisation 0.7 --seed 1 --periods 10 20 50")
    options.add_number(parser, "--count", "the number of tasks", (1, MOST_TASKS), required=True)
    parser.add_argument("--utilisation", type=options.exact_fraction, required=True, metavar="U",
                        help="of the whole set, above 0 and at most 1, as 0.7 or 7/10")
    _add_seed(parser, required=True)
    options.add_number(parser, "--top", "the highest speed in work units per tick; 1000 unless given", (1, MOST_SPEED),
                       default=1000)
    options.add_number(parser, "--periods", "periods in ticks, each equally likely; or without them:",
                       (1, LONGEST_TIME), nargs="+")
    for name, default, about in (("low", 10, "the shortest"), ("high", 1000, "the longest")):
        said = f"{about} period in ticks, with uniform logarithms; {default} unless given"
        options.add_number(parser, f"--{name}", said, (1, LONGEST_TIME))
    options.add_number(parser, "--multiple", f"the number that all periods divide; {PUBLISHED_TICKS} unless given",
                       (1, LONGEST_HYPERPERIOD))
    options.add_output(parser)


def _run_uunifast(args: argparse.Namespace) -> None:
    """Draws a task set by UUniFast (Bini and Buttazzo 2005)."""
    given = {name: getattr(args, name) for name in ("low", "high", "multiple")}
    bounds = {name: value for name, value in given.items() if value is not None}
    require(not (args.periods and bounds), "periods are a list, or from low to high, not both")
    periods: Listed | LogUniform = Listed(tuple(args.periods)) if args.periods else LogUniform(**bounds)
    options.write_output(args, uunifast(args.count, args.utilisation, args.seed, periods, args.top).text())


def _add_published(kinds: options.Commands) -> None:
    parser = options.add_parser(kinds, "published", _run_published, "a set of the published evaluation",
                        "generate published --count 8 --tenths 7 --number 1")
    parser.add_argument("--count", type=int, choices=PUBLISHED_COUNTS, required=True, help="the number of tasks")
    options.add_number(parser, "--tenths", "the utilisation in tenths", (1, 10), required=True)
    options.add_number(parser, "--number", "the set's number among these", (1, 999), required=True)
    options.add_number(parser, "--sets", "how many there are of each kind; 100 unless given", (1, 999), default=100)
    _add_seed(parser, default=PUBLISHED_SEED, about=f"{PUBLISHED_SEED} unless given")
    options.add_output(parser)


def _run_published(args: argparse.Namespace) -> None:
    """Draws a set of docs/EVALUATION.md, as those of Pillai and Shin (2001)."""
    require(args.number <= args.sets, f"number is 1 to {args.sets}")
    wanted = SetName(args.count, args.tenths, args.number)
    sets = published_sets(args.sets, args.seed)
    options.write_output(args, next(tasks for name, tasks in sets if name == wanted).text())


def _add_demands(kinds: options.Commands) -> None:
    parser = options.add_parser(kinds, "demands", _run_demands, "demands of all jobs of a run",
                        "generate demands --tasks tasks.toml --ticks 100 --share 0.7")
    options.add_files(parser, ["tasks"])
    options.add_ticks(parser)
    which = parser.add_mutually_exclusive_group(required=True)
    which.add_argument("--share", type=options.exact_fraction, metavar="S",
                       help="what each job takes of its worst case, 0 to 1")
    _add_seed(which)
    options.add_output(parser)


def _run_demands(args: argparse.Namespace) -> None:
    """Prints a demand file for all jobs of a run; with a seed each job draws its own share."""
    tasks, share = options.read_tasks(args), args.share
    require(share is None or share <= 1, "share is 0 to 1")
    demands = taken_uniform(tasks, args.seed, args.ticks) if share is None else taken(tasks, share, args.ticks)
    options.write_output(args, demands.text())


def _add_exercise(kinds: options.Commands) -> None:
    parser = options.add_parser(kinds, "exercise", _run_exercise, "an exercise with its solution",
                        "generate exercise --seed 7 --scheduler edf --governor la --folder seven")
    _add_seed(parser, required=True)
    options.add_pair(parser, "edf", "cc")
    parser.add_argument("--folder", type=Path, required=True, help="where the files are written")
    options.add_engine_options(parser)


def _run_exercise(args: argparse.Namespace) -> None:
    """Draws a set with small numbers, and writes an exercise into a folder.

    It has the question, the files, the trace that solves it and the explanation of each decision. The
    question is printed as well.
    """
    drawn_one = exercise(options.engine_of(args), args.seed, args.scheduler, args.governor)
    drawn_one.write(args.folder)
    print(drawn_one.question(), end="")
