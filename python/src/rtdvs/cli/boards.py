"""The options of a board, for commands that print milliseconds, megahertz, milliwatts, joules and hours."""

import argparse
import re
import sys
from collections.abc import Sequence
from dataclasses import dataclass
from fractions import Fraction
from pathlib import Path
from typing import TYPE_CHECKING, Any

from rtdvs import _numbers, errors
from rtdvs.cli import options
from rtdvs.model import Demands, Machine, TaskSet
from rtdvs.trace import Trace

# A command without a board needs none of it, so functions import what they call of it.
if TYPE_CHECKING:
    from rtdvs.board import Board, Design, OperatingTable, Units as Units

REPLACED = {"tasks", "machine", "ticks"}


@dataclass(frozen=True, slots=True)
class Given:
    """What a command is about: a set and a machine as far as they are given, and a board's units if it has them."""

    tasks: TaskSet | None
    machine: Machine | None
    demands: Demands | None = None
    units: "Units | None" = None

    def check(self, trace: Trace) -> None:
        """Raises BadValue if a trace isn't of the board's files in its tick and unit; without a board none is."""
        if self.units is not None:
            self.units.check(trace)


class _InPlaceOfFiles(argparse.Action):
    """With `--board` the files of a set aren't required."""

    def __call__(self, parser: argparse.ArgumentParser, namespace: argparse.Namespace,
                 values: str | Sequence[Any] | None, option: str | None = None) -> None:
        for action in parser._actions:
            action.required = action.required and action.dest not in REPLACED
        setattr(namespace, self.dest, values)


def add_board(parser: argparse.ArgumentParser) -> None:
    """Adds `--board`, in place of `--tasks`, `--machine` and `--ticks`, and its scale.

    >>> from rtdvs.cli.options import add_files
    >>> parser = argparse.ArgumentParser()
    >>> add_files(parser, ["tasks"])
    >>> add_board(parser)
    >>> parser.parse_args(["--board", "drone.toml"]).board
    PosixPath('drone.toml')
    """
    group = parser.add_argument_group("board", "in place of the files of a set; prints ms, MHz, mW, J and hours")
    group.add_argument("--board", action=_InPlaceOfFiles, type=options.input_path, metavar="FILE",
                       help="the description of a board, as for design")
    group.add_argument("--folder", type=Path, help="takes the files that design made there, and their scale")
    add_scale(group)
    add_tree(parser)
    if any(action.dest == "ticks" for action in parser._actions):
        group.add_argument("--ms", type=options.exact_fraction, metavar="MS",
                           help="the length of the run; without it a hyperperiod, or some 2000 jobs")


def measure(word: str, least: int) -> Fraction:
    """For argparse's `type`: ticks or units from there on; with a board a decimal above 0 is some ms or MHz.

    >>> measure("0.5", least=1), measure("16", least=1)
    (Fraction(1, 2), Fraction(16, 1))
    >>> measure("0", least=1)
    Traceback (most recent call last):
    argparse.ArgumentTypeError: a whole number from 1 on, not 0
    """
    if re.fullmatch(r"[0-9]{1,99}\.[0-9]{1,99}", word) and Fraction(word) > 0:
        return Fraction(word)
    return Fraction(options.whole_number(word, (least, None)))


def add_scale(group: "argparse._ActionsContainer") -> None:
    """Adds `--tick-ms` and `--unit-cycles`."""
    group.add_argument("--tick-ms", type=options.exact_fraction, metavar="MS",
                       help="the tick, in place of a chosen one")
    group.add_argument("--unit-cycles", type=options.exact_fraction, metavar="CYCLES", help="the work unit, likewise")


def add_tree(parser: argparse.ArgumentParser) -> None:
    """Adds the options of a device tree.

    >>> parser = argparse.ArgumentParser()
    >>> add_tree(parser)
    >>> parser.parse_args(["--supported-hw", "0x10,2"]).supported_hw
    (16, 2)
    """
    group = parser.add_argument_group("device tree", "the points of the board")
    group.add_argument("--device-tree", type=options.input_path, metavar="FILE",
                       help="a device tree: its source or its blob")
    group.add_argument("--table", default="", help="a table's label or path; needed if there are several")
    group.add_argument("--supported-hw", type=_hardware, default=(), metavar="N[,N..]",
                       help="the hardware's version, level by level, for opp-supported-hw")
    group.add_argument("--suffix", default="", help="takes opp-microvolt-SUFFIX")
    options.add_number(group, "--supply", "which supply; 1 by default", default=1)
    group.add_argument("--turbo", action="store_true", help="takes points of turbo-mode too, which need boost")


def _hardware(word: str) -> tuple[int, ...]:
    levels = word.split(",")
    if not all(re.fullmatch(r"0[xX][0-9a-fA-F]+|[0-9]+", level) for level in levels):
        raise argparse.ArgumentTypeError(f"no numbers with commas between them: {word!r}")
    return tuple(int(level, 16 if level[:2].lower() == "0x" else 10) for level in levels)


def table_of(args: argparse.Namespace) -> "OperatingTable":
    """The points of `--device-tree`; those that are left out are said on standard error. Raises BadValue, OSError."""
    from rtdvs.board import Choice, OperatingTable, operating_points
    if args.device_tree is None:
        return OperatingTable("", ())
    with options.open_input(args.device_tree) as file:
        choice = Choice(args.table, args.supported_hw, args.suffix, args.supply, args.turbo)
        table = operating_points(file.read(), choice)
    if table.left_out:
        print(f"note: {table.note()}", file=sys.stderr)
    return table


def check_above_0(args: argparse.Namespace, *names: str) -> None:
    """Raises BadValue if one of these options is 0.

    >>> check_above_0(argparse.Namespace(tick_ms=Fraction(0)), "tick_ms")
    Traceback (most recent call last):
    rtdvs.errors.BadValue: board: --tick-ms has to be above 0
    """
    from rtdvs.board import board_fault
    for name in names:
        if getattr(args, name, None) is not None and getattr(args, name) <= 0:
            raise board_fault(f"--{name.replace('_', '-')} has to be above 0")


def read_made(args: argparse.Namespace, board: "Board") -> "Design":
    """The files in `--folder`, which have to be the board's, in their scale; raises BadValue and OSError.

    A scale that is given beside them has to be theirs.
    """
    from rtdvs.board import board_fault, read_design
    made = read_design(args.folder, board)
    for given, taken in ((args.tick_ms, made.scale.tick), (args.unit_cycles, made.scale.unit)):
        if given not in (None, taken):
            raise board_fault(f"in the files of {args.folder} {made.scale.text()}, not {_numbers.plain(given)}")
    return made


def read_given(args: argparse.Namespace) -> Given:
    """What is given by files or by a board; raises Refused and OSError.

    >>> read_given(argparse.Namespace(board=b"", tasks=b"", machine=b""))
    Traceback (most recent call last):
    rtdvs.errors.BadValue: give either --board or --tasks and --machine
    """
    if args.board is None:
        if args.device_tree is not None or args.folder is not None:
            raise errors.BadValue(f"--{'folder' if args.device_tree is None else 'device-tree'} needs --board")
        tasks = None if args.tasks is None else options.read_tasks(args)
        machine = options.read_machine(args) if getattr(args, "machine", None) is not None else None
        return Given(tasks, machine, None if tasks is None else options.read_demands(args, tasks))
    if args.tasks is not None or getattr(args, "machine", None) is not None:
        raise errors.BadValue("give either --board or --tasks and --machine")
    from rtdvs.board import Board, Units, choose_scale, design
    check_above_0(args, "tick_ms", "unit_cycles", "ms")
    board = Board.parse(options.read_text(args.board, "board"), table_of(args).points)
    made = (design(board, choose_scale(board, args.tick_ms, args.unit_cycles)) if args.folder is None
            else read_made(args, board))
    return Given(made.tasks, made.machine, options.read_demands(args, made.tasks), Units(board, made))


def ticks_of(args: argparse.Namespace, given: Given) -> int:
    """The length of a run in ticks, by `--ticks` or by `--ms`; raises BadValue."""
    if given.units is None:
        if args.ms is not None:
            raise errors.BadValue("--ms needs --board")
        return int(args.ticks)
    if args.ticks is not None and args.ms is not None:
        raise errors.BadValue("give either --ticks or --ms")
    from rtdvs.board import run_ticks
    return int(args.ticks) if args.ticks is not None else run_ticks(given.units.made, args.ms)
