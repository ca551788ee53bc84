"""Pictures of traces, of comparisons and of the evaluation, by matplotlib.

Each is drawn into the caller's axes or into a file: SVG, PDF or PNG, by its name. A picture has no
background, and colours that can be read on white and on dark. With --board it is in milliseconds, MHz and joules.
"""

import argparse
import sys
from collections.abc import Callable
from fractions import Fraction
from functools import partial
from math import ceil, floor
from pathlib import Path

from rtdvs._numbers import plain
from rtdvs.board import Units
from rtdvs.cli import boards, options
from rtdvs.errors import BadValue
from rtdvs.plot import View, parse_means, save_compare, save_means, save_trace
from rtdvs.studies import compare
from rtdvs.trace import Trace


def add_command(commands: options.Commands) -> None:
    """Adds the command `plot`.

    >>> commands = argparse.ArgumentParser().add_subparsers()
    >>> add_command(commands)
    >>> list(commands.choices)
    ['plot']
    """
    parser = options.add_parser(commands, "plot", _handle, "pictures of traces, of comparisons and of the evaluation",
                        "plot trace --trace paper.trace --machine machine.toml --top 4 --output paper.svg\n"
                        "plot compare --tasks tasks.toml --machine machine.toml --ticks 99 --output a.pdf\n"
                        "plot evaluation --table examples/evaluation/tasks.tsv --output tasks.svg")
    kinds = parser.add_subparsers(metavar="PICTURE", required=True)
    trace = kinds.add_parser("trace", help="a trace, task by task, with the speed and the demand")
    options.add_files(trace, ("trace",), ("tasks", "machine"))
    for option, least, text in (("--from", 0, "the first tick; with --board in ms"),
                                ("--to", 1, "the last tick; with --board in ms"),
                                ("--top", 1, "the speed of full height, the fastest by default; with --board in MHz")):
        trace.add_argument(option, type=partial(boards.measure, least=least), metavar="N", help=text)
    options.add_number(trace, "--charge", "the machine's charge, which a trace doesn't name", (0, None))
    options.add_number(trace, "--width", "pixels; 1000 by default")
    options.add_unchecked(trace)
    boards.add_board(trace)
    _add_file(trace, _run_trace)
    pairs = kinds.add_parser("compare", help="the energy of each pair, and its time at each speed")
    options.add_files(pairs, ("tasks", "machine"), ("demands",))
    options.add_ticks(pairs)
    options.add_engine_options(pairs)
    boards.add_board(pairs)
    _add_file(pairs, _run_compare)
    means = kinds.add_parser("evaluation", help="a table of the evaluation")
    means.add_argument("--table", type=options.input_path, required=True, metavar="FILE", help="the table")
    options.add_number(means, "--columns", "panels in a row; 3 by default", default=3)
    _add_file(means, _run_means)


def _add_file(parser: argparse.ArgumentParser, draw: Callable[[argparse.Namespace], None]) -> None:
    parser.add_argument("--output", type=Path, required=True, metavar="FILE", help="the picture: .svg, .pdf or .png")
    parser.add_argument("--background", default="none", metavar="COLOUR", help="none by default")
    parser.set_defaults(draw=draw)


def _handle(args: argparse.Namespace) -> int:
    return drawn(args, args.draw)


def drawn(args: argparse.Namespace, draw: Callable[[argparse.Namespace], None]) -> int:
    """The exit status of what draws a picture: 2 without matplotlib; raises BadValue for a background of no colour.

    >>> drawn(argparse.Namespace(background="none"), lambda args: None)
    0
    """
    try:
        from matplotlib.colors import is_color_like

        if not is_color_like(args.background):
            raise BadValue(f"no colour: {args.background}")
        draw(args)
    except ModuleNotFoundError as error:
        print(f"plot: {error.name} is not installed; it is python3-matplotlib of Debian, matplotlib of PyPI",
              file=sys.stderr)
        return 2
    return 0


def _run_trace(args: argparse.Namespace) -> None:
    if args.board is None:
        (trace, charge), units = options.read_trace(args), boards.read_given(args).units
    else:
        if args.charge is not None:
            raise BadValue("--charge has no place beside --board, which has it")
        given, trace = boards.read_given(args), Trace.parse(options.read_text(args.trace, "trace"))
        given.check(trace)
        options.check_first(args, trace, given.tasks, given.machine)
        assert given.machine
        units, charge = given.units, given.machine.charge
    view = View(*_window(args, units), charge, units)
    options.note_charge(trace, view.charge)
    save_trace(trace, args.output, view, args.width or 1000, args.background)


def _window(args: argparse.Namespace, units: Units | None) -> tuple[int, int | None, int | None]:
    """The first tick, the last one and the speed of full height; with a board by ms and MHz. Raises BadValue.

    A time within a tick takes all of it.
    """
    given: dict[str, Fraction | None] = {name: getattr(args, name) for name in ("from", "to", "top")}
    if units is None:
        for name, number in given.items():
            if number is not None and number.denominator > 1:
                raise BadValue(f"--{name}: a whole number, not {plain(number)}; with --board it can be a decimal")
    ones = dict.fromkeys(given, Fraction(1)) if units is None else {
        "from": units.milliseconds(1), "to": units.milliseconds(1), "top": units.megahertz(1)}
    first, last, top = (None if number is None else number / ones[name] for name, number in given.items())
    return floor(first or 0), None if last is None else ceil(last), None if top is None else ceil(top)


def _run_compare(args: argparse.Namespace) -> None:
    engine, given = options.engine_of(args), boards.read_given(args)
    assert given.tasks and given.machine
    rows = compare(engine, given.tasks, given.machine, boards.ticks_of(args, given), given.demands)
    save_compare(rows, args.output, args.background, given.units)


def _run_means(args: argparse.Namespace) -> None:
    save_means(parse_means(options.read_text(args.table, "table")), args.output, args.columns, args.background)
