"""What each scheduler and governor does to the energy and to the tasks of one set.

A row for each of the seven pairs, and for traces given beside them:

    energy            of running and idling, every digit
    of_none           as a share of EDF with none
    above_bound       what is above the bound of least, as a share of the bound
    switches          of the speed
    idle, at_SPEED    shares of the run
    least_laxity      the least time from a completion to its deadline, in ticks
    jitter            the greatest difference between two responses of one task, in ticks

A pair that is denied has the line of its refusal. Shares and ticks are rounded once, half to even.

With --board the columns are joules, mean milliwatts, hours of the battery, and milliseconds and MHz; of_none is then a
share of the joules, which are exact for measured points.
"""

import argparse
from collections.abc import Sequence
from fractions import Fraction

from rtdvs._numbers import aligned, decimal, plain, rounded
from rtdvs.cli import boards, options
from rtdvs.errors import BadValue, TraceFault
from rtdvs.studies import PAIRS, Case, Comparison, Row, cells, compare, finer_energies, finer_table, table
from rtdvs.trace import Trace


def add_command(commands: options.Commands) -> None:
    """Adds the command `compare`.

    >>> commands = argparse.ArgumentParser().add_subparsers()
    >>> add_command(commands)
    >>> list(commands.choices)
    ['compare']
    """
    parser = options.add_parser(commands, "compare", _handle, "energies and times under each scheduler and governor",
                        "compare --tasks tasks.toml --machine machine.toml --ticks 16 --finer 2 10\n"
                        "compare --board board.toml --ms 100")
    options.add_files(parser, ["tasks", "machine"], ["demands"])
    options.add_ticks(parser)
    parser.add_argument("--trace", type=options.input_path, nargs="+", default=[], metavar="FILE",
                        help="traces of these files and ticks, of any governor, each as a row more")
    options.add_unchecked(parser)
    finer = "the energies in ticks N times finer too, as shares of those in the ticks given"
    options.add_number(parser, "--finer", finer, nargs="+", default=[])
    options.add_engine_options(parser, jobs=True)
    boards.add_board(parser)


def _handle(args: argparse.Namespace) -> None:
    engine, given = options.engine_of(args), boards.read_given(args)
    assert given.tasks and given.machine
    case = Case(given.tasks, given.machine, boards.ticks_of(args, given), given.demands)
    traces = [read_trace(source, case, args) for source in args.trace]
    with options.executor_of(args) as executor:
        rows = compare(engine, case.tasks, case.machine, case.ticks, case.demands, traces, executor)
        print(table(rows) if given.units is None else board_table(rows, case.ticks, given.units), end="")
        finer = {times: finer_energies(engine, case, times, executor)
                 for times in options.progress(args.finer, len(args.finer), "finer ticks")}
    if finer:
        print("\n" + finer_table(rows[:len(PAIRS)], finer), end="")


def board_table(rows: Sequence[Row], ticks: int, units: "boards.Units") -> str:
    """The rows in a board's units, below the length of the run; raises BadValue if no power was measured.

    >>> from rtdvs.board import Board, Scale, Units, design
    >>> board = Board.parse('''
    ... task = [{name = "a", period_ms = 2, worst_cycles = 4000}]
    ... point = [{mhz = 4, volts = 1, milliwatts = 8}]''')
    >>> units = Units(board, design(board, Scale(Fraction(1), Fraction(1000))))
    >>> print(board_table([Row("rm", "cc", None, "denied rm a 7 6")], 10, units), end="")
    10 ms      J  mW  of_none  above_bound  switches  idle  least_laxity_ms  jitter_ms
    rm     cc  denied rm a 7 6
    """
    speeds, battery = Comparison(rows).speeds(), units.board.battery
    costs = [None if row.result is None else units.spent_at(row.result.ran) for row in rows]
    hours = [] if battery is None else ["hours"]
    heading = [f"{plain(units.milliseconds(ticks))} ms", "", "J", "mW", *hours, "of_none", "above_bound", "switches",
               "idle", "least_laxity_ms", "jitter_ms",
               *(f"at_{plain(units.megahertz(speed))}_MHz" for speed in speeds)]
    lines = [heading]
    base = costs[0].joules if costs[0] else Fraction(0)
    for row, cost in zip(rows, costs, strict=True):
        scheduler, governor, *own = cells(row, speeds)
        if row.result and cost:
            lasts = [] if battery is None else [rounded(cost.hours(battery))]
            share = decimal(cost.joules / base if base else None, 4)
            times = [rounded(None if each is None else units.milliseconds(each))
                     for each in (row.result.least_laxity, row.result.jitter)]
            own = [rounded(cost.joules), rounded(cost.milliwatts), *lasts, share, *own[2:5], *times, *own[7:]]
        lines.append([scheduler, governor, *own])
    return aligned(lines, left=2)


def read_trace(source: options.Input, case: Case, args: argparse.Namespace) -> Trace:
    """The trace of a file, which is checked without `--unchecked`.

    Raises a BadValue with the file's name if it is refused, and OSError.

    >>> from rtdvs.studies import PAPER_EXAMPLE
    >>> read_trace(b"trace 3\\n", PAPER_EXAMPLE, argparse.Namespace(unchecked=False))
    Traceback (most recent call last):
    rtdvs.errors.BadValue: -: line 1: neither trace 1 nor trace 2
    """
    try:
        trace = Trace.parse(options.read_text(source, "trace"))
        trace.belongs_to(case.tasks, case.machine)
        trace.jobs()
        options.check_first(args, trace, case.tasks, case.machine)
    except TraceFault as fault:
        raise BadValue(f"{'-' if isinstance(source, bytes) else source}: {fault}") from fault
    return trace
