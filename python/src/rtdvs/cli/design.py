"""From milliseconds, cycles, MHz and volts to the files of the program, and from its energies back to joules.

A board is described in a TOML file; its points may also come from a device tree, its source or its blob:

    idle_share = 0.1          # of a running cycle's energy
    switch_us = 20            # a switch of speed
    battery_mwh = 3700
    highest_milliwatts = 900  # at the highest point of a device tree, for joules

    [[task]]
    name = "control"
    period_ms = 5
    worst_cycles = 1_200_000  # or worst_ms = 1.2 and at_mhz = 1000
    usual_cycles = 700_000    # what a job usually takes; for demands.csv and --report

    [[point]]
    mhz = 400
    volts = 1.0               # or milliwatts = 170 at each point

The files say their scale in their first lines. With --trace a run of them is checked, and its joules are
counted exactly, by the milliwatts of the speed in force.

All numbers are exact. What doesn't fit is rounded so that the set is never easier: periods and speeds down,
worst cases, voltages and the charge up.
"""

import argparse
from collections.abc import Iterator
from fractions import Fraction
from pathlib import Path

from rtdvs import _numbers, errors
from rtdvs.board import (
    Board, Design, OperatingTable, Scale, Spent, Units, board_fault, choose_scale, design, machine_of, machine_text,
    points_of, report, run_ticks, settle, unserved, usual_demands, write_design,
)
from rtdvs.cli import boards, options, plot
from rtdvs.plot import save_report
from rtdvs.trace import Trace


def add_command(commands: options.Commands) -> None:
    """Adds the command `design`.

    >>> commands = argparse.ArgumentParser().add_subparsers()
    >>> add_command(commands)
    >>> list(commands.choices)
    ['design']
    """
    parser = options.add_parser(commands, "design", _handle,
                        "files in ticks and work units from milliseconds, cycles and volts",
                        "design --board board.toml --folder drone\n"
                        "design --board board.toml --folder drone --trace drone.trace\n"
                        "design --device-tree examples/board.dts --table little --output machine.toml")
    parser.add_argument("--board", type=options.input_path, metavar="FILE", help="the description of a board")
    parser.add_argument("--folder", type=Path,
                        help="writes tasks.toml and machine.toml there; with --trace they are there")
    boards.add_scale(parser)
    parser.add_argument("--trace", type=options.input_path, metavar="FILE",
                        help="prints joules, mean power and battery hours of a run of the files in --folder")
    options.add_unchecked(parser)
    parser.add_argument("--report", action="store_true",
                        help="prints admission, responses, and power and hours of each pair")
    parser.add_argument("--picture", type=Path, metavar="FILE",
                        help="draws the responses and the power of each pair: .svg, .pdf or .png")
    parser.add_argument("--background", default="none", metavar="COLOUR", help="of the picture; none by default")
    parser.add_argument("--ms", type=options.exact_fraction, metavar="MS",
                        help="the time of the runs of --report, and of demands.csv")
    boards.add_tree(parser)
    group = parser.add_argument_group("the tick", "halves the tick until the energy of a run moves by at most 1 %")
    group.add_argument("--settle-ms", type=options.exact_fraction, metavar="MS", help="the time of each run")
    options.add_pair(parser, "edf", "cc")
    options.add_engine_options(parser)
    options.add_output(parser)


def _handle(args: argparse.Namespace) -> int:
    boards.check_above_0(args, "tick_ms", "unit_cycles", "settle_ms", "ms")
    if args.board is None and args.device_tree is None:
        raise board_fault("give --board or --device-tree")
    table = boards.table_of(args)
    if args.board is None:
        scale = Scale(args.tick_ms or Fraction(1), args.unit_cycles or Fraction(1000))
        machine, _ = machine_of(Board((), points_of(table.points)), scale)
        options.write_output(args, machine_text(machine, f"{table.name}: {scale.text()}", table.note()))
        return 0
    board = Board.parse(options.read_text(args.board, "board"), table.points)
    lines = _energy_lines(board, args) if args.trace is not None else _design_lines(board, table, args)
    if args.picture is not None and (status := plot.drawn(args, lambda args: _draw(board, args))):
        return status
    options.write_output(args, "".join(f"{line}\n" for line in lines))
    return 0


def _draw(board: Board, args: argparse.Namespace) -> None:
    made = design(board, choose_scale(board, args.tick_ms, args.unit_cycles))
    save_report(board, made, run_ticks(made, args.ms), args.picture, args.background)


def _design_lines(board: Board, table: OperatingTable, args: argparse.Namespace) -> Iterator[str]:
    scale = choose_scale(board, args.tick_ms, args.unit_cycles)
    made = design(board, scale)
    if args.settle_ms is not None:
        for made, joules in settle(board, scale, lambda made: _run(board, made, args).joules):
            time = _numbers.plain(Units(board, made).milliseconds(made.ticks_of(args.settle_ms)))
            yield f"tick {_numbers.plain(made.scale.tick)} ms: {_numbers.rounded(joules)} joules in {time} ms"
    yield made.scale.text()
    yield from (rounding.text() for rounding in made.roundings)
    ticks = run_ticks(made, args.ms)
    if args.report:
        yield from "\n".join(report(board, made, ticks)).splitlines()
    elif line := unserved(board, made):
        yield line
    if args.folder is not None:
        demands = usual_demands(board, made, ticks) if any(task.usual is not None for task in board.tasks) else None
        write_design(args.folder, made, table.note(), demands)
        if demands is not None:
            yield f"demands.csv is for {ticks} ticks, {_numbers.plain(Units(board, made).milliseconds(ticks))} ms"


def _run(board: Board, made: Design, args: argparse.Namespace) -> Spent:
    """What a run over the time of `--settle-ms` takes, in whole ticks of the design."""
    ticks = made.ticks_of(args.settle_ms)
    demands = usual_demands(board, made, ticks)
    trace = options.engine_of(args).run(made.tasks, made.machine, args.scheduler, args.governor, ticks, demands)
    return Units(board, made).spent(trace)


def _energy_lines(board: Board, args: argparse.Namespace) -> Iterator[str]:
    if args.folder is None:
        raise board_fault("--trace needs --folder, with the files that were run")
    made = boards.read_made(args, board)
    trace = Trace.parse(options.read_text(args.trace, "trace"))
    try:
        options.check_first(args, trace, made.tasks, made.machine)
    except errors.TraceFault as fault:
        raise board_fault(f"the trace is of no run of the files in {args.folder}: {fault}") from None
    yield from Units(board, made).lines(trace)
