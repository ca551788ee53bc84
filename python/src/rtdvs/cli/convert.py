"""Traces for other tools: tables in CSV and in pandas, trace events for Chrome and Perfetto, waves for
GTKWave.

Times are exact decimals of ticks with six places, rounded half to even, and whole ticks without a point.
Energies are whole numbers. In events and waves a tick is a microsecond.

The trace is checked first, by --machine and, in version 1, by --tasks. It is read twice, in little memory.
"""

import argparse

from rtdvs.cli import options
from rtdvs.errors import BadValue
from rtdvs.export import event_lines, wave_lines
from rtdvs.trace import TABLES, csv_lines

WRITERS = {"chrome": event_lines, "vcd": wave_lines}


def add_command(commands: options.Commands) -> None:
    """Adds the command `convert`.

    >>> commands = argparse.ArgumentParser().add_subparsers()
    >>> add_command(commands)
    >>> commands.choices["convert"].parse_args(["--to", "vcd", "--trace", "a.trace"]).trace
    PosixPath('a.trace')
    """
    parser = options.add_parser(commands, "convert", _handle, "a trace as CSV, trace events or waves",
                        "convert --to csv --table jobs --trace paper.trace --machine machine.toml --output jobs.csv\n"
                        "convert --to vcd --trace paper.trace --machine machine.toml --output paper.vcd")
    parser.add_argument("--to", choices=("csv", *WRITERS), required=True,
                        help="a table, trace events in JSON (Perfetto), or a value change dump (GTKWave)")
    parser.add_argument("--table", choices=tuple(TABLES), help="the table for csv; segments by default")
    charge = "the machine's charge, which each declared worst case in jobs then has twice"
    options.add_number(parser, "--charge", charge, (0, None), metavar="UNITS")
    options.add_files(parser, ("trace",), ("tasks", "machine"))
    options.add_unchecked(parser)
    options.add_output(parser)


def _handle(args: argparse.Namespace) -> None:
    if args.to in WRITERS and (args.table or args.charge is not None):
        raise BadValue(f"--table and --charge are for csv only, and not for {args.to}")
    trace, charge = options.trace_file(args)
    if args.table == "jobs":
        options.note_charge(trace, charge)
    lines = WRITERS[args.to](trace) if args.to in WRITERS else csv_lines(trace, args.table or "segments", charge)
    options.write_output(args, lines)
