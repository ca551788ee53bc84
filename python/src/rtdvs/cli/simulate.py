"""Simulates a run in Python, apart from the program.

The command has the program's schedulers and governors; `rtdvs.rules.simulate` takes any function. The trace
is drawn, compared and checked as any other. It is that of `run`, by default in version 1 as there.

With --missed the set needn't be admitted. Standard error then has a note for each missed deadline.
"""

import argparse
import sys

from rtdvs.cli.options import Commands, add_files, add_pair, add_parser, add_ticks, read_files
from rtdvs.rules import simulate
from rtdvs.trace import Missed


def _handle(args: argparse.Namespace) -> None:
    tasks, machine, demands = read_files(args)
    trace = simulate(tasks, machine, args.scheduler, args.ticks, args.governor, demands,
                     admitted=args.missed is None, missed=args.missed)
    print((trace if args.format == 2 else trace.first_version()).text(), end="", flush=True)
    if args.missed is not None:
        print("\n".join(["note: not a run of the program", *(f"note: {miss.text()}" for miss in trace.misses())]),
              file=sys.stderr)


def add_command(commands: Commands) -> None:
    """Adds the command `simulate`.

    >>> parser = argparse.ArgumentParser()
    >>> add_command(parser.add_subparsers())
    >>> files = "--tasks t.toml --machine m.toml"
    >>> parser.parse_args(f"simulate {files} --scheduler edf --governor cc --ticks 16".split()).ticks
    16
    """
    parser = add_parser(commands, "simulate", _handle, "simulate a run under a governor in Python",
                        "simulate --tasks tasks.toml --machine machine.toml --scheduler edf --governor cc "
                        "--ticks 16")
    add_files(parser, ("tasks", "machine"), ("demands",))
    add_pair(parser)
    add_ticks(parser)
    parser.add_argument("--format", type=int, choices=(1, 2), default=1,
                        help="the version of the trace: 2 has the tasks too (default: 1)")
    parser.add_argument("--missed", choices=[*map(str, Missed)],
                        help="takes a set that isn't admitted; a job that misses its deadline goes on or is dropped, "
                             "or the run stops there")
