"""The energies of the worked example of Pillai and Shin (2001), as shares of EDF with `none`.

A row has ticks k times finer: periods, worst cases, demands and the ticks of the run times k, at the same
speeds. The last row is the paper's own.
"""

import argparse

from rtdvs.cli import options
from rtdvs.studies import FINER, paper_lines, paper_shares


def add_command(commands: options.Commands) -> None:
    """Adds the command `paper-table`.

    >>> commands = argparse.ArgumentParser().add_subparsers()
    >>> add_command(commands)
    >>> list(commands.choices)
    ['paper-table']
    """
    parser = options.add_parser(commands, "paper-table", _handle,
                        "the energies of the example of Pillai and Shin, in finer ticks too",
                        "paper-table --finer 3 30")
    options.add_number(parser, "--finer", "a row for each; 1, 3, 10 and 100 unless given", nargs="+", default=FINER,
                       metavar="K")
    options.add_engine_options(parser, jobs=True)


def _handle(args: argparse.Namespace) -> None:
    engine = options.engine_of(args)
    with options.executor_of(args) as executor:
        rows = [(times, paper_shares(engine, times, executor))
                for times in options.progress(args.finer, len(args.finer), "rows")]
    print("\n".join(paper_lines(rows)))
