"""The evaluation of Pillai and Shin (2001) with random sets: energy over utilisation, in tables.

A sweep runs each set under each pair of scheduler and governor, on the machines and for the demands of the
figures, and writes a table for each figure of docs/EVALUATION.md into the folder, of all results there. It
leaves a file for each set, so a sweep that was stopped goes on when the call is made again. A file that was
changed, or isn't whole, is named and made again. The last line counts what is wrong: a file of another set,
an energy below the bound or above EDF with none.

With --machine, or with other numbers of tasks, the one figure is own.tsv; the sets are then in proportion to each
machine's highest speed. --governor and --traces add curves under --scheduler, EDF unless given. A folder of --traces
has MACHINE/COUNT_TENTHS_NUMBER.trace for each set; for those that are missing the task file is written there.
"""

import argparse
import sys
from pathlib import Path

from rtdvs import _files, errors, studies
from rtdvs.cli import options
from rtdvs.model import MOST_TASKS, Machine


def add_command(commands: options.Commands) -> None:
    """Adds the command `evaluate`.

    >>> commands = argparse.ArgumentParser().add_subparsers()
    >>> add_command(commands)
    >>> list(commands.choices)
    ['evaluate']
    """
    parser = options.add_parser(commands, "evaluate", _handle, "energy over utilisation, of random sets",
                        "evaluate --folder sweep --jobs 4 --counts 5 --utilisations 0.1 0.2\n"
                        "evaluate --folder mine --counts 6 12 --machine board.toml --governor mine.py:careful")
    parser.add_argument("--folder", type=Path, required=True, help="where results and tables are kept")
    options.add_number(parser, "--sets", "for each number of tasks and each utilisation; 100 unless given", (1, 999),
                       default=100)
    parser.add_argument("--draws", choices=list(studies.DRAWS), default="published", help="published unless given")
    options.add_number(parser, "--counts", "the numbers of tasks; 5, 8, 10 and 15 unless given", (1, MOST_TASKS),
                       nargs="+", default=studies.PUBLISHED_COUNTS)
    parser.add_argument("--utilisations", type=tenth, nargs="+", default=studies.TENTHS, metavar="U",
                        help="tenths from 0.1 to 1; all unless given")
    parser.add_argument("--machine", type=Path, nargs="+", default=[], metavar="FILE", help="machine files of your own")
    parser.add_argument("--scheduler", choices=options.SCHEDULERS, default="edf",
                        help="that of the next two; edf unless given")
    parser.add_argument("--governor", nargs="+", default=[], metavar="FILE.py:NAME",
                        help="functions of files of Python, as for rtdvs.simulate")
    parser.add_argument("--traces", type=Path, nargs="+", default=[], metavar="FOLDER",
                        help="traces by other simulators")
    options.add_engine_options(parser, jobs=True)


def tenth(word: str) -> int:
    """For argparse's `type`: a utilisation from 0.1 to 1.0, in tenths.

    >>> tenth("0.7"), tenth("1")
    (7, 10)
    """
    tenths = options.exact_fraction(word) * 10
    if tenths not in studies.TENTHS:
        raise argparse.ArgumentTypeError(f"a utilisation is 0.1, 0.2 .. or 1, not {word}")
    return int(tenths)


def own_of(args: argparse.Namespace) -> studies.Own:
    """The machines, governors and traces of the options; raises BadValue, Refused and OSError.

    >>> words = {"machine": [], "scheduler": "edf", "governor": ["mine.py"], "traces": []}
    >>> own_of(argparse.Namespace(**words))
    Traceback (most recent call last):
    rtdvs.errors.BadValue: a governor is FILE.py:NAME, not mine.py
    """
    machines = {path.stem: Machine.read(path) for path in args.machine}
    if len(machines) < len(args.machine):
        raise errors.BadValue("two machine files of one name")
    governors = tuple(map(studies.OwnGovernor.parse, args.governor))
    for governor in governors:
        governor.chooser()
    return studies.Own(machines, args.scheduler, governors, tuple(map(studies.OwnTraces, args.traces)))


def _handle(args: argparse.Namespace) -> int:
    sweep = studies.Sweep(args.draws, args.sets, counts=args.counts, tenths=args.utilisations, own=own_of(args))
    if missing := sweep.missing():
        others = f", and {len(missing) - 1} more; the task file of each" if missing[1:] else "; its task file"
        runs = f"runs of {studies.PUBLISHED_TICKS} ticks under {args.scheduler}"
        raise errors.BadValue(f"{missing[0]} is missing{others} is there: {runs}")
    total = len(set(args.counts)) * len(set(args.utilisations)) * args.sets
    for line in studies.broken(args.folder, sweep):
        print(f"{line}; it is made again if the sweep has it", file=sys.stderr)
    with options.processes_of(args) as executor:
        made = studies.evaluate(options.engine_of(args), args.folder, sweep, executor)
        for _ in options.progress(made, total, "sets"):
            pass
    records = studies.read_records(args.folder, studies.finished(args.folder, sweep), sweep)
    found = studies.shares(records)
    for figure, panels in sweep.figures().items():
        _files.write_whole(args.folder / f"{figure}.tsv", studies.figure_table(panels, found, sweep.curves()))
    wrong = [*studies.broken(args.folder, sweep), *studies.faults(records, sweep)]
    print(*wrong, studies.summary(records, wrong), sep="\n")
    return 2 if wrong else 0
