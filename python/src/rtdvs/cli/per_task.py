"""Statistics of a trace: a line for each task.

    task               its name
    jobs, complete     the jobs that were released, and those that were complete within the run
    missed             those that weren't complete at a deadline within the run
    mean_response      from a job's release to its completion, over the complete jobs, in ticks
    greatest_response  the greatest of these
    jitter             the greatest response less the least one
    least_laxity       the least time from a completion to its deadline, in ticks
    preemptions        how often a job was interrupted by another one
    energy             of all its runs

The trace is checked first, by the machine. It is read twice, in little memory.

With --board the times are in milliseconds, and the energy in joules, with the mean milliwatts of the whole run; below
are those of all tasks and of idle time.
"""

import argparse

from rtdvs._numbers import aligned
from rtdvs.cli import boards, options
from rtdvs.trace import COLUMNS, Trace, task_statistics


def _handle(args: argparse.Namespace) -> None:
    given = boards.read_given(args)
    if (units := given.units) is None:
        file, _ = options.trace_file(args)
        assert given.tasks
        print(aligned([COLUMNS, *(each.row() for each in task_statistics(file, given.tasks))]), end="")
        return
    trace = Trace.parse(options.read_text(args.trace, "trace"))
    units.check(trace)
    options.check_first(args, trace, given.tasks, given.machine)
    print(aligned(units.table(trace)), end="")
    print("\n".join(["", *units.lines(trace)] if not units.no_power() else ["", f"no power: {units.no_power()}"]))


def add_command(commands: options.Commands) -> None:
    """Adds the command `statistics`.

    >>> commands = argparse.ArgumentParser().add_subparsers()
    >>> add_command(commands)
    >>> list(commands.choices)
    ['statistics']
    """
    parser = options.add_parser(commands, "statistics", _handle, "print times, preemptions and energy of each task",
                        "statistics --tasks tasks.toml --machine machine.toml --trace run.trace\n"
                        "statistics --board board.toml --folder made --trace run.trace")
    options.add_files(parser, ("tasks", "trace"), ("machine",))
    options.add_unchecked(parser)
    boards.add_board(parser)
