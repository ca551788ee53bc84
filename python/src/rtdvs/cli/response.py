"""Response times under RM of a board: the longest of each task at the highest speed, in milliseconds and in ticks.

    response_ms  from a release to the completion, with all jobs at their worst cases
    ticks        the same in ticks, as the program answers it
    period_ms    the deadline
    laxity_ms    what is left of it

With --tasks and --machine it is the program's `response`, which answers in ticks.
"""

import argparse

from rtdvs._numbers import aligned, rounded
from rtdvs.cli import boards, options


def add_command(commands: options.Commands) -> None:
    """Adds the command `response`, which is the package's only with `--board`.

    >>> commands = argparse.ArgumentParser().add_subparsers()
    >>> add_command(commands)
    >>> list(commands.choices)
    ['response']
    """
    parser = options.add_parser(commands, "response", _handle, "print a board's response times under RM, in ms",
                        "response --board board.toml --folder made")
    options.add_files(parser, (), ("tasks", "machine"))
    options.add_engine_options(parser)
    boards.add_board(parser)


def _handle(args: argparse.Namespace) -> None:
    given = boards.read_given(args)
    assert given.units
    made = given.units.made
    print(response_table(options.engine_of(args).respond(made.tasks, made.machine), given.units), end="")


def response_table(responses: dict[str, int], units: "boards.Units") -> str:
    """The responses, which are in ticks, in a board's milliseconds.

    >>> from fractions import Fraction
    >>> from rtdvs.board import Board, Scale, Units, design
    >>> board = Board.parse('''
    ... task = [{name = "a", period_ms = 2, worst_cycles = 4000}]
    ... point = [{mhz = 4, volts = 1}]''')
    >>> units = Units(board, design(board, Scale(Fraction(1, 2), Fraction(1000))))
    >>> print(response_table({"a": 2}, units), end="")
    task  response_ms  ticks  period_ms  laxity_ms
    a               1      2          2          1
    """
    rows = [("task", "response_ms", "ticks", "period_ms", "laxity_ms")]
    for task in units.made.tasks:
        ticks = responses[task.name]
        left = [units.milliseconds(time) for time in (ticks, task.period, task.period - ticks)]
        response, period, laxity = map(rounded, left)
        rows.append((task.name, response, str(ticks), period, laxity))
    return aligned(rows)
