"""How far a task set is from the limit of a test: how worst cases can grow, how slow a machine can be.

The command prints what is now, and the limit:

    all worst cases  the most thousandths that they can be multiplied by, each product rounded up
    a task's name    the most work units that its worst case can be
    highest speed    the lowest that is enough, in work units a tick

Each limit leaves the rest as it is; a dash says that no number is enough. A set that is denied has limits
below its own numbers.

With --board the limits are in cycles, milliseconds and MHz.
"""

import argparse
from fractions import Fraction

from rtdvs._numbers import aligned, plain, rounded
from rtdvs.cli import boards, options
from rtdvs.studies import TESTS, Limits, Question, limits_of, limits_table


def add_command(commands: options.Commands) -> None:
    """Adds the command `sensitivity`.

    >>> commands = argparse.ArgumentParser().add_subparsers()
    >>> add_command(commands)
    >>> list(commands.choices)
    ['sensitivity']
    """
    parser = options.add_parser(commands, "sensitivity", _handle, "how far a set is from the limit of a test",
                        "sensitivity --tasks tasks.toml --machine machine.toml --test response")
    options.add_files(parser, ["tasks", "machine"])
    parser.add_argument("--test", choices=TESTS, default=TESTS[0],
                        help="edf or rm: the test of admit; response: the exact one under RM (default: edf)")
    options.add_engine_options(parser, jobs=True)
    boards.add_board(parser)


def _handle(args: argparse.Namespace) -> None:
    engine, given = options.engine_of(args), boards.read_given(args)
    assert given.tasks and given.machine
    question = Question(engine, given.tasks, given.machine, args.test)
    with options.executor_of(args) as executor:
        found = limits_of(question, executor)
        thousandths, speed, *worsts = options.progress(found, len(question.tasks) + 2, "limits")
    limits = Limits(thousandths, tuple(worsts), speed)
    text = limits_table(question, limits) if given.units is None else board_limits(question, limits, given.units)
    print(text, end="")


def board_limits(question: Question, limits: Limits, units: "boards.Units") -> str:
    """The limits in a board's units; `-` for None.

    >>> from rtdvs.board import Board, Scale, Units, design
    >>> board = Board.parse('''
    ... task = [{name = "a", period_ms = 2, worst_cycles = 4000}]
    ... point = [{mhz = 4, volts = 1}]''')
    >>> made = design(board, Scale(Fraction(1, 2), Fraction(1000)))
    >>> question = Question(None, made.tasks, made.machine, "edf")
    >>> print(board_limits(question, Limits(2000, (8,), 1), Units(board, made)), end="")
                              is  limit
    all worst cases, times     1      2
    task a, cycles          4000   8000
    task a, ms at 4 MHz        1      2
    highest speed, MHz         4      2
    """
    top = units.megahertz(question.machine.top_speed)
    times = None if limits.thousandths is None else Fraction(limits.thousandths, 1000)
    rows = [("", "is", "limit"), ("all worst cases, times", "1", _text(times))]
    for task, most in zip(question.tasks, limits.worsts, strict=True):
        is_now, limit = units.cycles(task.worst), None if most is None else units.cycles(most)
        rows.append((f"task {task.name}, cycles", _text(is_now), _text(limit)))
        rows.append((f"task {task.name}, ms at {plain(top)} MHz", _text(is_now / top / 1000),
                     _text(None if limit is None else limit / top / 1000)))
    speed = None if limits.speed is None else units.megahertz(limits.speed)
    return aligned([*rows, ("highest speed, MHz", _text(top), _text(speed))])


def _text(number: Fraction | None) -> str:
    return plain(number) if number is not None and number.denominator == 1 else rounded(number)
