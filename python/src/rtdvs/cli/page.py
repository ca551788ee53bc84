"""Writes one or two traces of a task set, or a lesson, as a page for a browser, in one file that needs no network.

The page has a row for each task, zoom, and steps from decision to decision; a click on a mark opens the lines
of `explain` and the job's times. Two traces are drawn one below the other, with the place where they part.

All jobs, runs and decisions are in the file, compressed. Explanations are in it up to some mebibytes of text
for each trace; the page says where they end. A trace of a governor that isn't one of docs/RULES.md is checked
as by `explain --any`, and has no explanations.

With --board there are milliseconds beside ticks, MHz beside units a tick, thousands of cycles beside units, and in
place of energies joules, mean milliwatts and hours.

A lesson is a TOML file with examples, pairs and a text for each. The program makes all its runs, and the page has
menus for them. Its address names what is shown, as `#example=paper&pair=edf-cc&tick=4`, so the file can be put on
any web site, or be opened by itself, and links lead to a place in it.

The status is 1 if a trace is wrong; standard error then names its first wrong line.
"""

import argparse
import sys
from pathlib import Path

from rtdvs.cli import boards, options
from rtdvs.errors import BadValue, WrongTrace
from rtdvs.trace import Trace
from rtdvs.web import MOST_TEXT, Lesson, Shown, in_one_file, lesson_data, page_data


def _handle(args: argparse.Namespace) -> int:
    try:
        options.write_output(args, in_one_file(_traces_data(args) if args.lesson is None else _lesson_data(args)))
    except WrongTrace as fault:
        print(fault, file=sys.stderr)
        return 1
    return 0


def _traces_data(args: argparse.Namespace) -> dict[str, object]:
    traces: list[options.Input] = args.trace
    if not 1 <= len(traces) <= 2:
        raise BadValue(f"{len(traces)} traces, at most 2" if traces else "a trace or two, or --lesson")
    for kind in ("tasks", "machine"):
        if args.board is None and getattr(args, kind) is None:
            raise BadValue(f"a page of traces needs --{kind}")
    given = boards.read_given(args)
    assert given.tasks and given.machine
    labels = ("A", "B") if len(traces) == 2 else ("",)
    texts = {label: options.read_text(source, "trace") for label, source in zip(labels, traces, strict=True)}
    for text in texts.values():
        given.check(Trace.parse(text))
    return page_data(texts, Shown(given.tasks, given.machine, given.demands, args.most, units=given.units))


def _lesson_data(args: argparse.Namespace) -> dict[str, object]:
    kinds = ("tasks", "machine", "demands", "board", "folder", "device_tree", "tick_ms", "unit_cycles")
    others = ["a trace"] if args.trace else [f"--{kind.replace('_', '-')}" for kind in kinds
                                             if getattr(args, kind) is not None]
    if others:
        raise BadValue(f"--lesson names its files, so {others[0]} has no place beside it")
    return lesson_data(Lesson.read(args.lesson), options.engine_of(args))


def add_command(commands: options.Commands) -> None:
    """Adds the command `page`."""
    parser = options.add_parser(commands, "page", _handle, "write traces or a lesson as a page for a browser",
                        "page run.trace --tasks tasks.toml --machine machine.toml > page.html\n"
                        "page run.trace --board board.toml --folder made -o page.html\n"
                        "page --lesson examples/lesson/lesson.toml -o lesson.html")
    parser.add_argument("trace", type=options.input_path, nargs="*", metavar="TRACE",
                        help="the trace, or two of one task set; - is standard input")
    options.add_files(parser, (), ("tasks", "machine", "demands"))
    parser.add_argument("--lesson", type=Path, metavar="FILE", help="a lesson, in place of traces and their files")
    options.add_number(parser, "--most", f"the most mebibytes of explanations of a trace (default: {MOST_TEXT})",
                       (0, 256), default=MOST_TEXT, metavar="MIB")
    options.add_output(parser)
    options.add_engine_options(parser)
    boards.add_board(parser)
