"""Serves the page of a trace with an editor, for a browser on this machine.

Each change of the tasks, the machine, the demands or the run calls the program, and the schedule is drawn
again. What the program refuses is shown at the field, in its words. The address carries the whole example.

It listens on 127.0.0.1 only, and answers only requests for that host and from its own pages. A run has at
most 10,000 jobs; 4 calls are made at a time, each for at most 10 seconds, and a newer call of a page ends the
older one. A request has to come whole within 5 seconds. What the program or the server does wrong is printed on
standard error, a line for each. Ctrl and C end it.
"""

import argparse
from dataclasses import replace

from rtdvs.cli.options import Commands, add_engine_options, add_number, add_parser, engine_of
from rtdvs.engine import TryEngine
from rtdvs.web import LONGEST_CALL, LONGEST_TRY, PORT, PageServer


def _handle(args: argparse.Namespace) -> None:
    args.timeout = args.timeout or LONGEST_CALL
    engine = engine_of(args)
    if isinstance(engine, TryEngine):
        engine = replace(engine, timeout=LONGEST_TRY)
    with PageServer(args.port, engine) as server:
        print(f"{server.address} for browsers on this machine only; Ctrl and C end it", flush=True)
        server.serve_forever()


def add_command(commands: Commands) -> None:
    """Adds the command `serve`."""
    parser = add_parser(commands, "serve", _handle, "serve a page with an editor for a browser on this machine",
                        "serve --port 8080")
    add_number(parser, "--port", f"the port of 127.0.0.1; 0 is a free one (default: {PORT})", (0, 65535), default=PORT)
    add_engine_options(parser)
