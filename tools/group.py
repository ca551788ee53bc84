#!/usr/bin/env python3
"""Runs a command in a group of processes of its own, and leaves none of them running: python3 tools/group.py COMMAND..

The status is the command's. A signal that ends this script interrupts the group, which has ten seconds to end by itself.
A command of the group that is this script again has half of them, so that it ends before it is killed.
"""
import contextlib
import os
import signal
import subprocess
import sys
from types import FrameType

SECONDS = "RTDVS_GROUP_SECONDS"
PATIENCE = float(os.environ.get(SECONDS, 10))
"""Seconds that an interrupted group has."""
ENDING = (signal.SIGHUP, signal.SIGINT, signal.SIGQUIT, signal.SIGTERM)


def leave(number: int, _frame: FrameType | None) -> None:
    """Ends this script by the status of a program that the signal ended."""
    sys.exit(128 + number)


def end(child: subprocess.Popen[bytes]) -> None:
    """Interrupts what runs of the group, and kills what goes on."""
    for number, seconds in ((signal.SIGINT, PATIENCE), (signal.SIGKILL, PATIENCE)):
        with contextlib.suppress(ProcessLookupError):
            os.killpg(child.pid, number)
        with contextlib.suppress(subprocess.TimeoutExpired):
            child.wait(seconds)


def main() -> int:
    """The command's status."""
    for number in ENDING:
        signal.signal(number, leave)
    child = subprocess.Popen(sys.argv[1:], process_group=0, env=os.environ | {SECONDS: str(PATIENCE / 2)})
    try:
        return child.wait()
    finally:
        for number in ENDING:
            signal.signal(number, signal.SIG_IGN)
        end(child)


if __name__ == "__main__":
    sys.exit(main())
