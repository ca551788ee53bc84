"""The program's lines for files, and the calls that read them."""

from collections.abc import Callable, Iterable, Iterator

from rtdvs.engine import Call, Engine, admit_call, constrain_call, least_call, poll_call, run_call
from rtdvs.errors import Refused
from tests.shared.examples import entry

POINT = entry("point")
TASKS = entry() + "\n" + entry(name='"b_2"', period="6", worst="3", offset="1")
MACHINE = f"idle = 100\ncharge = 0\n\n{POINT}\n" + entry("point", speed="3", millivolts="4000")

RIGHT_TASKS, RIGHT_MACHINE = TASKS.encode(), MACHINE.encode()
CALLS: dict[str, Callable[[bytes], Call[object]]] = {
    "tasks": lambda text: admit_call(text, RIGHT_MACHINE, "edf"),
    "machine": lambda text: least_call(text, 3, 2),
    "demands": lambda text: run_call(RIGHT_TASKS, RIGHT_MACHINE, "edf", "cc", 24, demands=text),
    "deadlines": lambda text: constrain_call(RIGHT_TASKS.removesuffix(b"offset = 1\n"), RIGHT_MACHINE, text),
    "requests": lambda text: poll_call(RIGHT_TASKS, RIGHT_MACHINE, text, "a", "edf", "none", 24),
}
"""A call that reads a file of each kind, whose other files are right."""


def program_lines(engine: Engine, calls: Iterable[Call[object]]) -> Iterator[str | None]:
    """The line of each call whose file is refused, or has a demand over its worst case; None for others."""
    for answer in engine.answers(calls):
        yield answer.notes.decode().rstrip("\n") if answer.status in (4, 6) else None


def line_of(make: Callable[[], object]) -> str | None:
    """The line of a value that is refused, None if it is made."""
    try:
        make()
    except Refused as refused:
        return str(refused)
    return None
