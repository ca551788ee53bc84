"""The program's command line: each command with its options, and what the value of each option has to be."""

from dataclasses import dataclass

from rtdvs.model import GREATEST, MOST_TICKS

FLAGS = ("--probes",)
"""The options that take no value."""


@dataclass(frozen=True, slots=True)
class Usage:
    """The options of a command: those that it needs, in the order in which the first missing one is named, and others.

    >>> COMMANDS["run"].optional
    ('--demands', '--probes', '--format')
    """

    required: tuple[str, ...]
    optional: tuple[str, ...] = ()

    @property
    def options(self) -> tuple[str, ...]:
        """All options.

        >>> COMMANDS["workload"].options
        ('--seed',)
        """
        return self.required + self.optional


_SET = ("--tasks", "--machine")
COMMANDS = {
    "run": Usage((*_SET, "--scheduler", "--governor", "--ticks"), ("--demands", "--probes", "--format")),
    "admit": Usage((*_SET, "--scheduler")),
    "response": Usage(_SET),
    "constrain": Usage((*_SET, "--deadlines")),
    "poll": Usage((*_SET, "--requests", "--server", "--scheduler", "--governor", "--ticks")),
    "replay": Usage((*_SET, "--trace")),
    "migrate": Usage((*_SET, "--trace")),
    "workload": Usage(("--seed",)),
    "least": Usage(("--machine", "--units", "--ticks")),
}
"""The nine commands, in README's order."""

FILES = ("tasks", "machine", "demands", "deadlines", "requests", "trace")
FILE_OPTIONS = tuple(f"--{kind}" for kind in FILES)
"""The kinds of files, and the option that names a file of each."""

VALUES = {
    **dict.fromkeys(FILE_OPTIONS, "the name of a file"),
    "--scheduler": "`edf` or `rm`",
    "--governor": "`none`, `static`, `cc` or `la`",
    "--ticks": f"a whole number from 1 to {MOST_TICKS}, in digits only",
    "--units": f"a whole number from 0 to {GREATEST}, in digits only",
    "--seed": f"a whole number from 0 to {GREATEST}, in digits only",
    "--server": "the name of a task",
    "--format": "`1` or `2`",
}
"""What the value of an option is."""
