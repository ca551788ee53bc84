"""The rows of messages.toml: the program's lines, each with when it comes, what its second line says, and more causes.

docs/MESSAGES.md is made of them by tools/messages.py, and second_line fills in what is known.
"""

import re
import tomllib
from dataclasses import dataclass
from functools import cache
from pathlib import Path

from rtdvs import model

NUMBER, WORD = r"\d+", r"[^ ]*"
PARTS = {"word": ".*", "key": ".*", "option": "--[a-z]+", "task": WORD, "field": WORD, "line": ".*"}
"""What a name in angle brackets is in a line; any other is a number."""


@dataclass(frozen=True, slots=True)
class Row:
    """Lines of one cause. Names in angle brackets are parts of a line, in `second` also what is looked up.

    Of `second` the sentences are printed whose names are known, or `otherwise` without any. `more` is only for readers.

    >>> Row(("denied units <num> <cap>",), "", ("<num> units.",)).match("denied units 65 64")
    {'num': '65', 'cap': '64'}
    """

    lines: tuple[str, ...]
    when: str
    second: tuple[str, ...]
    more: str = ""
    otherwise: str = ""

    def match(self, line: str) -> dict[str, str] | None:
        """The parts of a line by their names; None if it isn't a line of this row."""
        found = (_pattern(each).fullmatch(line) for each in self.lines)
        return next((match.groupdict() for match in found if match), None)


@cache
def _pattern(line: str) -> re.Pattern[str]:
    """The pattern of a line with its parts; compiled for the first refusal, since most commands have none."""
    parts = re.split(r"<(\w+)>", line)
    named = (f"(?P<{name}>{PARTS.get(name, NUMBER)})" for name in parts[1::2])
    whole = "".join(re.escape(text) + part for text, part in zip(parts[::2], [*named, ""], strict=True))
    return re.compile(whole, re.DOTALL)


@cache
def sections() -> dict[str, tuple[Row, ...]]:
    """The rows below each heading of MESSAGES.md; read for the first refusal, since most commands have none.

    >>> sections()["1: denied"][0].lines
    ('denied edf <num> <cap>',)
    """
    text = Path(__file__).with_name("messages.toml").read_text(encoding="utf-8")
    return {heading: tuple(Row(tuple(row.pop("lines")), second=tuple(row.pop("second")), **row) for row in rows)
            for heading, rows in tomllib.loads(text.format_map(vars(model))).items()}
