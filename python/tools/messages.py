"""The tables of docs/MESSAGES.md, of the lines in rtdvs.hints: python3 -m tools.messages

What is between the tables is written in the page itself.
"""

import re
from collections.abc import Iterator
from pathlib import Path

from rtdvs._files import write_whole
from rtdvs.hints import Row, sections

PAGE = Path(__file__).parents[2] / "docs" / "MESSAGES.md"
HEADING = ("Line", "When", "Second line", "Also")
SECTION = re.compile(r"(?P<before>^#+ (?P<heading>.*)\n(?:(?!#|\|).*\n)*)(?P<table>(?:\|.*\n)+)", re.MULTILINE)


def italic(text: str) -> str:
    """A text in which a name that is filled in is in italics, but for those in code.

    >>> italic("`<name>` is <rule>.")
    '`<name>` is *rule*.'
    """
    parts = text.split("`")
    return "`".join([re.sub(r"<(\w+)>", r"*\1*", part) if place % 2 == 0 else part for place, part in enumerate(parts)])


def cells(row: Row) -> tuple[str, str, str, str]:
    """What the page has of a row.

    >>> cells(Row(("no memory",), "Memory ran out.", ("It is full.", "Free some."), "Also this."))
    ('`no memory`', 'Memory ran out.', 'It is full. Free some.', 'Also this.')
    """
    return ", ".join(f"`{line}`" for line in row.lines), row.when, italic(" ".join(row.second)), row.more


def table(rows: tuple[Row, ...]) -> Iterator[str]:
    """The lines of a section's table."""
    for line in (HEADING, ("---",) * len(HEADING), *map(cells, rows)):
        yield "|" + "".join(f" {cell} |" if cell and cell != "---" else f"{cell or ' '}|" for cell in line) + "\n"


def with_tables(page: str) -> str:
    """The page with the table of each section, in place of the one that is there."""
    def renewed(found: re.Match[str]) -> str:
        rows = sections().get(found["heading"])
        return found[0] if rows is None else found["before"] + "".join(table(rows))

    return SECTION.sub(renewed, page)


def write(path: Path) -> None:
    """Writes the page with its tables as they are now; raises OSError."""
    write_whole(path, with_tables(PAGE.read_text(encoding="utf-8")))


if __name__ == "__main__":
    write(PAGE)
