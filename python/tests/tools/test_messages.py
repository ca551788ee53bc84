"""The tables of docs/MESSAGES.md are those of rtdvs.hints, and have every line that is stored."""

import re

import pytest

from rtdvs.hints import Row, second_line, sections
from rtdvs.hints.facts import FACTS
from tests.shared.examples import TOP
from tools.messages import PAGE, SECTION, with_tables

STORED = (TOP / "crates" / "stored_calls" / "stdout").read_text(encoding="utf-8", errors="replace")
LINES = sorted({line for line, after in re.findall(r"^!(.*)\n(?=(.*))", STORED, re.MULTILINE)
                if after != "no line feed" and not line.startswith(("probe ", "wanted: ", "found: "))})
"""The lines on standard error of all stored calls, but those that a failed write cut."""


def test_page_is_made_of_the_table() -> None:
    """`python3 -m tools.messages` in python makes it."""
    page = PAGE.read_text(encoding="utf-8")
    assert with_tables(page) == page
    assert {found["heading"] for found in SECTION.finditer(page)} == {*sections()}


def test_a_changed_table_is_seen() -> None:
    page = PAGE.read_text(encoding="utf-8")
    changed = page.replace("Jobs count from 1.", "Jobs count from 0.")
    assert changed != page == with_tables(changed)


@pytest.mark.parametrize("line", LINES)
def test_stored_lines_have_a_second_one(line: str) -> None:
    assert re.fullmatch(r"[^\n]+\.", second_line(line))


@pytest.mark.parametrize("row", [pytest.param(row, id=row.lines[0]) for rows in sections().values() for row in rows])
def test_names_are_known(row: Row) -> None:
    """What a second line looks up is a part of each of its lines, or a fact."""
    for line in row.lines:
        parts = {*re.findall(r"<(\w+)>", line)}
        for sentence in row.second:
            assert {*re.findall(r"<(\w+)>", sentence)} <= parts | FACTS.keys()
