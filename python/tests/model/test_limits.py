"""The limits are those of the program's sources."""

import re

import pytest

from rtdvs.model import limits
from tests.shared.examples import TOP

NAMES = {"LONGEST_PERIOD": "LONGEST_TIME", "LATEST_OFFSET": "LONGEST_TIME", "TOP_SPEED": "MOST_SPEED",
         "MOST_REQUEST_UNITS": "MOST_WORK"}
"""Those that have another name in Python."""
CONSTANT = re.compile(r"^pub const ((?:MOST|LONGEST|LATEST|TOP)_\w+): \w+ = ([\d_]+)(?: << (\d+))?;", re.MULTILINE)
CONSTANTS = [
    pytest.param(name, int(number) << int(power or 0), id=name)
    for path in sorted(TOP.glob("crates/*/src/limits.rt")) for name, number, power in CONSTANT.findall(path.read_text())]


@pytest.mark.parametrize(("name", "value"), CONSTANTS)
def test_a_limit(name: str, value: int) -> None:
    assert getattr(limits, NAMES.get(name, name)) == value


def test_all_limits() -> None:
    """The sources have a constant for each; the length of a line is that of a line with its feed, less 1."""
    found = {NAMES.get(str(each.values[0]), each.values[0]) for each in CONSTANTS}
    assert {name for name in vars(limits) if name.startswith(("MOST", "LONGEST"))} == {*found, "LONGEST_LINE"}
    assert (limits.GREATEST, limits.LONGEST_LINE) == (18446744073709551615, 255)
