"""Where a text isn't TOML, and why, in plain words."""

import re
import tomllib
from dataclasses import dataclass, replace

PLAIN = (
    (r"Cannot declare \('(\w+)',\) twice", "two `[{0}]`: write `[[{0}]]`, with two brackets, for each"),
    ("Cannot declare .* twice", "this table was declared before"),
    ("Cannot mutate immutable namespace|Cannot overwrite a value", "this key is given twice"),
    ("Expected newline or end of document after a statement",
     "the value ends before this: a number has no unit, no leading zero and one point"),
    ("Invalid value", "this isn't a value: a text has quotes, a number only digits"),
    ("Expected '=' after a key", "a key is followed by `=` and its value"),
    ("Invalid statement", "a line is a key with its value, or a heading such as `[[task]]`"),
    (r"Expected '\]+' at the end of", "the heading has fewer brackets at its end"),
    ("Unclosed", "a bracket isn't closed"),
    (r"Illegal character '\\n'|Unterminated string|Expected ['\"]+ ", "the quote isn't closed"),
    ("Illegal character|Found invalid character", "this character isn't allowed here"),
)


@dataclass(frozen=True, slots=True)
class Place:
    """A place in a text, from 1, and what is wrong there."""

    line: int
    column: int
    fault: str


def toml_fault(content: bytes) -> Place | None:
    r"""The first place of a text that isn't TOML; None if it is TOML.

    >>> toml_fault(b"[[task]]\nname = t1\n")
    Place(line=2, column=8, fault="this isn't a value: a text has quotes, a number only digits")
    >>> toml_fault(b"idle = 1\n") is None
    True
    """
    try:
        text = content.decode()
    except UnicodeDecodeError as fault:
        return _at(content[:fault.start].decode(errors="replace"), "this isn't UTF-8: save the file as UTF-8")
    bare = re.search("\r(?!\n)", text)
    if bare:
        return _at(text[:bare.start()], "a carriage return without a line feed")
    try:
        values = [*tomllib.loads(text).values()]
    except tomllib.TOMLDecodeError as fault:
        return _read(str(fault), text)
    except RecursionError:
        return Place(1, 1, "brackets are nested too deep")
    return _greatest(values, text)


def _greatest(values: list[object], text: str) -> Place | None:
    """The place of a number past 64 bits."""
    for value in values:  # those inside it are put at the end of the same list
        values += value.values() if isinstance(value, dict) else value if isinstance(value, list) else ()
        if type(value) is int and not -2**63 <= value < 2**63:
            before, found, _ = text.partition(str(value))
            return _at(before, f"{value} is past 64 bits") if found else Place(1, 1, f"{value} is past 64 bits")
    return None


def _at(before: str, fault: str) -> Place:
    """The place after a text."""
    return Place(before.count("\n") + 1, len(before) - before.rfind("\n"), fault)


def _read(message: str, text: str) -> Place:
    """The place of a message of tomllib, whose fault is put into plain words."""
    reason, line, column = re.fullmatch(r"(.*) \(at (?:line (\d+), column (\d+)|end of document)\)", message,
                                        re.DOTALL).groups()  # type: ignore[union-attr]
    place = _at(text.rstrip("\n"), reason) if line is None else Place(int(line), int(column), reason)
    if reason.startswith("Expected newline") and text.split("\n")[place.line - 1].lstrip().startswith("["):
        return replace(place, fault="the heading has fewer brackets at its beginning")
    plain = (said.format(*found.groups()) for pattern, said in PLAIN if (found := re.match(pattern, f"{reason} ")))
    return replace(place, fault=next(plain, reason))
