"""The second line of a refusal: what is wrong in the user's own files and words, and what is right."""

import re
from collections.abc import Iterator, Mapping, Sequence
from itertools import chain

from rtdvs.errors import BadValue, FileRefused
from rtdvs.hints import facts, table
from rtdvs.hints.given import Given, Source, Word

OF_VALUES = {"task": "tasks: task 0", "point": "machine: point 0", "request": "requests: row 0"}
"""The beginning of a line for a task, a point or a request that is in no file."""


def second_line(refusal: Exception | str, words: Sequence[Word] = (), files: Mapping[str, Source] | None = None) -> str:
    r"""What to print below a refusal or the program's line: in plain words what is wrong, and what is right.

    `words` are those of the call, from the command on, as `Call.words` has them: paths are read again. `files` are
    texts, paths or values by their kind, such as `tasks`. It is empty for what explains itself.

    >>> from rtdvs.errors import Denied, FileRefused
    >>> second_line(FileRefused("tasks", "not TOML"), files={"tasks": "[[task]]\nname = t1\n"})
    "Line 2, column 8: this isn't a value: a text has quotes, a number only digits. The line is `name = t1`."
    >>> from rtdvs import Machine
    >>> second_line(Denied("edf", 1556, 1120), files={"machine": Machine.of([(2, 3000), (4, 5000)])}).split(". ")[0]
    'The tasks ask for 5.56 units a tick, and the highest speed is 4'
    >>> second_line("words: 3: bad value EDF", ["admit", "--scheduler", "EDF"])
    'The value of `--scheduler` is `edf` or `rm`. Here it is `EDF`.'
    """
    line = _line(refusal)
    given = Given.of(words, files)
    for row in chain.from_iterable(table.sections().values()):
        parts = row.match(line)
        if parts is not None:
            found = facts.Found(line, parts, given)
            return _placed(found, " ".join(_sentences(row, found)) or row.otherwise)
    return ""


def _line(refusal: Exception | str) -> str:
    """The first line of a refusal; one of a value is put into the form of its file."""
    line = str(refusal).split("\n")[0]
    if isinstance(refusal, FileRefused) and refusal.kind in OF_VALUES:
        return f"{OF_VALUES[refusal.kind]}: {refusal.reason}"
    if isinstance(refusal, BadValue) and re.fullmatch(r"bad name|(wrong kind of )?\w+( out of range)?", line):
        return f"tasks: task 0: {line}"
    return line


def _sentences(row: table.Row, found: facts.Found) -> Iterator[str]:
    """The sentences whose names are known."""
    for sentence in row.second:
        try:
            known = re.sub(r"<(\w+)>", lambda name: _known(name[1], found), sentence)
        except LookupError:
            continue
        yield known[0].upper() + known[1:]


def _known(name: str, found: facts.Found) -> str:
    """A part of the line, or what is looked up; LookupError if it isn't known."""
    text = found.parts.get(name) if name in found.parts else facts.FACTS[name](found)
    if text is None:
        raise LookupError(name)
    return text


def _placed(found: facts.Found, text: str) -> str:
    """The text after the number of its line, if a file was given by its path and has that line."""
    number = _number(found) if found.kind in ("tasks", "machine", "demands", "deadlines", "requests") else None
    return text if number is None or found.given.path(found.kind) is None else f"Line {number}: {text}"


def _number(found: facts.Found) -> int | None:
    if found.line.startswith("load: ") or found.line.endswith("not TOML"):
        return None
    if "row" in found.parts:
        record = found.record()
        return record[0] if record else None
    place = found.parts.get("place") or found.parts.get("second")
    if place:
        return found.given.line_of_entry(found.kind, int(place), found.parts.get("key") or found.key)
    key = found.parts.get("key") or found.key
    return found.given.line_of_key(found.kind, key) if key else None
