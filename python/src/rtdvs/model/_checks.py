"""What values have to be: whole numbers in their ranges, names, and tables of these."""

import re
from collections.abc import Callable, Container, Iterable, Iterator, Mapping
from dataclasses import MISSING, dataclass, fields
from functools import partial
from numbers import Integral
from typing import TYPE_CHECKING, Any, TypeVar

from rtdvs.errors import ENTRIES, NAME, BadValue, FileRefused, Refused
from rtdvs.model.limits import GREATEST, RANGES

if TYPE_CHECKING:
    from rtdvs.model.demands import Request
    from rtdvs.model.machine import Point
    from rtdvs.model.tasks import Task

Kind = TypeVar("Kind")
Entry = TypeVar("Entry", "Task", "Point", "Request")
Fault = Callable[[str], Refused]
"""Makes the exception of a reason."""
is_name = re.compile(NAME).fullmatch


def whole(value: object) -> int | None:
    """The value as an int, None if it isn't a whole number. True isn't one; an integer of numpy is.

    >>> whole(8), whole(8.0), whole(True)
    (8, None, None)
    """
    if type(value) is int:  # most are, and the next question takes time
        return value
    return int(value) if isinstance(value, Integral) and not isinstance(value, bool) else None


def checked_number(key: str, value: object, fault: Fault = BadValue) -> int:
    """A number in the range of its key, as an int; raises BadValue, or what `fault` makes of the reason.

    >>> checked_number("ticks", 16)
    16
    >>> checked_number("ticks", 0)
    Traceback (most recent call last):
    rtdvs.errors.BadValue: ticks out of range
    """
    found = whole(value)
    if found is None:
        raise fault(f"missing {key}" if value is MISSING else f"wrong kind of {key}")
    least, most = RANGES[key]
    if not least <= found <= most:
        raise fault(f"{key} out of range")
    return found


def checked_name(value: object, fault: Fault = BadValue) -> str:
    """A name of 1 to 32 letters, digits, `_` and `-`; raises BadValue, or what `fault` makes of the reason.

    >>> checked_name("t 1")
    Traceback (most recent call last):
    rtdvs.errors.BadValue: bad name
    """
    if not isinstance(value, str):
        raise fault("missing name" if value is MISSING else "wrong kind of name")
    if not is_name(value):
        raise fault("bad name")
    return value


def checked_count(column: str, value: object, fault: Fault) -> int:
    """A number from 0 to 2^64 - 1, as an int; raises what `fault` makes of the reason."""
    found = whole(value)
    if found is None or not 0 <= found <= GREATEST:
        raise fault(f"bad {column}")
    return found


def checked_task(value: object, known: Container[str] | None, fault: Fault) -> str:
    """The name of a task that is known, or any name if none is; raises what `fault` makes of the reason."""
    if isinstance(value, str) and (is_name(value) if known is None else value in known):
        return value
    raise fault(f"unknown task {shown(str(value).encode(errors='replace'))}")


def check_fields(record: Any, kind: str) -> None:
    """Checks each field of a frozen dataclass, a name or a number, and makes each number an int."""
    fault = partial(FileRefused, kind)
    for field in fields(record):
        value = getattr(record, field.name)
        checked = checked_name(value, fault) if field.name == "name" else checked_number(field.name, value, fault)
        object.__setattr__(record, field.name, checked)


def entries(kind: str, found: Iterable[object], of: type[Kind], most: int, least: int = 1) -> Iterator[Kind]:
    """The entries of a file or of a sequence, one after the other, each of that type; raises FileRefused."""
    word = ENTRIES[kind]
    if not isinstance(found, Iterable):
        raise FileRefused(kind, f"wrong kind of {word}")
    listed = tuple(found)
    if len(listed) < least:
        raise FileRefused(kind, f"no {word}s")
    if len(listed) > most:
        raise FileRefused(kind, f"{len(listed)} {word}s, at most {most}")
    for place, entry in enumerate(listed, 1):
        if not isinstance(entry, of):
            raise FileRefused(kind, "wrong kind of entry", place)
        yield entry


def made(kind: str, rows: Iterable[object], of: type[Entry], most: int, least: int = 1) -> Iterator[Entry]:
    """Dataclasses of rows: each one already, values in the order of its fields, or values by their names."""
    names = [field.name for field in fields(of)]
    for place, row in enumerate(entries(kind, rows, object, most, least), 1):
        if isinstance(row, of):
            yield row
            continue
        if isinstance(row, Iterable) and not isinstance(row, Mapping | str):
            values = tuple(row)
            row = dict(zip(names, values)) if len(values) <= len(names) else None
        yield Table(kind, row, place).read(of)


@dataclass(frozen=True, slots=True)
class Table:
    """Values by their keys: of a document, or of one of its entries, which have a place."""

    kind: str
    values: Any
    place: int | None = None

    def fault(self, reason: str) -> FileRefused:
        return FileRefused(self.kind, reason, self.place)

    def refuse_others(self, *known: str) -> None:
        if not isinstance(self.values, Mapping):
            raise self.fault("wrong kind of entry")
        if others := [str(key).encode(errors="replace") for key in self.values if key not in known]:
            raise self.fault(f"unknown key {shown(min(others))}")

    def read(self, of: type[Entry]) -> Entry:
        """The dataclass of the values, whose fields are the keys."""
        defaults: dict[str, Any] = {field.name: field.default for field in fields(of)}
        self.refuse_others(*defaults)
        try:
            return of(**defaults | dict(self.values))
        except FileRefused as refused:
            raise self.fault(refused.reason) from None

    def array(self, most: int) -> "Iterator[Table]":
        """The tables of the array of entries."""
        found = self.values.get(ENTRIES[self.kind], [])
        if not isinstance(found, list):
            raise self.fault(f"wrong kind of {ENTRIES[self.kind]}")
        for place, entry in enumerate(entries(self.kind, found, object, most), 1):
            yield Table(self.kind, entry, place)


def shown(word: bytes) -> str:
    """A word as the program's lines have it: at most 32 bytes, and `?` for each that a name can't have."""
    return re.sub(rb"[^A-Za-z0-9_-]", b"?", word[:32]).decode("ascii")
