"""What all files share: their bytes, and the one reader and writer of TOML files and of CSV files."""

import csv
import io
import re
import tomllib
from abc import ABC, abstractmethod
from collections.abc import Iterable, Iterator, Sequence
from dataclasses import asdict, astuple
from functools import partial
from pathlib import Path
from typing import Any, ClassVar, Generic, Self, TypeVar

from rtdvs import _display, _files
from rtdvs.errors import FileRefused
from rtdvs.model import _checks, limits

T = TypeVar("T", covariant=True)
_SPELLED = re.compile(r"0|[1-9][0-9]{0,19}")
csv.field_size_limit(max(limits.LONGEST_FILE, csv.field_size_limit()))


class File(_display.Shown, ABC):
    """What all files share."""

    __slots__ = ()

    @abstractmethod
    def text(self) -> str:
        """The file's text."""

    def write(self, path: Path) -> None:
        """Writes the file; raises OSError.

        >>> from rtdvs.model import Machine
        >>> Machine.of([(2, 3000)]).write(Path("/dev/null"))
        """
        _files.write_whole(path, self.text())


class Listed(File, Generic[T]):
    """A file of entries, which are in one field; iteration gives them."""

    __slots__ = ()
    _field: ClassVar[str]

    def __iter__(self) -> Iterator[T]:
        return iter(getattr(self, self._field))

    def __len__(self) -> int:
        return len(getattr(self, self._field))

    @classmethod
    @abstractmethod
    def parse(cls, text: str | bytes) -> Self:
        """What a file's text says; raises FileRefused."""

    @classmethod
    def read(cls, path: Path) -> Self:
        """What a file says; raises FileRefused and OSError.

        >>> from rtdvs.model import Machine, Requests, TaskSet
        >>> TaskSet.read(Path("/dev/zero"))
        Traceback (most recent call last):
        rtdvs.errors.FileRefused: tasks: too long
        >>> Machine.read(Path("absent/machine.toml"))
        Traceback (most recent call last):
        FileNotFoundError: [Errno 2] No such file or directory: 'absent/machine.toml'
        >>> Requests.read(Path("/"))
        Traceback (most recent call last):
        IsADirectoryError: [Errno 21] Is a directory: '/'
        """
        return cls.parse(load(path))

    def _rows(self) -> Iterable[Sequence[_display.Cell]]:
        return (astuple(entry) for entry in getattr(self, self._field))


def load(path: Path) -> bytes:
    """The bytes of a file, at most one more than a file may have; raises OSError.

    >>> len(load(Path("/dev/zero")))
    16777217
    """
    with open(path, "rb") as file:
        return file.read(limits.LONGEST_FILE + 1)


def file_bytes(text: str | bytes, kind: str) -> bytes:
    """The bytes of a file without a byte order mark."""
    content = text.encode("utf-8", "surrogatepass") if isinstance(text, str) else text
    if len(content) > limits.LONGEST_FILE:
        raise FileRefused(kind, "too long")
    return content.removeprefix(b"\xef\xbb\xbf")


# TOML


def document(text: str | bytes, kind: str, *known: str) -> _checks.Table:
    """The outermost table, which has only known keys."""
    content = file_bytes(text, kind)
    try:
        table = tomllib.loads(content.decode("utf-8"))
    except (ValueError, RecursionError):
        raise FileRefused(kind, "not TOML") from None
    values: list[Any] = [table]
    for value in values:  # those inside it are put at the end of the same list
        values += value.values() if isinstance(value, dict) else value if isinstance(value, list) else ()
    if any(type(value) is int and not -2**63 <= value < 2**63 for value in values):
        raise FileRefused(kind, "not TOML")
    top = _checks.Table(kind, table)
    top.refuse_others(*known)
    return top


def entry_text(kind: str, entry: Any) -> str:
    """The table of a task or a point; an offset of 0 is left out."""
    values = ((key, f'"{value}"' if key == "name" else value) for key, value in asdict(entry).items())
    return "\n".join([f"[[{kind}]]", *(f"{key} = {value}" for key, value in values if key != "offset" or value), ""])


# CSV

Row = tuple[_checks.Fault, Sequence[Any]]
"""The values of a row, and what makes the refusal of a reason there."""


def rows(kind: str, header: Sequence[str], records: Iterable[Sequence[object]]) -> Iterator[Row]:
    """The rows of records, each of as many values as the header has names; raises FileRefused."""
    for place, record in enumerate(records, 1):
        fault = partial(FileRefused, kind, place=place)
        if len(record) != len(header):
            raise fault(f"{len(record)} fields")
        yield fault, record


def read_rows(text: str | bytes, kind: str, header: Sequence[str], most: int | None = None) -> Iterator[Row]:
    """The rows after the header that aren't empty; what is spelled as a number is one, but no task."""
    lines = io.StringIO(file_bytes(text, kind).decode("utf-8", "surrogateescape"), newline="")
    first, *records = [record for record in csv.reader(lines) if record] or [[]]
    if first != list(header):
        raise FileRefused(kind, "wrong header")
    if most is not None and len(records) > most:
        raise FileRefused(kind, f"{len(records)} rows, at most {most}")
    is_task = header[0] == "task"
    return rows(kind, header, ([*record[:is_task], *map(_value, record[is_task:])] for record in records))


def _value(field: str) -> int | str:
    return int(field) if _SPELLED.fullmatch(field) else field


def table_text(rows: Iterable[Sequence[str | int | None]]) -> str:
    r"""The rows as a CSV file, in which None is an empty field.

    >>> table_text([("task", "job"), ("a,b", None)])
    'task,job\n"a,b",\n'
    """
    text = io.StringIO()
    csv.writer(text, lineterminator="\n").writerows(rows)
    return text.getvalue()
