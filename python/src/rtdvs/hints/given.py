"""What is known of a call beside its refusal: its words, and the files that they name, as texts and as values."""

import csv
import io
import re
import tomllib
from collections.abc import Callable, Mapping, Sequence
from dataclasses import dataclass, field
from pathlib import Path
from typing import Any, TypeVar

from rtdvs.errors import ENTRIES, Refused
from rtdvs.hints.words import FILE_OPTIONS
from rtdvs.model import Machine, TaskSet, load

Word = str | bytes | Path
Source = str | bytes | Path | TaskSet | Machine
Value = TypeVar("Value")


@dataclass(frozen=True, slots=True)
class Given:
    """The words of a call, of which one may be a file's content, and its files: a path, a content or a value.

    >>> Given.of(["admit", "--tasks", "a.toml"]).files["tasks"]
    PosixPath('a.toml')
    """

    words: Sequence[Word] = ()
    files: Mapping[str, Source] = field(default_factory=dict)

    @classmethod
    def of(cls, words: Sequence[Word] = (), files: Mapping[str, Source] | None = None) -> "Given":
        """What words name, and files beside it."""
        named = {str(option)[2:]: Path(value) if isinstance(value, str) else value
                 for option, value in zip(words[1::], words[2::]) if option in FILE_OPTIONS}
        return cls(words, {**named, **(files or {})})

    def path(self, kind: str) -> Path | None:
        """The path of a file, None for a content or a value."""
        source = self.files.get(kind)
        return source if isinstance(source, Path) else None

    def content(self, kind: str) -> bytes | None:
        """The bytes of a file without a byte order mark; None if they can't be known."""
        source = self.files.get(kind)
        try:
            content = load(source) if isinstance(source, Path) else source
        except OSError:
            return None
        if isinstance(content, str):
            content = content.encode("utf-8", "surrogatepass")
        return content.removeprefix(b"\xef\xbb\xbf") if isinstance(content, bytes) else None

    def lines(self, kind: str) -> list[str]:
        """The lines of a file, without their ends; none if they can't be known."""
        return (self.content(kind) or b"").decode("utf-8", "replace").split("\n")

    def table(self, kind: str) -> dict[str, Any]:
        """The outermost table of a TOML file; without any key if that can't be known."""
        try:
            return tomllib.loads((self.content(kind) or b"").decode())
        except (ValueError, RecursionError):
            return {}

    def entries(self, kind: str) -> list[Any]:
        """The tasks or points of a TOML file, as they are written."""
        found = self.table(kind).get(ENTRIES[kind])
        return found if isinstance(found, list) else []

    def records(self, kind: str) -> list[tuple[int, list[str]]]:
        """The records of a CSV file that aren't empty, the header too, each with the number of its last line."""
        text = (self.content(kind) or b"").decode("utf-8", "replace")
        reader = csv.reader(io.StringIO(text, newline=""))
        return [(reader.line_num, record) for record in reader if record]

    def tasks(self) -> TaskSet | None:
        """The task set; None if it can't be known."""
        return self._value("tasks", TaskSet, TaskSet.parse)

    def machine(self) -> Machine | None:
        """The machine; None if it can't be known."""
        return self._value("machine", Machine, Machine.parse)

    def _value(self, kind: str, of: type[Value], parse: Callable[[bytes], Value]) -> Value | None:
        source = self.files.get(kind)
        if isinstance(source, of):
            return source
        content = self.content(kind)
        try:
            return None if content is None else parse(content)
        except Refused:
            return None

    def line_of_entry(self, kind: str, place: int, key: str) -> int | None:
        """The number of the line that has a key of an entry, or its heading; None for an array in brackets."""
        heading, found, count = re.compile(rf"\s*\[\[\s*{ENTRIES[kind]}\s*\]\]"), None, 0
        for number, line in enumerate(self.lines(kind), 1):
            if heading.match(line):
                count += 1
                found = number if count == place else found
            elif count == place and re.match(rf"\s*[\"']?{re.escape(key)}[\"']?\s*=", line):
                return number
        return found

    def line_of_key(self, kind: str, key: str) -> int | None:
        """The number of the first line that begins with a key, or is its heading."""
        pattern = re.compile(rf"\s*\[*\s*[\"']?{re.escape(key)}[\"']?\s*[=\]]")
        return next((number for number, line in enumerate(self.lines(kind), 1) if pattern.match(line)), None)
