"""Hands on the nine commands of the program: its output, its line and its exit status, with a second line below."""

import sys
from collections.abc import Sequence
from dataclasses import dataclass
from pathlib import Path

from rtdvs.engine import Call, Engine, Word, option_values
from rtdvs.errors import error_of
from rtdvs.hints import FILE_OPTIONS, second_line


@dataclass(frozen=True)
class Typed(Call[str]):
    """A call whose words are those of a command line.

    >>> Typed("least", given=("--units", "3")).words()
    ['least', '--units', '3']
    """

    given: tuple[Word, ...] = ()

    def words(self) -> list[Word]:
        """The command and what was given, in its order."""
        return [self.command, *self.given]


def hand_on(words: Sequence[str], engine: Engine) -> int:
    """Makes the call that is typed, and returns its exit status; raises EngineError. A file `-` is standard input.

    >>> hand_on(["least", "--units", "3"], Engine(Path("/absent/rtdvs")))
    Traceback (most recent call last):
    rtdvs.errors.NoEngine: /absent/rtdvs: No such file or directory
    """
    command, *given = (_content(word) if option in FILE_OPTIONS else word for option, word in option_values(words))
    call = Typed(str(command), given=tuple(given))
    answer = engine.answer(call)
    if answer.status < 0:
        raise error_of(answer.status, answer.notes)
    sys.stdout.flush()
    sys.stdout.buffer.write(answer.out)
    notes = answer.notes.decode(errors="replace")
    second = second_line(notes, call.words()) if answer.status else ""
    print(notes, f"  {second}\n" if second else "", sep="", end="", file=sys.stderr)
    return answer.status


def _content(name: Word) -> Word:
    """The path of a file, the bytes of what is none; a name that isn't there is for the program to refuse."""
    path = Path(str(name))
    if name == "-" and sys.stdin is not None:
        return sys.stdin.buffer.read()
    if not name or path.is_dir() or not path.exists():
        return name
    return path.absolute() if path.is_file() else path.read_bytes()
