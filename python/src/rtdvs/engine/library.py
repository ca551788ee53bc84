"""Calls in this process, by the shared library librtdvs.so: no process is started, and no file is written.

A call releases the interpreter's lock, so threads can call at the same time. Nothing stops a call before its end; an
interrupt by Ctrl-C is raised after it.
"""

import ctypes
import os
import re
import sys
from collections.abc import Iterator, Sequence
from functools import cache
from pathlib import Path
from typing import Any, TypeAlias

from rtdvs import _version, errors
from rtdvs.engine import by_numbers
from rtdvs.engine.calls import Answer, Word, constrain_call
from rtdvs.model import LONGEST_FILE, LONGEST_TRACE, Deadlines, Machine, Point, Task, TaskSet

FILES = {"--tasks": 0, "--machine": 1, "--demands": 2, "--trace": 2, "--deadlines": 2, "--requests": 2}
"""The options whose values name files, each with its place among the three files of a call."""

NO_MEMORY = 9
ABSENT = b"absent"
PIECE = LEAST_ROOM = 2**16
MOST_ROOM, NOTES_ROOM = 2**24, 2**12
Room: TypeAlias = "ctypes.Array[ctypes.c_char]"
ROOMS: list[Room] = []
"""Buffers for answers. A call takes one and puts it back, with as much room as it needed, at most MOST_ROOM."""

KNOWN = constrain_call(TaskSet((Task("a", 2, 1),)), Machine((Point(1, 1000),)), Deadlines({"a": 1})).words()
KNOWN_ANSWER = Answer(0, b"constrained 1/1 1\n", b"")
WHAT_TO_DO = ("build the library again (docs/LIBRARY.md), or name another one or the program by --program "
              "or by the variable RTDVS")


class Lengths(ctypes.Structure):
    """`struct rtdvs_lengths`: how many bytes the answer and the notes have.

    >>> Lengths(out=18).notes
    0
    """

    _fields_ = [("out", ctypes.c_size_t), ("notes", ctypes.c_size_t)]


# The library

@cache
def opened(path: Path) -> ctypes.CDLL:
    """The library at an absolute path, which a process opens and tries once.

    Raises NoEngine for a file that isn't a library, or is one of another version, by its whole name or its answer to
    a known call; the text says what to do.

    >>> opened(Path("/absent.so"))
    Traceback (most recent call last):
    rtdvs.errors.NoEngine: /absent.so: cannot open shared object file: No such file or directory: \
build the library again (docs/LIBRARY.md), or name another one or the program by --program or by the variable RTDVS
    """
    try:
        library = ctypes.CDLL(str(path))
    except OSError as error:
        why = str(error).removeprefix(f"{path}: ")
        raise errors.NoEngine(f"{path}: {why}: {WHAT_TO_DO}") from None
    texts: list[Any] = 6 * [ctypes.c_char_p, ctypes.c_size_t]
    with_texts = dict.fromkeys(("rtdvs_call", "rtdvs_end"), [*texts, ctypes.POINTER(Lengths)])
    for name, arguments in {**with_texts, **by_numbers.CALLS}.items():
        try:
            call = getattr(library, name)
        except AttributeError:
            raise errors.NoEngine(f"{path}: it has no {name}: {WHAT_TO_DO}") from None
        call.argtypes, call.restype = arguments, ctypes.c_uint8
    if not _has_version(path.resolve().name) or _answer(library, KNOWN) != KNOWN_ANSWER:
        raise errors.NoEngine(f"{path}: it is of another version: {WHAT_TO_DO}")
    return library


def _has_version(name: str) -> bool:
    """Whether a library's name has no other version than the package's: 1.1 is that of `.so`, `.so.1` and `.so.1.1`."""
    numbers = re.findall("[0-9]+", name.partition(".so")[2])
    return numbers == _version.__version__.split(".")[:len(numbers)]


def answer(path: Path, words: Sequence[Word], last_bytes: int | None = None) -> Answer:
    """The program's answer to these words, or its last bytes, by the library at an absolute path.

    A file is named by a path, which is read here, or given as its content. Raises NoEngine, and ValueError for a word
    with a zero byte. The answer has status 9 if memory runs out in the library.

    >>> answer(Path("/absent.so"), ["workload", "--seed", "1"])  # doctest: +ELLIPSIS
    Traceback (most recent call last):
    rtdvs.errors.NoEngine: /absent.so: cannot open shared object file: ...
    """
    return _answer(opened(path), words, last_bytes)


def _answer(library: ctypes.CDLL, words: Sequence[Word], last_bytes: int | None = None) -> Answer:
    files = [b"", b"", b""]
    texts = [b"".join(map(_ended, _named(words, files))), *files]
    call = library.rtdvs_call if last_bytes is None else library.rtdvs_end
    out = _taken_room() if last_bytes is None else ctypes.create_string_buffer(last_bytes)
    notes, lengths = ctypes.create_string_buffer(NOTES_ROOM), Lengths()
    for _ in range(2):
        buffers: list[bytes | Room] = [*texts, out, notes]
        sized = (part for buffer in buffers for part in (buffer, len(buffer)))
        status = call(*sized, ctypes.byref(lengths))
        if status == NO_MEMORY:
            return Answer(status, b"", b"no memory\n")
        length = lengths.out if last_bytes is None else min(lengths.out, last_bytes)
        if length <= len(out) and lengths.notes <= len(notes):
            found = Answer(status, ctypes.string_at(out, length), ctypes.string_at(notes, lengths.notes))
            if last_bytes is None and len(out) <= MOST_ROOM:
                ROOMS.append(out)
            return found
        out, notes = _with_room(out, length), _with_room(notes, lengths.notes)
    raise errors.Crashed("a second call of the library has a longer answer than the first")


def _taken_room() -> Room:
    try:
        return ROOMS.pop()
    except IndexError:
        return ctypes.create_string_buffer(LEAST_ROOM)


def _with_room(room: Room, length: int) -> Room:
    return room if length <= len(room) else ctypes.create_string_buffer(length + length // 4)


# Words and files

def _named(words: Sequence[Word], files: list[bytes]) -> Iterator[bytes]:
    """The words with the library's names of files, whose contents are put into `files`.

    A file that can't be read has a name that the library doesn't know. A word that the program refuses is kept.
    """
    for option, word in option_values(words):
        if isinstance(word, bytes) or (option in FILES and word and _is_text(word)):
            content = word if isinstance(word, bytes) else _content(word, option)
            files[FILES.get(option, 2)] = content or b""
            yield ABSENT if content is None else option.removeprefix("--").encode()
        else:
            yield os.fsencode(word)


def option_values(words: Sequence[Word]) -> Iterator[tuple[str, Word]]:
    """Each word with the option whose value it is, as the program reads them; with "" if it is none.

    >>> [*option_values(["run", "--probes", "--ticks", "9"])]
    [('', 'run'), ('', '--probes'), ('', '--ticks'), ('--ticks', '9')]
    """
    option = ""
    for place, word in enumerate(words):
        yield option, word
        begins = place > 0 and not option and word != "--probes"
        option = word if begins and isinstance(word, str) else ""


def _content(path: Path | str, option: str) -> bytes | None:
    """The file's bytes, at most one more than it may have; None if it can't be read."""
    most = LONGEST_TRACE if option == "--trace" else LONGEST_FILE
    try:
        with open(path, "rb") as file:
            begun = file.read(PIECE)
            return begun if len(begun) < PIECE else begun + file.read(most + 1 - PIECE)
    except OSError:
        return None


def _is_text(word: Path | str) -> bool:
    """Whether a name is UTF-8; the program answers with status 10 if it isn't."""
    encoded = os.fsencode(word)
    return encoded.decode("utf-8", "ignore").encode("utf-8") == encoded


def _ended(word: bytes) -> bytes:
    if b"\0" in word:
        raise ValueError("embedded null byte")
    return word + b"\0"


# As a program

def main(arguments: Sequence[str]) -> int:
    """The program's command line, by the library that the first argument names: prints, and returns the exit status.

    Raises as `answer` does.

    >>> main(["/absent.so", "workload", "--seed", "1"])  # doctest: +ELLIPSIS
    Traceback (most recent call last):
    rtdvs.errors.NoEngine: /absent.so: cannot open shared object file: ...
    """
    found = answer(Path(arguments[0]), arguments[1:])
    sys.stdout.buffer.write(found.out)
    sys.stdout.flush()
    sys.stderr.buffer.write(found.notes)
    return found.status
