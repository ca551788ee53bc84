"""Files that are whole, or as they were before."""

import os
import secrets
from collections.abc import Iterable, Iterator
from contextlib import suppress
from pathlib import Path


def write_whole(path: Path, content: str | bytes | Iterable[str]) -> None:
    """Writes a file, or leaves it as it was; raises an OSError that names it.

    The content is on the disk, in a file beside it, before it gets the name. What is no file, such as a pipe, is
    written as it is. Texts are written one after the other, so that they needn't all be in memory.

    >>> write_whole(Path("/absent/cc.svg"), "<svg/>")
    Traceback (most recent call last):
    FileNotFoundError: [Errno 2] No such file or directory: '/absent/cc.svg'
    """
    try:
        if path.exists() and not path.is_file():
            with path.open("wb") as file:
                file.writelines(encoded(content))
        else:
            _replace(path.resolve(), encoded(content))
    except OSError as error:
        raise OSError(error.errno, error.strerror, str(path)) from None


def encoded(content: str | bytes | Iterable[str]) -> Iterator[bytes]:
    """The bytes of a content, text after text.

    >>> [*encoded(["a", "µ"])], [*encoded(b"a")]
    ([b'a', b'\\xc2\\xb5'], [b'a'])
    """
    parts = [content] if isinstance(content, str | bytes) else content
    return (part.encode("utf-8") if isinstance(part, str) else part for part in parts)


def _replace(path: Path, parts: Iterable[bytes]) -> None:
    part = path.with_name(f".{secrets.token_hex(8)}.part")
    try:
        with part.open("xb") as file:
            file.writelines(parts)
            file.flush()
            if path.exists():
                part.chmod(path.stat().st_mode)
            os.fsync(file.fileno())
        part.replace(path)
    except BaseException:
        with suppress(OSError):
            part.unlink(missing_ok=True)
        raise
