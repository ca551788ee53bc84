"""The nodes of a device tree, and its blob, the form that a boot loader hands to the kernel."""

from collections.abc import Callable, Iterator
from dataclasses import dataclass, field
from functools import partial
from pathlib import PurePosixPath
from struct import error, unpack, unpack_from

from rtdvs.errors import BadValue

MAGIC = b"\xd0\x0d\xfe\xed"
_BEGIN, _STOP, _PROPERTY, _NOTHING, _LAST = 1, 2, 3, 4, 9

def tree_fault(reason: str) -> BadValue:
    return BadValue(f"device tree: {reason}")


@dataclass(slots=True)
class Node:
    """A node without those in it: its path, its first label and others, and what gives the bytes of each property.

    The bytes are made when they are asked for: a value that isn't used may need a macro.

    >>> Node(PurePosixPath("/cpus"), properties={"status": lambda: b"okay"}).value("status")
    b'okay'
    """

    path: PurePosixPath
    label: str = ""
    properties: dict[str, Callable[[], bytes]] = field(default_factory=dict)
    labels: list[str] = field(default_factory=list)

    def name(self, label: str) -> None:
        """Gives it a label more."""
        self.label = self.label or label
        self.labels.append(label)

    @property
    def key(self) -> str:
        return self.label or self.place

    @property
    def place(self) -> str:
        return str(self.path).strip("/")

    def value(self, key: str) -> bytes | None:
        """The bytes of a property, None if it is absent; raises BadValue."""
        return self.properties[key]() if key in self.properties else None

    def cells(self, key: str) -> tuple[int, ...]:
        """The numbers of 32 bits of a property, none if it is absent; raises BadValue.

        >>> Node(PurePosixPath("/t"), properties={"opp-microvolt": lambda: b"\\0\\x0c5\\0"}).cells("opp-microvolt")
        (800000,)
        """
        value = self.value(key) or b""
        if len(value) % 4:
            raise tree_fault(f"{self.path.name} has {key} of {len(value)} bytes, which aren't numbers of 32 bits")
        return unpack(f">{len(value) // 4}I", value)


def blob_nodes(blob: bytes) -> list[Node]:
    """The nodes of a blob, each before those in it; raises BadValue.

    >>> blob_nodes(MAGIC + b"\\0\\0")
    Traceback (most recent call last):
    rtdvs.errors.BadValue: device tree: the blob is cut or damaged
    """
    try:
        return [*_nodes(blob)]
    except (error, ValueError, IndexError):
        raise tree_fault("the blob is cut or damaged") from None


def _nodes(blob: bytes) -> Iterator[Node]:
    """Reads versions 16 and 17, the only ones in use for twenty years."""
    at, names = unpack_from(">2I", blob, 8)
    if unpack_from(">2I", blob, 20)[1] not in (16, 17):
        raise ValueError
    above, token = list[Node](), 0
    while token != _LAST:
        (token,), at = unpack_from(">I", blob, at), at + 4
        if token == _BEGIN:
            name, at = _text(blob, at), at + len(_text(blob, at)) // 4 * 4 + 4
            if ("/" in name) or bool(name) != bool(above):
                raise ValueError
            node = Node(above[-1].path / name if above else PurePosixPath("/"))
            above.append(node)
            yield node
        elif token == _STOP:
            above.pop()
        elif token == _PROPERTY:
            length, key = unpack_from(">2I", blob, at)
            (value,) = unpack_from(f"{length}s", blob, at + 8)
            above[-1].properties[_text(blob, names + key)] = partial(bytes, value)
            at += 8 + (length + 3) // 4 * 4
        elif token not in (_NOTHING, _LAST):
            raise ValueError
    if above:
        raise ValueError


def _text(blob: bytes, at: int) -> str:
    return blob[at:blob.index(b"\0", at)].decode("ascii")
