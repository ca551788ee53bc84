"""Operating points from a device tree, its source or its blob.

Both forms are read: tables of `operating-points-v2`, and a processor's older `operating-points`, pairs of kHz
and microvolts. As in the kernel a point is left out if its `status` is neither `okay` nor `ok`, and a point of
`turbo-mode`, which needs boost, unless it is asked for.
"""

from collections.abc import Iterable, Iterator, Sequence
from dataclasses import dataclass
from operator import and_

from rtdvs.board import _source
from rtdvs.board._tree import MAGIC, Node, blob_nodes, tree_fault


@dataclass(frozen=True, slots=True)
class Choice:
    """Which points of a tree are taken.

    `table` is a label, or a path; it may be empty if the tree has one table. `supported_hw` is the version of
    the hardware, level by level, as the platform has it. `suffix` takes `opp-microvolt-SUFFIX`, `supply` is
    the place of the supply, from 1 on; `turbo` takes points of `turbo-mode` too.

    >>> Choice("cpu_table", supported_hw=(2, 0x10)).supply
    1
    """

    table: str = ""
    supported_hw: tuple[int, ...] = ()
    suffix: str = ""
    supply: int = 1
    turbo: bool = False


@dataclass(frozen=True, slots=True)
class OperatingPoint:
    """A point of a table: its node's name, its frequency in hertz and its voltage in microvolts.

    >>> OperatingPoint("opp-600000000", hertz=600_000_000, microvolts=950_000).hertz
    600000000
    """

    name: str
    hertz: int
    microvolts: int


@dataclass(frozen=True, slots=True)
class OperatingTable:
    """A table: its label or path, the points that are taken by rising frequency, and why others aren't.

    >>> OperatingTable("cpu", (), ("opp-456000000 (disabled)", "opp-720000000 (turbo-mode)")).note()
    'left out of cpu: opp-456000000 (disabled), opp-720000000 (turbo-mode)'
    """

    name: str
    points: tuple[OperatingPoint, ...]
    left_out: tuple[str, ...] = ()

    def note(self) -> str:
        """What was left out, in a line; empty if nothing was."""
        return f"left out of {self.name}: {', '.join(self.left_out)}" if self.left_out else ""


def operating_points(source: str | bytes, choice: Choice = Choice()) -> OperatingTable:
    """The chosen table of a tree, which is the text of a source, or a blob; raises BadValue.

    A voltage is the first number of its supply, the target. With `supported_hw` a point is taken as the
    kernel does: if every level of one of its groups has a bit in common.

    >>> board = "cpu0: cpu@0 { operating-points = <996000 1250000 396000 975000>; };"
    >>> operating_points("/ { " + board + " };").points[0]
    OperatingPoint(name='396000', hertz=396000000, microvolts=975000)
    """
    nodes = _nodes(source)
    table = _chosen(nodes, choice.table)
    if "operating-points" in table.properties:
        return OperatingTable(table.key, _by_frequency(_pairs(table)))
    given = [node for node in nodes if node.path.parent == table.path and "opp-hz" in node.properties]
    reasons = {node.path.name: _why_not(node, choice) for node in given}
    left_out = tuple(f"{name} ({reason})" for name, reason in reasons.items() if reason)
    points = [OperatingPoint(node.path.name, _hertz(node), _microvolts(node, choice)) for node in given
              if not reasons[node.path.name] and _is_supported(node, choice.supported_hw)]
    if not points:
        raise tree_fault(f"no point of {table.key} is " + (f"left: {', '.join(left_out)}" if left_out
                                                           else "for this hardware"))
    return OperatingTable(table.key, _by_frequency(points), left_out)


def _nodes(source: str | bytes) -> list[Node]:
    """The nodes; a blob's have labels if it was made with them."""
    if isinstance(source, bytes) and source.startswith(MAGIC):
        nodes = blob_nodes(source)
    else:
        nodes = _source.nodes_of(source if isinstance(source, str) else _text(source))
    of_path = {str(node.path): node for node in nodes}
    symbols = of_path["/__symbols__"].properties if "/__symbols__" in of_path else {}
    for label, path in symbols.items():
        if named := of_path.get(_first_word(path())):
            named.name(label)
    return nodes


def _text(content: bytes) -> str:
    try:
        return content.decode("utf-8")
    except UnicodeDecodeError:
        raise tree_fault("not UTF-8, and no blob") from None


def _first_word(value: bytes) -> str:
    return value.partition(b"\0")[0].decode("latin-1")


def _chosen(nodes: Sequence[Node], name: str) -> Node:
    parents = {node.path.parent for node in nodes if "opp-hz" in node.properties}
    tables = [node for node in nodes if "operating-points" in node.properties or node.path in parents]
    names = ", ".join(dict.fromkeys(table.key for table in tables)) or "none"
    if not name and len(tables) != 1:
        raise tree_fault(f"one table has to be chosen of these: {names}" if tables else "no table of operating points")
    for table in tables:
        if name in ("", table.key, table.place, *table.labels):
            return table
    raise tree_fault(f"no table {name}; the tables are: {names}")


def _by_frequency(points: Iterable[OperatingPoint]) -> tuple[OperatingPoint, ...]:
    return tuple(sorted(points, key=lambda point: point.hertz))


def _pairs(table: Node) -> Iterator[OperatingPoint]:
    numbers = table.cells("operating-points")
    if len(numbers) % 2:
        raise tree_fault("operating-points has no pairs of kHz and microvolts")
    for kilohertz, microvolts in zip(numbers[::2], numbers[1::2]):
        yield OperatingPoint(str(kilohertz), kilohertz * 1000, microvolts)


def _why_not(node: Node, choice: Choice) -> str:
    status = node.value("status")
    if status is not None and _first_word(status) not in ("okay", "ok"):
        return _first_word(status) or "no status"
    return "turbo-mode" if "turbo-mode" in node.properties and not choice.turbo else ""


def _is_supported(node: Node, hardware: Sequence[int]) -> bool:
    masks = node.cells("opp-supported-hw")
    if masks and not hardware:
        raise tree_fault(f"{node.path.name} is for some hardware only; choose the hardware by --supported-hw")
    if hardware and len(masks) % len(hardware):
        raise tree_fault(f"{node.path.name} has {len(masks)} numbers in opp-supported-hw, "
                         f"which aren't groups of {len(hardware)}")
    groups = zip(*[iter(masks)] * len(hardware))
    return not hardware or any(all(map(and_, group, hardware)) for group in groups)


def _hertz(node: Node) -> int:
    value = node.value("opp-hz") or b""
    if len(value) % 8 or not value:
        raise tree_fault(f"{node.path.name} has an opp-hz that is neither a number of 64 bits nor two of 32")
    return int.from_bytes(value[:8])


def _microvolts(node: Node, choice: Choice) -> int:
    """The target of a supply: each has one number, or three with its lowest and highest."""
    key = f"opp-microvolt-{choice.suffix}" if choice.suffix else "opp-microvolt"
    key = key if key in node.properties else "opp-microvolt"
    if key not in node.properties:
        raise tree_fault(f"{node.path.name} has no {key}")
    volts = node.cells(key)
    targets = volts[::3] if len(volts) % 3 == 0 else volts
    if choice.supply > len(targets):
        raise tree_fault(f"{node.path.name} has no supply {choice.supply}")
    return targets[choice.supply - 1]
