"""Device trees: each expected point is read off the text by hand, or is what the text was made of."""

import re
import subprocess
from pathlib import Path
from shutil import which
from struct import pack

import pytest
from hypothesis import given, settings
from hypothesis import strategies as st

from rtdvs.board import Choice, _tree, operating_points
from rtdvs.cli.main import main
from rtdvs.errors import BadValue
from rtdvs.model import Machine, Point
from tests.shared.examples import TEST_DATA, TOP, Captured, rows, printed

CHIPS, OLD, DA850, TURBO = (
    (TEST_DATA / f"{name}.dts").read_text() for name in ("chips", "old", "da850", "r8a77961"))
PLAIN = CHIPS.replace("MHZ(600)", "600000000").replace("0x1 0xffff", "8 8")
BOARD = (TOP / "examples" / "board.dts").read_text()
LITTLE = [(500000000, 825000), (747500000, 900000)]
needs_dtc = pytest.mark.skipif(which("dtc") is None, reason="no dtc")


def pairs(source: str | bytes, choice: Choice = Choice()) -> list[tuple[int, int]]:
    return [(point.hertz, point.microvolts) for point in operating_points(source, choice).points]


def table(*statements: str) -> str:
    """A tree whose table `t` has a point of 100 MHz at 1 V, and one with these statements."""
    first = "first { opp-hz = /bits/ 64 <100000000>; opp-microvolt = <1000000>; };"
    return "/ { t { %s second { %s; }; }; };" % (first, "; ".join(statements))


def compiled(text: str, *words: str) -> bytes:
    """The blob of a source by the device tree compiler, with labels if a word is -@."""
    ran = subprocess.run(["dtc", "-q", "-I", "dts", "-O", "dtb", *words], input=f"/dts-v1/;\n{text}".encode(),
                         capture_output=True, check=True)
    return ran.stdout


def decompiled(blob: bytes) -> str:
    """What the compiler prints for a blob."""
    ran = subprocess.run(["dtc", "-q", "-I", "dtb", "-O", "dts"], input=blob, capture_output=True, check=True)
    return ran.stdout.decode()


# A blob by hand: its header of ten numbers, no reserved memory, the nodes, and the names of properties.

def packed(*numbers: int) -> bytes:
    return pack(f">{len(numbers)}I", *numbers)


def padded(content: bytes) -> bytes:
    return content + bytes(-len(content) % 4)


def node(name: str, *inner: bytes) -> bytes:
    return packed(1) + padded(name.encode() + b"\0") + b"".join(inner) + packed(2)


def of_key(key: str, value: bytes) -> bytes:
    return packed(3, len(value), NAMES.index(key.encode())) + padded(value)


NAMES = b"\0".join([b"opp-hz", b"opp-microvolt", b"status", b"turbo-mode", b"opp_table", b""])


def blob(*inner: bytes) -> bytes:
    """A tree whose nodes are these."""
    nodes = node("", *inner) + packed(9)
    head = packed(0xd00dfeed, 56 + len(nodes) + len(NAMES), 56, 56 + len(nodes), 40, 17, 16, 0, len(NAMES), len(nodes))
    return head + bytes(16) + nodes + NAMES


def point(name: str, hertz: int, *microvolts: int) -> bytes:
    return node(name, of_key("opp-hz", pack(">Q", hertz)), of_key("opp-microvolt", packed(*microvolts)))


SMALL = blob(packed(4), node("opp", point("b", 2**33, 7, 6, 8), point("a", 5, 800000)),
             node("__symbols__", of_key("opp_table", b"/opp\0")))


@pytest.mark.parametrize(("source", "choice", "name", "points"), [
    pytest.param(BOARD, Choice("little"), "little", LITTLE, id="label"),
    pytest.param(BOARD, Choice("opp-table-0"), "little", LITTLE, id="path of a table with a label"),
    pytest.param(BOARD, Choice("little", turbo=True), "little", [*LITTLE, (1400000000, 1187250)], id="turbo"),
    pytest.param(BOARD, Choice("little", supply=2, turbo=True), "little", None, id="no second supply"),
    pytest.param(BOARD, Choice("big", suffix="slow"), "big", [(600000000, 850000), (1800000000, 1100000)], id="slow"),
    pytest.param(BOARD, Choice("big", suffix="fast"), "big", [(600000000, 800000), (1800000000, 1050000)], id="fast"),
    pytest.param(BOARD, Choice("soc/opp-table"), "soc/opp-table", [(10**9, 900000), (5 * 10**9, 1100000)], id="path"),
    pytest.param(PLAIN, Choice(supported_hw=(2, 0x10)), "cpu_table", [(300000000, 950000)], id="a chip"),
    pytest.param(PLAIN, Choice(supported_hw=(1, 1)), "cpu_table", [(300000000, 1100000)], id="another chip"),
    pytest.param(PLAIN, Choice(supported_hw=(4, 0x30)), "cpu_table", [(300000000, 950000), (300000000, 1100000)],
                 id="two of one frequency"),
    pytest.param(OLD, Choice(), "cpu0", [(396000000, 975000), (996000000, 1250000)], id="older form"),
    pytest.param(DA850, Choice(), "opp_table", [(10**8, 10**6), (2 * 10**8, 1100000), (3 * 10**8, 1200000)],
                 id="disabled"),
    pytest.param(SMALL, Choice(), "opp_table", [(5, 800000), (2**33, 7)], id="blob"),
    pytest.param(SMALL, Choice("opp"), "opp_table", [(5, 800000), (2**33, 7)], id="path in a blob"),
])
def test_points(source: str | bytes, choice: Choice, name: str, points: list[tuple[int, int]] | None) -> None:
    if points is None:
        with pytest.raises(BadValue, match="no supply 2"):
            operating_points(source, choice)
        return
    assert (operating_points(source, choice).name, pairs(source, choice)) == (name, points)


@pytest.mark.parametrize(("text", "turbo", "top", "left_out"), [
    pytest.param(DA850, True, 300, ("opp120-375000000 (disabled)", "opp130-456000000 (disabled)"), id="disabled"),
    pytest.param(TURBO, False, 1500, ("opp-1600000000 (turbo-mode)", "opp-1800000000 (turbo-mode)"), id="turbo-mode"),
    pytest.param(TURBO, True, 1800, (), id="turbo"),
    pytest.param(OLD, False, 996, (), id="older form"),
])
def test_what_is_left_out(text: str, turbo: bool, top: int, left_out: tuple[str, ...]) -> None:
    found = operating_points(text, Choice(turbo=turbo))
    assert (found.points[-1].hertz, found.left_out) == (top * 10**6, left_out)


@pytest.mark.parametrize(("status", "count"), [
    ('"okay"', 2), ('"ok"', 2), ('"ok", "disabled"', 2), ('"okay\\0x"', 2), ('"disabled"', 1), ('"fail-x"', 1),
    ('"okayed"', 1), ('""', 1), ("[00]", 1), ("[]", 1), ("<0x6f6b0000>", 2), ('"OKAY"', 1),
])
def test_status(status: str, count: int) -> None:
    """A point that is left out may have any numbers."""
    wrong = "opp-microvolt = <VOLTS>" if count == 1 else "opp-microvolt = <1>"
    assert len(pairs(table("opp-hz = <0 7>", wrong, f"status = {status}"))) == count


@pytest.mark.parametrize(("statement", "hertz"), [
    ("opp-hz = <0 200000000>", 200000000),
    ("opp-hz = /bits/ 64 <0100000000>", 8**8),
    ("opp-hz = /bits/ 64 <200000000ULL>", 200000000),
    ("opp-hz = /bits/ 64 <(100 * 1000000 * (1 + 1))>", 200000000),
    ("opp-hz = /bits/ 64 <(0x10 << 2 | 017 % 8)>", 0x47),
    ("opp-hz = /bits/ 64 <(7 /* halved */ / 2 - ~(1 - 2))>", 3),
    ("opp-hz = /bits/ 64 <(6 & 3 ^ 5)>, <0 1>", 7),
    ("opp-hz = /bits/ 8 <0 0 0 0 1 2 3 (-1)>", 0x010203ff),
    ("opp-hz = [00 00 0000 0102 03 ff]", 0x010203ff),
    ("opp-hz = /bits/ 16 <0 1>, <5>", 1 << 32 | 5),
    (r'opp-hz = "\0\0\0", "\x01\012\3"', 0x010a0300),
    (r'opp-hz = "\0\0\0", "\x1\012\3"', 0x010a0300),
    ("opp-hz = <0 0xffffffff>", 2**32 - 1),
    ('compatible = "a; { < b"; opp-hz = /bits/ 64 <200000000>', 200000000),
])
def test_numbers(statement: str, hertz: int) -> None:
    assert (hertz, 1100000) in pairs(table(statement, "opp-microvolt = <1100000>, <1200000 1 2>"))


@pytest.mark.parametrize(("value", "microvolts"), [
    pytest.param(r'"", "\f5"', 800000, id="0.8 V as strings"),  # 800000 is 0x000c3500
    pytest.param(r'"\0\f5"', 800000, id="0.8 V as a string"),
    pytest.param("<(400000 * 2)>", 800000, id="product"),
    pytest.param("<(800000)>", 800000, id="parentheses"),
    pytest.param("<800000 1>, <2>", 800000, id="lowest and highest"),
])
def test_voltages(value: str, microvolts: int) -> None:
    assert (7, microvolts) in pairs(table("opp-hz = <0 7>", f"opp-microvolt = {value}"))


@pytest.mark.parametrize(("value", "supply", "microvolts"), [
    ("<1 2>", 2, 2), ("<1>, <2>", 2, 2), ("<1 2 3>, <4 5 6>", 2, 4), ("<1 2 3 4 5 6>", 2, 4), ("<1 2 3>", 1, 1),
])
def test_supplies(value: str, supply: int, microvolts: int) -> None:
    text = table("opp-hz = <0 7>", f"opp-microvolt = {value}").replace("<1000000>", value)
    assert pairs(text, Choice(supply=supply))[0] == (7, microvolts)


def test_points_are_added_and_deleted() -> None:
    added = "&two { more { opp-hz = /bits/ 64 <3>; opp-microvolt = <9>; }; /delete-node/ second; };"
    text = table("opp-hz = /bits/ 64 <2>", "opp-microvolt = <8>").replace("/ { t {", "/ { one: two: t {")
    assert pairs(text + added) == [(3, 9), (100000000, 1000000)]
    assert pairs("&two { only { opp-hz = /bits/ 64 <3>; opp-microvolt = <9>; }; };") == [(3, 9)]
    with pytest.raises(BadValue, match="second has no opp-microvolt"):
        pairs(text + "&{/t/second} { /delete-property/ opp-microvolt; };")


def test_a_board_enables_a_point() -> None:
    assert pairs(DA850.replace("opp130", "fast: opp130") + '&fast { status = "okay"; };')[-1] == (456000000, 1300000)
    assert pairs(TURBO.replace("opp-1800", "top: opp-1800") + "&top { /delete-property/ turbo-mode; };")[-1][0] == (
        1800000000)


@pytest.mark.parametrize(("source", "choice", "reason"), [
    *(pytest.param(text, Choice(), reason, id=reason) for text, reason in rows("refused_trees")),
    pytest.param(OLD + OLD.replace("cpu0", "cpu1").replace("cpus", "more"), Choice(),
                 "one table has to be chosen of these: cpu0, cpu1", id="two tables"),
    pytest.param(OLD, Choice("cpu2"), "no table cpu2; the tables are: cpu0", id="no table"),
    pytest.param(OLD.replace("0x60ae0", ""), Choice(), "operating-points has no pairs of kHz and microvolts",
                 id="no pairs"),
    pytest.param(CHIPS, Choice(), "slow is for some hardware only; choose the hardware by --supported-hw",
                 id="some hardware"),
    pytest.param(CHIPS, Choice(supported_hw=(1, 1, 1)),
                 "slow has 2 numbers in opp-supported-hw, which aren't groups of 3", id="groups"),
    pytest.param(CHIPS, Choice(supported_hw=(1, 1)), "not a number: MHZ", id="macro"),
    pytest.param(CHIPS, Choice(supported_hw=(8, 8)), "no point of cpu_table is for this hardware", id="no point"),
    pytest.param(table("opp-hz = /bits/ 64 <9>", "opp-microvolt = <1>"), Choice(supply=2), "no supply 2", id="supply"),
    pytest.param("a { " * 5000, Choice(), "no end of node", id="nested"),
    pytest.param(table(f"opp-hz = /bits/ 64 <({'1+' * 9999}1)>"), Choice(), "not a number: (1+1+", id="long sum"),
    pytest.param(b"/ { \xff };", Choice(), "not UTF-8, and no blob", id="no text"),
    pytest.param(SMALL[:40], Choice(), "the blob is cut or damaged", id="cut blob"),
    pytest.param(blob(node("/opp")), Choice(), "the blob is cut or damaged", id="a node's name"),
    pytest.param(SMALL.replace(packed(17, 16), packed(18, 18)), Choice(), "the blob is cut or damaged", id="version"),
    pytest.param(SMALL.replace(packed(4), packed(5), 1), Choice(), "the blob is cut or damaged", id="token"),
    pytest.param(SMALL.replace(packed(2, 9), packed(4, 9)), Choice(), "the blob is cut or damaged", id="open node"),
    pytest.param(table("opp-hz = <0 7 0>"), Choice(), "neither a number of 64 bits nor two of 32", id="12 bytes"),
    pytest.param(blob(), Choice(), "no table of operating points", id="empty blob"),
])
def test_refusals(source: str | bytes, choice: Choice, reason: str) -> None:
    with pytest.raises(BadValue, match=f"^device tree: .*{re.escape(reason)}"):
        operating_points(source, choice)


@given(st.dictionaries(st.integers(1, 2**40), st.integers(0, 2**31), min_size=1),
       st.sampled_from(["{}", "{:#x}", "0{:o}", "({} - 0)"]),
       st.sampled_from([" ", "\n", " /* ; } \n */ ", " // <\n"]))
def test_any_table_is_read_back(points: dict[int, int], form: str, gap: str) -> None:
    nodes = gap.join(f"p{hertz}{gap}{{ opp-hz = /bits/ 64 <{form.format(hertz)}>;{gap}opp-microvolt ={gap}"
                     f"<{form.format(volts)}>; }};" for hertz, volts in points.items())
    assert pairs(f"/ {{{gap}x: t {{ {nodes} }}; }};") == sorted(points.items())


@given(st.dictionaries(st.integers(1, 2**64 - 1), st.integers(0, 2**32 - 1), min_size=1))
def test_any_blob_is_read(points: dict[int, int]) -> None:
    nodes = (point(f"p{hertz}", hertz, microvolts) for hertz, microvolts in points.items())
    assert pairs(blob(node("t", *nodes))) == sorted(points.items())


@given(st.integers(0, len(SMALL)), st.lists(st.tuples(st.integers(0, len(SMALL) - 1), st.integers(0, 255)), max_size=3))
def test_a_damaged_blob_is_read_or_refused(end: int, changes: list[tuple[int, int]]) -> None:
    changed = bytearray(SMALL)
    for at, byte in changes:
        changed[at] = byte
    try:
        assert operating_points(bytes(changed[:end])).points
    except BadValue:
        pass


# The device tree compiler, and the library that the kernel's tools read blobs by

@needs_dtc
@pytest.mark.parametrize(("text", "choice"), [
    pytest.param(BOARD, Choice("little"), id="little"),
    pytest.param(BOARD, Choice("big", suffix="fast"), id="suffix"),
    pytest.param(PLAIN, Choice(supported_hw=(4, 0x30)), id="hardware"),
    pytest.param(OLD, Choice(), id="older form"),
    pytest.param(DA850, Choice(), id="disabled"),
    pytest.param(TURBO, Choice(turbo=True), id="turbo"),
    pytest.param(table("opp-hz = <0 7>", "opp-microvolt = <800000>"), Choice(), id="0.8 V"),
])
def test_what_the_compiler_makes(text: str, choice: Choice) -> None:
    """The same points are in the source, in its blob, and in what is printed for the blob."""
    made = compiled(re.sub("#define.*|/dts-v1/;", "", text), "-@")
    wanted = operating_points(text, choice)
    assert (operating_points(made, choice), operating_points(decompiled(made), choice)) == (wanted, wanted)


@needs_dtc
@settings(max_examples=25, deadline=None)
@given(st.recursive(st.integers(0, 2**20).map(str), lambda inner: st.builds(
    "({} {} {})".format, inner, st.sampled_from(["+", "-", "*", "/", "%", "&", "|", "^"]), inner), max_leaves=6))
def test_sums_as_the_compiler_has_them(term: str) -> None:
    text = table(f"opp-hz = /bits/ 64 <({term})>", "opp-microvolt = <1>")
    try:
        wanted = pairs(compiled(text))
    except subprocess.CalledProcessError:  # a division by zero
        with pytest.raises(BadValue, match="not a number"):
            pairs(text)
        return
    assert pairs(text) == wanted


@needs_dtc
@pytest.mark.parametrize("label", ["one", "two"])
def test_each_label_of_a_table(label: str) -> None:
    """A table may have several; the source and the blob have them in another order."""
    text = ("/ { one: opp { a { opp-hz = /bits/ 64 <7000000>; opp-microvolt = <900000>; }; }; "
            "other { b { opp-hz = /bits/ 64 <8000000>; opp-microvolt = <900000>; }; }; }; two: &one { };")
    sources: list[str | bytes] = [text, compiled(text, "-@")]
    for source in sources:
        assert [point.hertz for point in operating_points(source, Choice(label)).points] == [7_000_000]


@needs_dtc
@pytest.mark.parametrize("text", [BOARD, PLAIN, DA850, TURBO], ids=["board", "chips", "da850", "r8a77961"])
def test_blobs_by_another_reader(text: str) -> None:
    libfdt = pytest.importorskip("libfdt")
    made = compiled(re.sub("#define.*|/dts-v1/;", "", text), "-@")
    tree = libfdt.FdtRo(made)

    def walk(at: int, path: str) -> dict[str, dict[str, bytes]]:
        place = tree.first_property_offset(at, libfdt.QUIET_NOTFOUND)
        found, inner = {path: dict[str, bytes]()}, tree.first_subnode(at, libfdt.QUIET_NOTFOUND)
        while place >= 0:
            value = tree.get_property_by_offset(place)
            found[path][value.name] = bytes(value)
            place = tree.next_property_offset(place, libfdt.QUIET_NOTFOUND)
        while inner >= 0:
            found |= walk(inner, f"{path.rstrip('/')}/{tree.get_name(inner)}")
            inner = tree.next_subnode(inner, libfdt.QUIET_NOTFOUND)
        return found

    assert walk(0, "/") == {str(node.path): {key: value() for key, value in node.properties.items()}
                            for node in _tree.blob_nodes(made)}


# The command

CHOSEN = ["design", "--device-tree", TEST_DATA / "chips.dts"]


@pytest.mark.parametrize("words", ["6,160", "0x6,0xa0", "0X6,160", "06,0160"])
def test_hardware_of_the_command(words: str, capsys: Captured) -> None:
    """Of the three points only `also` has bits 2 or 4 of the first level and 0x20 or 0x80 of the second."""
    text = printed(capsys, [*CHOSEN, "--supported-hw", words])
    assert Machine.parse(text).points == (Point(300, 1100),)
    assert text.startswith("# cpu_table: a tick is 1 ms, a unit 1000 cycles\nidle = 0\n")


@pytest.mark.parametrize(("words", "speeds", "note"), [
    pytest.param(["da850.dts"], [100, 200, 300],
                 "left out of opp_table: opp120-375000000 (disabled), opp130-456000000 (disabled)", id="disabled"),
    pytest.param(["r8a77961.dts"], [1000, 1500],
                 "left out of cluster0_opp: opp-1600000000 (turbo-mode), opp-1800000000 (turbo-mode)", id="turbo-mode"),
    pytest.param(["r8a77961.dts", "--turbo"], [1000, 1500, 1600, 1800], "", id="turbo"),
])
def test_what_is_left_out_is_said(words: list[str], speeds: list[int], note: str, tmp_path: Path,
                                  capsys: Captured) -> None:
    """On standard error, and at the head of the machine file."""
    tree = ["design", "--device-tree", str(TEST_DATA / words[0]), *words[1:]]
    (tmp_path / "board.toml").write_text('task = [{name = "a", period_ms = 5, worst_cycles = 1_000_000}]')
    with_board = [*tree, "--board", str(tmp_path / "board.toml"), "--folder", str(tmp_path)]
    assert main([*tree, "--output", str(tmp_path / "only.toml")]) == main(with_board) == 0
    assert capsys.readouterr().err == (f"note: {note}\n" * 2 if note else "")
    for name in ("only.toml", "machine.toml"):
        text = (tmp_path / name).read_text()
        assert (f"\n# {note}\n" in text) == bool(note) and text.count("#") == 1 + bool(note)
    machine = Machine.read(tmp_path / "only.toml")
    assert [point.speed for point in machine.points] == speeds


def test_a_blob_by_the_command(tmp_path: Path, capsys: Captured) -> None:
    (tmp_path / "board.dtb").write_bytes(blob(node("opp", point("a", 10**9, 800000))))
    text = printed(capsys, ["design", "--device-tree", tmp_path / "board.dtb"])
    assert Machine.parse(text).points == (Point(1000, 800),)
