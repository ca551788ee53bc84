"""The counts of the code's form (tools/form.py): each sees a breach of its rule in a small tree, and looks at enough."""

from __future__ import annotations

import importlib
from dataclasses import replace
from pathlib import Path
from types import ModuleType

import pytest

TOOLS = Path(__file__).resolve().parents[3] / "tools"
LONG_BODY = "".join(f"    step_{n}();\n" for n in range(41))
BREACHES = [
    pytest.param("relations", "rtdvs_top/specs/A.antt", "-- said\nabbrev pub A : Plan → Type 0\nA p = ⊤\n", id="relations"),
    pytest.param("positions", "low/proofs/f/Answers.antt", "pub returns c = c.invariant.0\n", id="positions: by place"),
    pytest.param("positions", "low/proofs/f/Invariants.antt", "invariant-at g c = A × B × C\n", id="positions: no record"),
    pytest.param("idle", "low/src/lib.rt", "match f() { Ok(x) => g(x), Err(e) => Err(e) }\n", id="idle"),
    pytest.param("limits", "low/src/lib.rt", "const MOST: u64 = 100000;\n", id="limits"),
    pytest.param("parameters", "low/src/lib.rt", "fn f(a: u8, b: u8, c: [u8; 2], d: u8, e: u8, g: u8) {\n}\n", id="parameters"),
    pytest.param("bodies", "low/src/lib.rt", f"fn f() {{\n{LONG_BODY}}}\n", id="bodies"),
    pytest.param("loops", "low/src/lib.rt", "fn f()\n{\n    for a in b {\n    }\n    while c {\n    }\n}\n", id="loops"),
    pytest.param("files", "low/src/lib.rt", "\n" * 801, id="files"),
    pytest.param("clauses", "low/src/lib.rt", f"    ensures {{ {'x' * 120} }}\n", id="clauses"),
    pytest.param("proofs", "low/proofs/A.antt", f"a = {'x' * 160}\n", id="proofs"),
    pytest.param("bare", "low/specs/A.antt", "-- said\nabbrev pub A : ℕ\n\nabbrev pub B : ℕ\n", id="bare"),
    pytest.param("laws", "low_laws/src/lib.rt", "pub fn f() {\n}\n", id="laws"),
    pytest.param("edits", "low/must-fail/a.edit", "file: src/lib.rt\nold: a\nnew: b\n", id="edits"),
]
CRATES = [
    pytest.param("edges", "low:\nhigh: low\n", {}, id="edges: used by nothing"),
    pytest.param("thin", "low:\nhigh: low\n", {"high/proofs/A.antt": "use Rattle.low.specs.A.{A}\n"}, id="thin: one import of a proof"),
    pytest.param("chain", "c0:\n" + "".join(f"c{n}: c{n - 1}\n" for n in range(1, 9)), {}, id="chain: nine crates"),
]


@pytest.fixture
def form(tmp_path: Path, monkeypatch: pytest.MonkeyPatch) -> ModuleType:
    """The module, in an empty tree that has a list of crates."""
    monkeypatch.syspath_prepend(str(TOOLS))
    monkeypatch.chdir(tmp_path)
    (tmp_path / "crates").mkdir()
    (tmp_path / "tools").mkdir()
    (tmp_path / "tools/published.txt").write_text("low | pub struct A{pub b:u8}\n")
    (tmp_path / "crates.txt").write_text("low:\nlow_laws:\n")
    return importlib.import_module("form")


def write(path: Path, text: str) -> None:
    path.parent.mkdir(parents=True, exist_ok=True)
    path.write_text(text)


def passes(form: ModuleType, count: str, monkeypatch: pytest.MonkeyPatch) -> bool:
    """Whether the script ends with 0 where it has this count, with no place allowed and nothing to look at asked for."""
    monkeypatch.setattr(form, "COUNTS", {count: replace(form.COUNTS[count], most=0, floor=0)})
    monkeypatch.setattr("sys.argv", ["form.py"])
    return bool(form.main() == 0)


@pytest.mark.parametrize(("count", "path", "text"), BREACHES)
def test_a_breach_is_seen(form: ModuleType, count: str, path: str, text: str, monkeypatch: pytest.MonkeyPatch) -> None:
    """A file that breaks the rule is counted, once, and the script fails."""
    before = passes(form, count, monkeypatch)
    write(Path("crates") / path, text)
    assert len(form.COUNTS[count].of().rows) == 1
    assert before and not passes(form, count, monkeypatch)


@pytest.mark.parametrize(("count", "crates", "files"), CRATES)
def test_a_breach_of_crates_is_seen(form: ModuleType, count: str, crates: str, files: dict[str, str],
                                    monkeypatch: pytest.MonkeyPatch) -> None:
    """A list of crates that breaks the rule is counted, and the script fails."""
    Path("crates.txt").write_text(crates)
    for path, text in files.items():
        write(Path("crates") / path, text)
    assert form.COUNTS[count].of().rows
    assert not passes(form, count, monkeypatch)


def test_each_count_has_a_breach(form: ModuleType) -> None:
    """In the tables above, or in a test of its own below."""
    assert {*(str(each.values[0]) for each in [*BREACHES, *CRATES]), "mutual", "published"} == {*form.COUNTS}


def test_files_that_name_each_other_are_seen(form: ModuleType, monkeypatch: pytest.MonkeyPatch) -> None:
    """Two files of a crate that use one another are one place."""
    write(Path("crates/low/src/a.rt"), "use crate::b::B;\n")
    write(Path("crates/low/src/b.rt"), "use crate::a::A;\n")
    assert form.mutual().rows == ["low: a.rt ~ b.rt"]
    assert not passes(form, "mutual", monkeypatch)


@pytest.mark.parametrize(
    ("source", "gone"),
    [
        pytest.param("pub struct A {\n    pub b: u8,\n}\n", 0, id="as published"),
        pytest.param("pub struct A {\n    pub c: u8,\n}\n", 1, id="another field"),
        pytest.param("struct A {\n    pub b: u8,\n}\n", 1, id="no longer public"),
    ],
)
def test_a_published_name_stays(form: ModuleType, source: str, gone: int, monkeypatch: pytest.MonkeyPatch) -> None:
    """A field, a signature or a name that is published and no longer in the sources is counted."""
    write(Path("crates/low/src/lib.rt"), source)
    assert len(form.published().rows) == gone
    assert passes(form, "published", monkeypatch) == (gone == 0)


def test_a_count_that_sees_too_little_fails(form: ModuleType, capsys: pytest.CaptureFixture[str], monkeypatch: pytest.MonkeyPatch) -> None:
    """In a tree with nothing to look at, each count is below its floor."""
    monkeypatch.setattr("sys.argv", ["form.py"])
    assert form.main() == 1
    said = capsys.readouterr().out.splitlines()
    assert len(said) == len(form.COUNTS)
    assert all(", at least " in line for line in said if not line.startswith(("published", "chain")))


def test_each_count_is_in_the_head_and_on_the_page(form: ModuleType) -> None:
    """The head of the script says what each count is, and STYLE.md names it."""
    page = (TOOLS.parent / "docs/STYLE.md").read_text()
    for name in form.COUNTS:
        assert f"\n{name} " in (form.__doc__ or ""), name
        assert f"(`{name}`)" in page, name
