"""Planted changes: each kind, the tests of a module, and that a survivor is one that no test sees."""

import ast
from concurrent.futures import ProcessPoolExecutor
from functools import partial
from multiprocessing import get_context
from pathlib import Path

import pytest

from tools import mutants

BODY = """\
def least(a: int, b: int) -> int:
    note(a)
    if a < b and b != 7:
        return a
    return b
"""
TEST = "from rtdvs.rules.least import least\n\n\ndef test() -> None:\n    assert least(1, 2) == 1\n"


@pytest.mark.parametrize(("before", "after"), [
    ("a <= b", "a < b"), ("a == b", "a != b"), ("a not in b", "a in b"), ("a is None", "a is not None"),
    ("a < b < c", "a <= b < c"), ("a and b", "a or b"), ("7", "8"), ("True", "False"), ("a if b else c", "a if not b else c"),
    ("a + b", None), ("'text'", None), ("1.5", None), ("None", None)])
def test_changed_expressions(before: str, after: str | None) -> None:
    made = mutants.changed(ast.parse(before, mode="eval").body)
    assert (made and ast.unparse(made)) == after


@pytest.mark.parametrize(("before", "after"), [
    ("note(a)", "pass"), ("return a", "return None"), ("return None", None), ("return", None), ("a = note()", None),
    ("while a:\n    b()", "while not a:\n    b()")])
def test_changed_statements(before: str, after: str | None) -> None:
    made = mutants.changed(ast.parse(before).body[0])
    assert (made and ast.unparse(ast.fix_missing_locations(made))) == after


def folder(tmp_path: Path) -> Path:
    """A folder with a module and its test, and another test that doesn't import it."""
    for name, text in {"src/rtdvs/rules/least.py": BODY.replace("    note(a)\n", ""), "tests/rules/test_least.py": TEST,
                       "tests/rules/test_other.py": "import json\n\n\ndef test() -> None:\n    assert False\n"}.items():
        (tmp_path / name).parent.mkdir(parents=True, exist_ok=True)
        (tmp_path / name).write_text(text)
    (tmp_path / "pyproject.toml").write_text('[tool.pytest.ini_options]\npythonpath = ["src"]\n')
    return tmp_path


def test_each_change_is_planted_once(tmp_path: Path) -> None:
    module = tmp_path / "least.py"
    module.write_text(BODY)
    texts = [mutants.planted(BODY, change.node) for change in mutants.changes(module)]
    assert len({*texts}) == len(texts) == 8 and ast.unparse(ast.parse(BODY)) not in texts
    lines = [change.text().removeprefix(f"{module}:") for change in mutants.changes(module)]
    assert "3: a < b -> a <= b" in lines and "2: note(a) -> pass" in lines and "4: return a -> return None" in lines


def test_a_seed_draws_the_same_changes() -> None:
    folders = [mutants.TOP / "src" / "rtdvs" / "trace"]
    one, two, other = (mutants.drawn(folders, 20, seed) for seed in (1, 1, 2))
    assert one == two != other and len({*one}) == 20


def test_tests_of_a_module() -> None:
    """Those in its own folder come first; a test that imports the package alone has the module too, and so has one of all."""
    found = [path.relative_to(mutants.TOP).as_posix() for path in mutants.judges(
        mutants.TOP / "src" / "rtdvs" / "export" / "vcd.py")]
    assert found[:2] == ["src/rtdvs/export/vcd.py", "tests/export/test_convert.py"]
    assert "tests/cli/test_outputs.py" in found and "tests/model/test_files.py" not in found
    assert found[-1] == "tests/test_package.py"


def test_a_survivor_is_what_no_test_sees(tmp_path: Path) -> None:
    """Only the test that imports the module is run, and it never has two equal numbers, nor 7."""
    root = folder(tmp_path)
    module = Path("src/rtdvs/rules/least.py")
    text = (root / module).read_text()
    changes = [mutants.Change(module, each.node, each.line, each.before, each.after)
               for each in mutants.changes(root / module) if each.before in ("a < b", "7", "return a")]
    with ProcessPoolExecutor(1, get_context("spawn")) as pool:
        found = dict(zip([change.text().split(": ", 1)[1] for change in changes],
                         pool.map(partial(mutants.survives, root=root, seconds=60), changes)))
    assert found == {"a < b -> a <= b": True, "7 -> 8": True, "return a -> return None": False}
    assert (root / module).read_text() == text
