"""Plants changes in the package's modules, and lists those that no test sees.

    cd python && PYTHONPATH=src python3 -m tools.mutants src/rtdvs/rules src/rtdvs/trace --count 300 --seed 1

A change is one of these: another comparison, a number greater by one, `and` in place of `or`, a condition turned, a
call left out, None in place of what a function returns. Changes are drawn by the seed from all that can be planted. For
each one the docstrings of its module, the tests in the folder of its package, with few random values, and then all tests
that import it or its package, and those that look at all modules, are run up to the first that fails. It is planted in a
copy of the folder, so nothing here is changed; `--jobs` is the number of copies that are used at a time. The tests run
in a fork of a process that has imported what is slow to import. A survivor may be right all the same: a reader has to
judge it. The status is 1 if there are survivors.
"""

import argparse
import ast
import os
import random
import shutil
import signal
import sys
import time
from collections.abc import Iterable, Iterator, Sequence
from concurrent.futures import ProcessPoolExecutor
from contextlib import suppress
from copy import deepcopy
from dataclasses import dataclass
from functools import cache, partial
from importlib import import_module
from multiprocessing import get_context
from pathlib import Path
from tempfile import TemporaryDirectory

import pytest

TOP = Path(__file__).resolve().parents[1]
OF_ALL = "test_package.py"  # looks at each module, and imports none by its name
NO_TESTS = 5  # pytest's status
SLOW = "tests/rules/test_explain.py::test_random_plans"  # takes longer than all others of its package
IMPORTED_ONCE = ("hypothesis.strategies", "matplotlib.figure", "numpy", "pandas", "unittest.mock")
COMPARISONS: dict[type[ast.cmpop], type[ast.cmpop]] = {
    ast.Lt: ast.LtE, ast.LtE: ast.Lt, ast.Gt: ast.GtE, ast.GtE: ast.Gt, ast.Eq: ast.NotEq, ast.NotEq: ast.Eq,
    ast.In: ast.NotIn, ast.NotIn: ast.In, ast.Is: ast.IsNot, ast.IsNot: ast.Is}


@dataclass(frozen=True, slots=True)
class Change:
    """A change of a module: the node's place in `ast.walk`, the line, and what is there before and after."""

    module: Path
    node: int
    line: int
    before: str
    after: str

    def text(self) -> str:
        """The change on one line.

        >>> Change(Path("a.py"), 7, 3, "1", "2").text()
        'a.py:3: 1 -> 2'
        """
        return f"{self.module}:{self.line}: {self.before} -> {self.after}"


def changed(node: ast.AST) -> ast.AST | None:
    """What is planted in place of a node; None if nothing is.

    >>> ast.unparse(changed(ast.parse("a < b", mode="eval").body))
    'a <= b'
    """
    made = deepcopy(node)
    match made:
        case ast.Compare(ops=[first, *rest]) if type(first) in COMPARISONS:
            made.ops = [COMPARISONS[type(first)](), *rest]
        case ast.BoolOp(op=ast.And() | ast.Or()):
            made.op = ast.Or() if isinstance(made.op, ast.And) else ast.And()
        case ast.Constant(value=int(number)) if not isinstance(number, bool):
            made.value = number + 1
        case ast.Constant(value=bool()):
            made.value = not made.value
        case ast.If() | ast.IfExp() | ast.While():
            made.test = ast.UnaryOp(ast.Not(), made.test)
        case ast.Expr(value=ast.Call()):
            return ast.Pass()
        case ast.Return(value=ast.expr()) if not _is_none(made.value):
            made.value = ast.Constant(None)
        case _:
            return None
    return made


def _is_none(value: ast.expr | None) -> bool:
    return isinstance(value, ast.Constant) and value.value is None


def _head(node: ast.AST) -> str:
    """The first line of a node's text, without a block below it."""
    return ast.unparse(ast.fix_missing_locations(node)).splitlines()[0]


def changes(module: Path) -> Iterator[Change]:
    """All changes that can be planted in a module. Annotations, imports and texts have none."""
    tree = ast.parse(module.read_text(encoding="utf-8"))
    typed = {id(inner) for node in ast.walk(tree) for field in ("annotation", "returns")
             if isinstance(hint := getattr(node, field, None), ast.AST) for inner in ast.walk(hint)}
    for place, node in enumerate(ast.walk(tree)):
        after = None if id(node) in typed else changed(node)
        if after is not None:
            yield Change(module, place, getattr(node, "lineno", 0), _head(node), _head(after))


def planted(text: str, place: int) -> str:
    """A module's text with the change at that place of `ast.walk`.

    >>> planted("if a == 1:\\n    b()\\n", 2)
    'if a != 1:\\n    b()'
    """
    tree = ast.parse(text)
    wanted = [*ast.walk(tree)][place]

    class Planter(ast.NodeTransformer):
        def visit(self, node: ast.AST) -> ast.AST:
            return changed(node) or node if node is wanted else super().generic_visit(node)

    return ast.unparse(ast.fix_missing_locations(Planter().visit(tree)))


# The tests of a module


def dotted(path: Path, root: Path = TOP) -> str:
    """The name by which a file is imported.

    >>> dotted(TOP / "src" / "rtdvs" / "rules" / "__init__.py"), dotted(TOP / "tests" / "shared" / "model.py")
    ('rtdvs.rules', 'tests.shared.model')
    """
    inner = path.relative_to(root / "src" if path.is_relative_to(root / "src") else root)
    return ".".join(inner.with_suffix("").parts).removesuffix(".__init__")


@cache
def imported(path: Path) -> set[str]:
    """The modules that a file imports, and what may be modules: a.b.c for `from a.b import c`."""
    found: set[str] = set()
    for node in ast.walk(ast.parse(path.read_text(encoding="utf-8"))):
        if isinstance(node, ast.Import):
            found.update(alias.name for alias in node.names)
        elif isinstance(node, ast.ImportFrom) and node.module:
            found.update([node.module, *(f"{node.module}.{alias.name}" for alias in node.names)])
    return found


def judges(module: Path, root: Path = TOP) -> list[Path]:
    """The module, for its docstrings, the tests that import it, in their package's folder first, and those of all."""
    name, package = dotted(module, root), module.parent.name
    names = {name, name.rpartition(".")[0]} - {"rtdvs"}
    files = [path for path in sorted((root / "tests").rglob("test_*.py"))
             if path.name == OF_ALL or names & imported(path)]
    return [module, *sorted(files, key=lambda path: (path.name == OF_ALL, path.parent.name != package))]


def _status(words: Sequence[str], root: Path, seconds: float, profile: str) -> int:
    """How pytest ends in a fork of this process; -9 if it takes longer."""
    child = os.fork()
    if not child:
        os.setpgid(0, 0)
        os.dup2(os.open(os.devnull, os.O_RDWR), 1)
        os.dup2(1, 2)
        os.chdir(root)
        sys.path[:] = [path for path in sys.path if not Path(path).is_relative_to(TOP)]
        os.environ["RTDVS_PROFILE"], sys.dont_write_bytecode = profile, True
        try:
            os._exit(pytest.main(["-q", "-x", *words]))
        finally:
            os._exit(1)
    end = time.monotonic() + seconds
    while not (ended := os.waitpid(child, os.WNOHANG))[0]:
        if time.monotonic() > end:
            os.killpg(child, signal.SIGKILL)
            return os.waitstatus_to_exitcode(os.waitpid(child, 0)[1])
        time.sleep(0.02)
    return os.waitstatus_to_exitcode(ended[1])


def survives(change: Change, root: Path, seconds: float) -> bool:
    """Whether a change, planted in the folder for this long, passes its tests. No end is no survivor."""
    module = root / change.module
    text, tests = module.read_text(encoding="utf-8"), judges(module, root)
    docstrings, *others = map(str, tests)
    likely = [str(path) for path in tests[1:] if path.parent.name == module.parent.name]
    runs = (([docstrings], "few"), (likely and [*likely, f"--deselect={SLOW}"], "few"), (others, "gate"))
    module.write_text(planted(text, change.node), encoding="utf-8")
    try:
        return all(_status(words, root, seconds, profile) in (0, NO_TESTS) for words, profile in runs if words)
    finally:
        module.write_text(text, encoding="utf-8")


def drawn(folders: Iterable[Path], count: int, seed: int) -> list[Change]:
    """That many changes of the modules in the folders, by the seed; all if there are fewer."""
    modules = sorted({path for folder in folders
                      for path in (folder.rglob("*.py") if folder.is_dir() else [folder])})
    found = [change for module in modules for change in changes(module)]
    return random.Random(seed).sample(found, min(count, len(found)))


def copied(folder: Path) -> Path:
    """A copy of the folder of the package and its tests, beside links to all that is beside it here."""
    copy = folder / TOP.parent.name / TOP.name
    shutil.copytree(TOP, copy, ignore=shutil.ignore_patterns("__pycache__", ".mypy_cache", "out"))
    for name in (path.name for path in TOP.parent.iterdir() if path.name != TOP.name):
        (copy.parent / name).symlink_to(TOP.parent / name)
    return copy


def _warm(folder: str) -> None:
    """Makes the copy of a process, in which it then is, and imports what no change can touch."""
    for name in IMPORTED_ONCE:
        with suppress(ImportError):
            import_module(name)
    os.chdir(copied(Path(folder, str(os.getpid()))))


def _is_unseen(seconds: float, change: Change) -> bool:
    return survives(change, Path.cwd(), seconds)


def survivors(taken: Sequence[Change], jobs: int, seconds: float) -> Iterator[Change]:
    """Those of the changes that no test sees, in order."""
    with TemporaryDirectory(prefix="mutants-") as folder, ProcessPoolExecutor(
            jobs, get_context("spawn"), _warm, (folder,)) as pool:
        unseen = pool.map(partial(_is_unseen, seconds), taken)
        yield from (change for change, is_unseen in zip(taken, unseen) if is_unseen)


def main(words: Sequence[str] | None = None) -> int:
    """Prints each survivor, and the numbers."""
    parser = argparse.ArgumentParser(description=__doc__, formatter_class=argparse.RawDescriptionHelpFormatter)
    parser.add_argument("folders", type=Path, nargs="+", help="modules, or folders of them, below python/")
    parser.add_argument("--count", type=int, default=10)
    parser.add_argument("--seed", type=int, default=1)
    parser.add_argument("--seconds", type=float, default=600.0, help="the longest that the tests of a change may take")
    parser.add_argument("--jobs", type=int, default=1, help="how many changes are tried at a time")
    args = parser.parse_args(words)
    taken, found = drawn(args.folders, args.count, args.seed), 0
    for found, change in enumerate(survivors(taken, args.jobs, args.seconds), 1):
        print(change.text(), flush=True)
    print(f"{len(taken)} changes, {found} survivors")
    return 1 if found else 0


if __name__ == "__main__":
    sys.exit(main())
