"""The package as a whole: its version, its layers, its imports, and the length of its functions."""

import ast
import re
import subprocess
import sys
import tomllib
from dataclasses import is_dataclass
from importlib import import_module
from pathlib import Path
from types import ModuleType

import pytest

import rtdvs
from tests.shared.examples import TOP

SOURCE = Path(rtdvs.__file__).parent
MODULES = sorted(SOURCE.rglob("*.py"))
TESTS = sorted(path for folder in ("tests", "tools") for path in (TOP / "python" / folder).rglob("*.py"))
LAYERS = [{"_display", "_files", "_numbers", "_version", "errors"}, {"model"}, {"hints", "trace"}, {"rules", "engine"}, {"studies", "board", "export"},
          {"plot", "web"}, {"cli"}]
"""The modules and packages at the top. Each imports from layers before its own, and from itself."""
NUMBERS_FIRST = {"_numbers": {"errors"}, "_display": {"_numbers"}}  # of one layer
LATE = {"_display": {"plot"}}  # what is imported when a picture is shown
FRONT = {"__init__", "__main__"}  # these may import all layers


def dotted(module: Path) -> str:
    """A module's name without `rtdvs.`: `model.tasks`; a package's is that of its folder."""
    return ".".join(module.relative_to(SOURCE).with_suffix("").parts).removesuffix(".__init__")


def layer(package: str) -> int:
    found = [place for place, names in enumerate(LAYERS) if package in names]
    assert found, f"{package} is in no layer"
    return found[0]


def is_module(package: str, name: str) -> bool:
    """Whether a name in a package of rtdvs is a module: a function may have the name of one."""
    return package.startswith("rtdvs") and isinstance(getattr(import_module(package), name, None), ModuleType)


def imports(module: Path) -> dict[str, bool]:
    """The modules that a module imports, also inside functions, and whether only for types."""
    tree = ast.parse(module.read_text())
    typing = {id(inner) for node in ast.walk(tree) if isinstance(node, ast.If) and "TYPE_CHECKING" in ast.dump(node.test)
              for inner in ast.walk(node)}
    found: dict[str, bool] = {}
    for node in ast.walk(tree):
        names = [name.name for name in node.names] if isinstance(node, ast.Import) else []
        if isinstance(node, ast.ImportFrom):
            assert node.level == 0, "an import says the whole name"
            names = [node.module or "", *(f"{node.module}.{name.name}" for name in node.names
                                          if is_module(node.module or "", name.name))]
        for name in names:
            found[name] = id(node) in typing and found.get(name, True)
    return found


def package_imports(module: Path) -> set[str]:
    """The modules of rtdvs, without `rtdvs.`, that a module imports; those for types only aren't among them."""
    known = {dotted(each) for each in MODULES}
    inner = {name.removeprefix("rtdvs.") for name, is_typing in imports(module).items() if not is_typing}
    return inner & known - {dotted(module)}


def test_version() -> None:
    """It is the first version of CHANGELOG.md."""
    found = re.search(r"^## ([0-9.]+) \(", (TOP / "CHANGELOG.md").read_text(), re.MULTILINE)
    project = tomllib.loads((TOP / "python" / "pyproject.toml").read_text())["project"]
    assert found is not None and project["version"] == rtdvs.__version__ == found[1]


def test_citation() -> None:
    """It has the version and the date of CHANGELOG.md, the project as its author, and two papers."""
    text = (TOP / "CITATION.cff").read_text()
    said = dict(re.findall(r'^(\S+): "?([^"\n]*)"?$', text, re.MULTILINE))
    first = re.search(r"^## ([0-9.]+) \(([0-9-]+)\)", (TOP / "CHANGELOG.md").read_text(), re.MULTILINE)
    assert first is not None and (said["version"], said["date-released"], said["title"]) == (*first.groups(), "rtdvs")
    assert re.search(r"^authors:\n  - name: The rtdvs project\nreferences:\n", text, re.MULTILINE)
    assert re.findall(r"family-names: (\S+)\n +given-names: (.+)", text) == [
        ("Liu", "C. L."), ("Layland", "James W."), ("Pillai", "Padmanabhan"), ("Shin", "Kang G.")]
    _, *papers = (dict(re.findall(r"^ +(\S+): (.+)$", paper, re.MULTILINE)) for paper in text.split("  - type: "))
    facts = "title", "start", "end", "year", "doi"
    assert [[paper[fact] for fact in facts] for paper in papers] == [
        ["Scheduling Algorithms for Multiprogramming in a Hard-Real-Time Environment", "46", "61", "1973",
         "10.1145/321738.321743"],
        ["Real-Time Dynamic Voltage Scaling for Low-Power Embedded Operating Systems", "89", "102", "2001",
         "10.1145/502034.502044"]]
    assert [papers[0][fact] for fact in ("journal", "volume", "issue")] == ["Journal of the ACM", "20", "1"]
    assert papers[1]["name"] == "SOSP '01"
    assert papers[1]["collection-title"] == (
        "Proceedings of the Eighteenth ACM Symposium on Operating Systems Principles")


def test_public_names() -> None:
    assert sorted(rtdvs.__all__) == rtdvs.__all__ and len(rtdvs.__all__) == 46
    assert all(getattr(rtdvs, name).__doc__ for name in rtdvs.__all__)
    for name in ("simulate", "compare", "explain", "evaluate"):
        assert callable(getattr(rtdvs, name))


@pytest.mark.parametrize("module", [module for module in MODULES if dotted(module) not in FRONT], ids=dotted)
def test_no_module_hides_another(module: Path) -> None:
    """A module has no name that its package exports, and none of the standard library; a package may have one."""
    name = dotted(module).rpartition(".")[2]
    assert module.name == "__init__.py" or name not in sys.stdlib_module_names
    package = import_module(f"rtdvs.{dotted(module)}".rpartition(".")[0])
    assert name not in getattr(package, "__all__", [])
    assert isinstance(import_module(f"rtdvs.{dotted(module)}"), ModuleType)
    assert isinstance(getattr(package, name), ModuleType)


@pytest.mark.parametrize("module", MODULES, ids=dotted)
def test_layers(module: Path) -> None:
    """A module imports from layers before its own, and what other packages say they have."""
    own = dotted(module).split(".")[0]
    if own in FRONT:
        return
    place = layer(own)
    for name in package_imports(module):
        other, *inner = name.split(".")
        if other in {own, "__init__"} or other in NUMBERS_FIRST.get(own, set()) | LATE.get(own, set()):
            continue
        assert layer(other) < place, f"layer {own} imports {other}: {dotted(module)} imports rtdvs.{name}"
        assert not inner, f"{dotted(module)} imports rtdvs.{name}, inside the package {other}"


def test_no_cycles() -> None:
    """The modules of a package can be put in an order in which each imports earlier ones only."""
    left = {dotted(module): {name for name in package_imports(module) if "." in name}
            for module in MODULES if module.stem != "__init__"}
    while left:
        first = [name for name, others in left.items() if not others & left.keys()]
        assert first, f"a cycle among {', '.join(left)}"
        for name in first:
            del left[name]


@pytest.mark.parametrize("module", [module for module in MODULES if dotted(module).split(".")[0] != "cli"], ids=dotted)
def test_only_commands_read_words(module: Path) -> None:
    assert "argparse" not in imports(module)


def attributes(kind: ast.ClassDef) -> set[str]:
    """The fields of a dataclass, and what is assigned to `self`."""
    fields = {ast.unparse(each.target) for each in kind.body
              if isinstance(each, ast.AnnAssign) and "ClassVar" not in ast.unparse(each.annotation)}
    stored = {each.attr for each in ast.walk(kind) if isinstance(each, ast.Attribute)
              and isinstance(each.ctx, ast.Store) and ast.unparse(each.value) == "self"}
    return fields | stored


@pytest.mark.parametrize("module", MODULES, ids=dotted)
def test_classes_have_fewer_than_ten_attributes(module: Path) -> None:
    for kind in ast.walk(ast.parse(module.read_text())):
        if isinstance(kind, ast.ClassDef):
            assert len(attributes(kind)) < 10, f"{kind.name}: {sorted(attributes(kind))}"


CHANGING = {"_Begun", "_Tree", "Node", "Latest", "Late", "Moments", "State", "Summary", "OnMachine", "Guard", "Stop", "Visit"}
"""The dataclasses whose values change, beside the exceptions."""


@pytest.mark.parametrize("module", [module for module in MODULES if module.stem not in FRONT], ids=dotted)
def test_dataclasses_are_frozen(module: Path) -> None:
    """Two equal values stay equal, and each has a hash."""
    name = f"rtdvs.{dotted(module)}"
    for kind in vars(import_module(name)).values():
        if isinstance(kind, type) and kind.__module__ == name and is_dataclass(kind):
            is_frozen = getattr(kind, "__dataclass_params__").frozen
            assert is_frozen == (kind.__name__ not in CHANGING and not issubclass(kind, Exception)), kind.__name__


@pytest.mark.parametrize("module", [*MODULES, *TESTS], ids=lambda path: str(path.relative_to(TOP / "python")))
def test_functions_are_short(module: Path) -> None:
    for node in ast.walk(ast.parse(module.read_text())):
        if isinstance(node, ast.FunctionDef):
            assert node.end_lineno is not None and node.end_lineno - node.lineno < 40, node.name


def test_each_case_has_a_name(request: pytest.FixtureRequest) -> None:
    """No case of a table is named by its place only, such as `tasks0`: of all tests that are run with this one."""
    for item in request.session.items:
        if spec := getattr(item, "callspec", None):
            assert not any(re.search(rf"(^|-){name}\d+($|-)", spec.id) for name in spec.params), item.nodeid


def test_no_dependencies() -> None:
    """All modules are imported where matplotlib and pandas are missing."""
    names = [f"rtdvs.{dotted(module)}" for module in MODULES if module.stem not in FRONT]
    missing = "import sys; sys.modules |= dict.fromkeys(['matplotlib', 'pandas', 'numpy'])"
    words = [sys.executable, "-c", f"{missing}; import {', '.join(names)}"]
    subprocess.run(words, env={"PYTHONPATH": str(SOURCE.parent)}, check=True)
