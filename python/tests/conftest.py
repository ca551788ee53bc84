"""What all tests share: the locale, the program, the example folder and hypothesis' profile."""

import locale
import os
import shutil
import subprocess
from pathlib import Path

import pytest
from hypothesis import HealthCheck, settings

from rtdvs.engine import Engine
from tests.shared.examples import LIBRARY, TOP

# Libraries print numbers as the environment asks, be it with a decimal comma; messages stay English.
locale.setlocale(locale.LC_ALL, "")
locale.setlocale(locale.LC_MESSAGES, "C")

settings.register_profile("gate", derandomize=True, deadline=None, max_examples=30, database=None,
                          suppress_health_check=list(HealthCheck))
settings.register_profile("few", settings.get_profile("gate"), max_examples=3)  # to see wrong code early
settings.load_profile(os.environ.get("RTDVS_PROFILE", "gate"))


@pytest.fixture(scope="session")
def program() -> Path:
    """The built program: $RTDVS or the repository's; without one a test is skipped."""
    built = Path(os.environ.get("RTDVS", TOP / "crates" / "rtdvs" / "out" / "rtdvs"))
    if not built.is_file():
        pytest.skip("no built program")
    return built


@pytest.fixture(scope="session")
def engine(program: Path) -> Engine:
    """The built program as an engine."""
    return Engine(program, timeout=60.0)


@pytest.fixture(scope="session")
def library() -> Path:
    """The repository's shared library; without one a test is skipped."""
    if not LIBRARY.is_file():
        pytest.skip("no built library")
    return LIBRARY


@pytest.fixture(scope="session")
def stand_in(tmp_path_factory: pytest.TempPathFactory) -> Path:
    """The library of stand_in.c; without a C compiler a test is skipped."""
    return compiled(Path(__file__).with_name("stand_in.c"), tmp_path_factory.mktemp("stand_in"))


def compiled(source: Path, folder: Path) -> Path:
    """The shared library of a C file."""
    compiler = shutil.which("cc") or pytest.skip("no C compiler")
    made = folder / "librtdvs.so"
    subprocess.run([compiler, "-shared", "-fPIC", "-o", made, source], check=True)
    return made
