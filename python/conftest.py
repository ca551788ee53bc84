"""Examples in docstrings that call the program are skipped without a built one, or a built library."""

import os
from pathlib import Path

import pytest

CRATES = Path(__file__).resolve().parents[1] / "crates"
BUILT = (CRATES / "rtdvs" / "out" / "rtdvs", CRATES / "rtdvs_c" / "out" / "lib" / "librtdvs.so")


def pytest_collection_modifyitems(items: list[pytest.Item]) -> None:
    if "RTDVS" in os.environ or any(path.is_file() for path in BUILT):
        return
    for item in items:
        examples = item.dtest.examples if isinstance(item, pytest.DoctestItem) and item.dtest else []
        if any("find_engine()" in example.source for example in examples):
            item.add_marker(pytest.mark.skip(reason="no built program or library"))
