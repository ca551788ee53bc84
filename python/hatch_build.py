"""Builds the wheel: it carries the shared library, for the platform where it was built, if the repository has one."""

import sysconfig
from pathlib import Path
from typing import Any

from hatchling.builders.hooks.plugin.interface import BuildHookInterface

LIBRARY = Path(__file__).resolve().parents[1] / "crates" / "rtdvs_c" / "out" / "lib" / "librtdvs.so"


class LibraryHook(BuildHookInterface[Any]):
    """Puts the library beside the modules, where `find_engine` looks for it."""

    def initialize(self, version: str, build_data: dict[str, Any]) -> None:
        if LIBRARY.is_file():
            platform = sysconfig.get_platform().replace("-", "_").replace(".", "_")
            build_data["force_include"][str(LIBRARY)] = "rtdvs/librtdvs.so"
            build_data["pure_python"], build_data["tag"] = False, f"py3-none-{platform}"
