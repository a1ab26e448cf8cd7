"""The kit Rattle, which proves and compiles the sources."""
from __future__ import annotations

import dataclasses
import pathlib

from . import children, fresh
from .report import Failure

NO_KIT = (
    "there is no 'rt' on the PATH: it belongs to the kit Rattle, which proves and builds these sources\n"
    "README.md, 'Set up, run and test', says which kit is needed and how to set it up; './wf help' works without one"
)
PARTS = ("bin/rt", "bin/rtlib.py", "toolchain/bin/clang", "toolchain/bin/ld.lld", "toolchain/bin/llvm-ar", "c/liblibc_c.a")


@dataclasses.dataclass(frozen=True)
class Kit:
    """The kit and its folder."""

    folder: pathlib.Path

    def tool(self, name: str) -> pathlib.Path:
        """Returns the path of a tool of the kit's compiler."""
        return self.folder / "toolchain" / "bin" / name


def need_rt() -> None:
    """Fails if there is no kit."""
    if fresh.find_on_path("rt") is None:
        raise Failure(NO_KIT)


def find_kit() -> Kit:
    """Returns the kit: the first page that `rt doc` names is at its top."""
    need_rt()
    lines = children.output(["rt", "doc"]).splitlines()
    folder = pathlib.Path(lines[0]).parent if lines else pathlib.Path("-")
    for part in PARTS:
        if not (folder / part).exists():
            raise Failure(f"the kit at {folder} has no {part}: README.md names the kit that these sources are built with")
    return Kit(folder)
