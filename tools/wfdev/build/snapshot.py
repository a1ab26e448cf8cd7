"""Copies of the sources: a build reads a copy, so that its record is right even if somebody edits the sources meanwhile."""
# ruff: noqa: PTH
from __future__ import annotations

import os
import pathlib
import shutil

from . import crates, fresh
from .children import stop_if_asked

# The input and the expected output of a program when the gate runs it, in the folder of its crate.
RUN_FILES = ("stdin", "stdout", "args", "status")


def copy_sources(top: pathlib.Path, target: pathlib.Path) -> str:
    """Copies all sources below a top, and returns the checksum of the copy."""
    names = fresh.source_names(str(top))
    for name in names:
        _copy(top / name, target / name)
    return fresh.checksum(str(target), names)


def _copy(source: pathlib.Path, target: pathlib.Path) -> None:
    stop_if_asked()
    target.parent.mkdir(parents=True, exist_ok=True)
    shutil.copyfile(source, target)


def add_run_files(top: pathlib.Path, target: pathlib.Path, crate: str) -> None:
    """Copies the input and the expected output of the program of a crate."""
    folder = top / "crates" / crate
    for name in RUN_FILES:
        if (folder / name).is_file():
            _copy(folder / name, target / "crates" / crate / name)
    if (folder / "data").is_dir():
        shutil.copytree(folder / "data", target / "crates" / crate / "data")


def keep_only(target: pathlib.Path, names: list[str]) -> None:
    """Removes all crates but these from a copy, and their lines from its crates.txt."""
    known = crates.read(target / "crates.txt")
    for folder in (target / "crates").iterdir():
        if folder.name not in names:
            shutil.rmtree(folder)
    write_lines(target, [known[name].line for name in names])


def write_lines(target: pathlib.Path, lines: list[str]) -> None:
    """Writes crates.txt of a copy."""
    (target / "crates.txt").write_text("".join(f"{line}\n" for line in lines), encoding="utf-8")


def is_top(target: pathlib.Path) -> None:
    """Makes a copy the top of a repository, as `rt ci` expects it."""
    os.makedirs(target / ".git", exist_ok=True)
