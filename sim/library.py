"""Which library of the package wfpath decides in this process. If there is none, the machine runs on a pipe.

In a checkout it is the one that `./wf lib` or `./wf lib --unproved` built from the present sources, elsewhere the one that wfpath finds.
"""
from __future__ import annotations

import importlib
import importlib.util
import subprocess
import sys
from functools import cache
from pathlib import Path
from typing import Any

from .program import SCRIPT, TOP

PACKAGE = TOP / "python"  # the folder of wfpath in a checkout


@cache
def raw() -> Any | None:
    """The module `wfpath.raw`; None if there is no package wfpath, or if the package finds no library that it can load."""
    if SCRIPT is not None and importlib.util.find_spec("wfpath") is None:
        sys.path.append(str(PACKAGE))
    try:
        return importlib.import_module("wfpath.raw")
    except ImportError:
        return None


def find() -> tuple[str, str] | None:
    """The kind of the library and the path of its file; None if there is none that can be loaded."""
    calls = raw()
    if calls is None:
        return None
    if SCRIPT is None:
        return known()
    found = built(SCRIPT)
    try:
        return found if found and calls.library(found[1]) else None
    except ImportError:
        return None


def known() -> tuple[str, str]:
    """The kind and the path of the library that wfpath finds."""
    package: Any = importlib.import_module("wfpath")
    kinds = {True: "proved", False: "unproved", None: "installed"}
    return kinds[package.library_is_proved], package.library_path


def built(script: Path) -> tuple[str, str] | None:
    """The library that is built from the sources of a checkout: the shared object next to the archive that `./wf which --library` names."""
    done = subprocess.run([script, "which", "--library"], stdout=subprocess.PIPE, stderr=subprocess.DEVNULL, text=True, check=False)
    kind, _, archive = done.stdout.strip().partition(" ")
    if done.returncode != 0 or not archive:
        return None
    path = Path(archive).parent / "shared" / Path(archive).with_suffix(".so").name
    return (kind, str(path)) if path.is_file() and path.stat().st_mtime >= Path(archive).stat().st_mtime else None


def most_calls() -> int:
    """The greatest number of calls that a cell of the library takes."""
    calls = raw()
    assert calls is not None, "there is a library"
    return int(calls.RANGES["calls"][1])
