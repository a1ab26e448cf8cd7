"""Which program and which library the checks use. `./wf which` is the only source of the answer about the program."""
import enum
import os
import shutil
import subprocess
from dataclasses import dataclass
from pathlib import Path

from wfdev.build import fresh
from wfdev.repo import paths

LIBRARY = paths.CRATES / "wf_c" / "out" / "libwf.a"
UNPROVED_LIBRARY = LIBRARY.with_name("libwf.unproved.a")
BUILD_SECONDS = 1200


class Kind(enum.Enum):
    """How much is known of a built file."""

    PROVED = "proved"
    UNPROVED = "unproved"
    NAMED = "named"


@dataclass(frozen=True)
class Program:
    """A built program `wf`, and whether it is proved, unproved, or named by the variable WF_PROGRAM."""

    kind: Kind
    path: Path

    def __str__(self) -> str:
        return f"the {self.kind.value} program {paths.shown(self.path)}"


class NoLibrary(Exception):
    """There is no library that is built from these sources, and none can be built."""


def environment() -> dict[str, str]:
    """Returns the environment for `./wf`. The variable WF, an older name of WF_PROGRAM, still works; WF_PROGRAM wins."""
    variables = dict(os.environ)
    old_name = variables.pop("WF", "")
    if old_name and not variables.get("WF_PROGRAM"):
        variables["WF_PROGRAM"] = old_name
    return variables


def find(script: Path = paths.SCRIPT) -> Program | None:
    """Returns the program that `./wf which` names, or None if no program is built from these sources."""
    done = subprocess.run([script, "which"], env=environment(), capture_output=True, text=True, check=False)
    kind, _, path = done.stdout.strip().partition(" ")
    return Program(Kind(kind), Path(path).absolute()) if done.returncode == 0 and path else None


def fresh_library(script: Path = paths.SCRIPT) -> Path | None:
    """Returns the library that `./wf which --library` names, or None if none is built from these sources."""
    done = subprocess.run([script, "which", "--library"], env=environment(), capture_output=True, text=True, check=False)
    path = done.stdout.strip().partition(" ")[2]
    return Path(path).absolute() if done.returncode == 0 and path else None


def library() -> Path:
    """Returns the static library that is built from these sources, proved or not. If there is none, builds the unproved one."""
    found = fresh_library()
    if found is not None:
        return found
    if shutil.which("rt") is None:
        raise NoLibrary("no library is built from these sources, and there is no rt to build one")
    subprocess.run([paths.SCRIPT, "lib", "--unproved"], check=True, capture_output=True, timeout=BUILD_SECONDS)
    return UNPROVED_LIBRARY


def shared_library() -> Path:
    """Returns the shared library of the static one that `library` returns. `./wf lib` makes it if it is missing."""
    archive = library()
    made = archive.parent / "shared" / archive.with_suffix(".so").name
    if not made.is_file() or made.stat().st_mtime < archive.stat().st_mtime:
        words = [] if archive == LIBRARY else ["--unproved"]
        subprocess.run([paths.SCRIPT, "lib", *words], check=True, capture_output=True, timeout=BUILD_SECONDS)
    if not made.is_file():
        raise NoLibrary(f"'./wf lib' made no {paths.shown(made)}: it needs a C compiler and readelf")
    return made


def kernel_library() -> Path:
    """Returns the static library for a kernel module that is built from these sources. If there is none, builds the unproved one."""
    if fresh.Sources(str(paths.TOP)).is_fresh(fresh.KERNEL_LIBRARY):
        return paths.TOP / fresh.KERNEL_LIBRARY
    if shutil.which("rt") is None and not fresh.Sources(str(paths.TOP)).is_fresh(fresh.UNPROVED_KERNEL_LIBRARY):
        raise NoLibrary("no library for a kernel module is built from these sources, and there is no rt to build one")
    words = ["lib", "--kernel", "--unproved"]
    subprocess.run([paths.SCRIPT, *words], check=True, capture_output=True, timeout=BUILD_SECONDS)
    return paths.TOP / fresh.UNPROVED_KERNEL_LIBRARY
