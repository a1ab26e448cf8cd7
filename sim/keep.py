"""Results that are kept, so that a run that has finished is not run again.

The key of a result is a checksum of all that it depends on: the scenario with its seed, the path, the program and the bench's sources.
"""
from __future__ import annotations

import contextlib
import functools
import hashlib
import json
import os
import tempfile
from dataclasses import asdict
from pathlib import Path

from .exports import Numbers
from .scenario import Scenario

SOURCES = Path(__file__).resolve().parent
ONLY_SHOW = ("cli", "figures", "outputs", "paper", "plots", "progress", "study", "styles", "summary", "svg", "table")  # modules that no number depends on
IRRELEVANT = ("name", "title", "note", "pictures", "shown", "compare")  # parts of a scenario that no number depends on


def standard_folder() -> Path:
    """The folder of results: below `XDG_CACHE_HOME`, or below the home folder's `.cache`."""
    return Path(os.environ.get("XDG_CACHE_HOME") or Path("~/.cache").expanduser()) / "wf-sim"


@functools.cache
def checksum_of_file(path: str) -> str:
    return hashlib.sha256(Path(path).read_bytes()).hexdigest()


@functools.cache
def checksum_of_bench() -> str:
    """A checksum of the bench's sources, without its tests and without the modules that only show numbers."""
    whole = hashlib.sha256()
    for path in sorted([*SOURCES.glob("*.py"), *SOURCES.glob("*.json"), *SOURCES.glob("baselines/*.py")]):
        if path.stem in ONLY_SHOW:
            continue
        whole.update(f"{path.relative_to(SOURCES)} {checksum_of_file(str(path))}\n".encode())
    return whole.hexdigest()


def key(scenario: Scenario, path: str, program: str | None, until: int) -> str:
    """The key of a run over a path, by a program's file if the path is the machine, until a microsecond."""
    described = {name: value for name, value in asdict(scenario).items() if name not in IRRELEVANT}
    by = checksum_of_file(program) if program else ""
    whole = json.dumps([described, path, by, until, checksum_of_bench()], sort_keys=True)
    return hashlib.sha256(whole.encode()).hexdigest()


class Store:
    """A folder of results, a file for each. Without a folder nothing is kept."""

    def __init__(self, folder: Path | None = None, is_fresh: bool = False) -> None:
        self.folder = folder
        self.is_fresh = is_fresh  # whether results that were kept before are not read

    def place(self, name: str) -> Path:
        assert self.folder
        return self.folder / name[:2] / f"{name}.json"

    def get(self, name: str) -> Numbers | None:
        """The result of this key, if there is one that can be read."""
        if self.folder is None or self.is_fresh:
            return None
        try:
            found = json.loads(self.place(name).read_text(encoding="utf-8"))
        except (OSError, ValueError):
            return None
        return found if isinstance(found, dict) else None

    def put(self, name: str, numbers: Numbers) -> None:
        """Keeps a result: written aside, and then renamed. A folder that cannot be written keeps nothing."""
        if self.folder is None:
            return
        place = self.place(name)
        with contextlib.suppress(OSError):
            place.parent.mkdir(parents=True, exist_ok=True)
            descriptor, aside = tempfile.mkstemp(prefix=f".{name[:8]}.", dir=place.parent)
            with open(descriptor, "w", encoding="utf-8") as file:
                json.dump(numbers, file)
            os.replace(aside, place)
