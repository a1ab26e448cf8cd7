"""Runs ruff and `mypy --strict` over the packages of Python that pyproject.toml lists. A tool that is missing is skipped."""
import shutil
import subprocess
import sys
import tomllib
from collections.abc import Sequence
from dataclasses import dataclass
from pathlib import Path

from wfdev.harness.script import Script
from wfdev.repo import paths

SCRIPT = Script("types")
SETTINGS = paths.TOP / "pyproject.toml"
SHOWN = 20


@dataclass(frozen=True)
class Package:
    """A package of Python: its name, the folder that it is in, and whether the tools have to pass."""

    name: str
    folder: str
    strict: bool

    @property
    def path(self) -> str:
        """The package's own folder."""
        return str(Path(self.folder) / self.name)


def packages(settings: Path = SETTINGS) -> list[Package]:
    """Returns the packages that the settings list."""
    listed = tomllib.loads(paths.read(settings))["tool"]["wfdev"]["packages"]
    return [Package(one["name"], one["folder"], one["strict"]) for one in listed]


def commands(package: Package) -> dict[str, list[str]]:
    """Returns the command line of each tool for a package."""
    return {"ruff": ["ruff", "check", package.path], "mypy": ["mypy", "--strict", "--package", package.name]}


def look_at(package: Package, tool: str, words: Sequence[str]) -> bool:
    """Runs a tool over a package and returns whether the package may be as it is."""
    done = subprocess.run(words, cwd=paths.TOP, stdout=subprocess.PIPE, stderr=subprocess.STDOUT, text=True, check=False)
    lines = done.stdout.strip().splitlines() or ["no output"]
    if done.returncode == 0:
        SCRIPT.say(f"{tool}: {package.name}: {lines[-1]}")
    elif package.strict:
        print("\n".join(lines[:SHOWN]))
        SCRIPT.say(f"{tool}: {package.name}: {lines[-1]}")
    else:
        SCRIPT.say(f"{tool}: {package.name} is not strict yet: {lines[-1]}")
    return done.returncode == 0 or not package.strict


def main(words: Sequence[str] | None = None) -> int:
    """Runs the tools and returns the exit status."""
    SCRIPT.parser(__doc__).parse_args(words)
    known = packages()
    missing = [tool for tool in commands(known[0]) if shutil.which(tool) is None]
    for tool in missing:
        SCRIPT.say(f"there is no {tool}, so it is left out")
    runs = [(package, tool, line) for package in known for tool, line in commands(package).items() if tool not in missing]
    if not runs:
        SCRIPT.skip("there is neither ruff nor mypy")
    bad = sum(not look_at(*run) for run in runs)
    SCRIPT.say(f"{len(known)} packages, {bad} faults; left out: {', '.join(missing) or 'nothing'}")
    return 1 if bad else 0


if __name__ == "__main__":
    sys.exit(main())
