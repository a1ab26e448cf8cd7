"""A script of checks/ or bench/ as its module sees it: its name, its folder, its messages, and how it ends."""
import argparse
import os
import shutil
import sys
from collections.abc import Sequence
from dataclasses import dataclass
from pathlib import Path
from typing import NoReturn

from wfdev.repo import paths, programs

NO_PROGRAM = "no program is as new as the sources (./wf build proves one, ./wf build --unproved takes a minute)"


class Difference(Exception):
    """A run had another result than expected."""


def expect(what: str, found: object, wanted: object) -> None:
    """Raises Difference if two values differ."""
    if found != wanted:
        raise Difference(f"{what}: {found!r}; expected {wanted!r}")


@dataclass(frozen=True)
class Script:
    """A script, by its name. Each line that it prints about itself begins with this name."""

    name: str
    place: Path = paths.CHECKS

    @property
    def folder(self) -> Path:
        """The folder NAME.d with the files that the script reads."""
        return self.place / f"{self.name}.d"

    def parser(self, about: str | None) -> argparse.ArgumentParser:
        """Returns a parser of the command line; `about` is the module's doc comment."""
        return argparse.ArgumentParser(
            prog=f"{self.place.name}/{self.name}", description=about, formatter_class=argparse.RawDescriptionHelpFormatter
        )

    def say(self, text: object) -> None:
        """Prints a line."""
        print(f"{self.name}: {text}", flush=True)

    def fail(self, why: object) -> NoReturn:
        """Ends the script with status 1."""
        sys.exit(f"{self.name}: {why}")

    def skip(self, why: str) -> NoReturn:
        """Ends a check that cannot run, with status 0. `checks/all` recognizes it by this line."""
        self.say(f"skipped, since {why}")
        sys.exit(0)

    def require(self, *tools: str) -> None:
        """Skips the check if one of these tools is missing."""
        for tool in tools:
            if shutil.which(tool) is None:
                self.skip(f"there is no {tool}")

    def program(self) -> programs.Program:
        """Returns the program that `./wf which` names, and says which one it is; skips the check if there is none."""
        found = self.program_or_none()
        if found is None:
            self.skip(NO_PROGRAM)
        if not os.access(found.path, os.X_OK):
            self.fail(f"{found} cannot be run")
        return found

    def program_or_none(self) -> programs.Program | None:
        """Returns the program that `./wf which` names, if any, and says which one it is."""
        found = programs.find()
        if found is not None:
            self.say(f"uses {found}")
        return found

    def library(self) -> Path:
        """Returns the static library, built if necessary; skips the check if it cannot be built."""
        try:
            return programs.library()
        except programs.NoLibrary as why:
            self.skip(str(why))

    def shared_library(self) -> Path:
        """Returns the shared library, built if necessary; skips the check if it cannot be built."""
        try:
            return programs.shared_library()
        except programs.NoLibrary as why:
            self.skip(str(why))

    def ended(self, bad: int, what: str = "runs") -> int:
        """Says how many runs had another result than expected, and returns the exit status."""
        self.say(f"{bad} {what} differed")
        return 1 if bad else 0


def words_of(given: Sequence[str] | None) -> list[str]:
    """Returns the words of the command line, or those that a test passes to `main`."""
    return list(sys.argv[1:] if given is None else given)
