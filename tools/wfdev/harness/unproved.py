"""Builds without proofs, as `./wf build --unproved` makes them, for checks that need other levels of optimization or tests."""
from pathlib import Path

from wfdev.build import unproved
from wfdev.build.report import Failure

NOT_OPTIMIZED = "-O0"


class NotBuilt(Exception):
    """The kit did not build the program."""


def build_plain(crate: str, out: Path, folder: Path) -> None:
    """Builds a program that is not optimized, so that no call is inlined."""
    try:
        unproved.build(crate, out, folder, NOT_OPTIMIZED)
    except Failure as why:
        raise NotBuilt(str(why)) from why


def build_tests(place: Path, out: Path, folder: Path) -> None:
    """Builds the tests of the crate in a folder, as a program that lists them or runs the one that it is given."""
    try:
        unproved.build_tests(place, out, folder)
    except Failure as why:
        raise NotBuilt(str(why)) from why
