"""Runs the tests of the package wfdev, in tools/wfdev/tests, and those of the scripts in tools/, in checks/tests."""
import sys
import unittest
from collections.abc import Sequence
from pathlib import Path

from wfdev.harness.script import Script
from wfdev.repo import paths

SCRIPT = Script("self-tests")
PACKAGE = paths.TOP / "tools"


def suite() -> unittest.TestSuite:
    """Returns all tests."""
    cases = unittest.TestSuite()
    folders: list[tuple[Path, Path]] = [(PACKAGE / "wfdev" / "tests", PACKAGE), (paths.CHECKS / "tests", paths.CHECKS / "tests")]
    for folder, top in folders:
        if folder.is_dir():
            cases.addTests(unittest.TestLoader().discover(str(folder), pattern="test_*.py", top_level_dir=str(top)))
    return cases


def main(words: Sequence[str] | None = None) -> int:
    """Runs the tests and returns the exit status."""
    SCRIPT.parser(__doc__).parse_args(words)
    went = unittest.TextTestRunner(stream=sys.stdout, verbosity=1).run(suite())
    SCRIPT.say(f"{went.testsRun} tests run, {len(went.failures) + len(went.errors)} failed")
    return 0 if went.wasSuccessful() and went.testsRun else 1


if __name__ == "__main__":
    sys.exit(main())
