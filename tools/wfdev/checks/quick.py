"""Runs the checks that the gate runs, or those that are given."""
import sys
from collections.abc import Sequence

from wfdev.checks import runner
from wfdev.harness.script import Script


def main(words: Sequence[str] | None = None) -> int:
    """Runs the checks and returns the exit status."""
    return runner.main(Script("quick"), words, quick=True)


if __name__ == "__main__":
    sys.exit(main())
