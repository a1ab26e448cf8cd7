"""Runs all checks, or those that are given. checks/README.md describes each."""
import sys
from collections.abc import Sequence

from wfdev.checks import runner
from wfdev.harness.script import Script


def main(words: Sequence[str] | None = None) -> int:
    """Runs the checks and returns the exit status."""
    return runner.main(Script("all"), words)


if __name__ == "__main__":
    sys.exit(main())
