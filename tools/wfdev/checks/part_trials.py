"""Calls the parts of the machine and of its octets, one call a row, and compares each result with one worked out by hand.

The rows are those that no trace and no script reaches. They are in part-trials.d as text, and are not proved.
"""
import sys
from collections.abc import Sequence

from wfdev.harness import trials
from wfdev.harness.script import Script

SCRIPT = Script("part-trials")
SECONDS = 60


def main(words: Sequence[str] | None = None) -> int:
    """Runs the trials and returns the exit status."""
    SCRIPT.parser(__doc__).parse_args(words)
    return trials.run(SCRIPT, "wf_part_trials", SECONDS)


if __name__ == "__main__":
    sys.exit(main())
