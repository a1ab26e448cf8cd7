"""Compares wf_rotation with the paper's loop over plain lists, on 200 random rotations.

Keys are listed, charged, picked and removed, and both have the same winners, lists, order and deficits. The trial is text in
rotations.d, and it is not proved.
"""
import sys
from collections.abc import Sequence

from wfdev.harness import trials
from wfdev.harness.script import Script

SCRIPT = Script("rotations")
SECONDS = 300


def main(words: Sequence[str] | None = None) -> int:
    """Runs the trials and returns the exit status."""
    SCRIPT.parser(__doc__).parse_args(words)
    return trials.run(SCRIPT, "rotation_trials", SECONDS)


if __name__ == "__main__":
    sys.exit(main())
