"""Drives a transmit path next to a cell that gets the meaning of the driver's calls, with octets that are no answer too.

Both are dropped with frames in each place. The trials are in path-trials.d as text, and are not proved.
"""
import sys
from collections.abc import Sequence

from wfdev.harness import trials
from wfdev.harness.script import Script

SCRIPT = Script("path-trials")
SECONDS = 300


def main(words: Sequence[str] | None = None) -> int:
    """Runs the trials and returns the exit status."""
    SCRIPT.parser(__doc__).parse_args(words)
    return trials.run(SCRIPT, "wf_path_trials", SECONDS)


if __name__ == "__main__":
    sys.exit(main())
