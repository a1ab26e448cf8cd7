"""Calls a path, a gate and the commands, one call a row, and compares each result with one worked out by hand.

The commands run over sources and sinks that split the data and fail at each call, and `live` runs on threads whose
workers meet at a turnstile. The rows are in command-trials.d as text, and are not proved.
"""
import sys
from collections.abc import Sequence

from wfdev.harness import trials
from wfdev.harness.script import Script

SCRIPT = Script("command-trials")
SECONDS = 60


def main(words: Sequence[str] | None = None) -> int:
    """Runs the trials and returns the exit status."""
    SCRIPT.parser(__doc__).parse_args(words)
    return trials.run(SCRIPT, "wf_command_trials", SECONDS)


if __name__ == "__main__":
    sys.exit(main())
