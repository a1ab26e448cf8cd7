"""Runs the command `live` on threads in one process, with and without a turnstile, and replays its traces.

The turnstile counts the workers that are inside at once. The trials are in meetings-on-threads.d as text, and are not
proved.
"""
import sys
from collections.abc import Sequence

from wfdev.harness import trials
from wfdev.harness.script import Script

SCRIPT = Script("meetings-on-threads")
SECONDS = 300


def main(words: Sequence[str] | None = None) -> int:
    """Runs the trials and returns the exit status."""
    SCRIPT.parser(__doc__).parse_args(words)
    return trials.run(SCRIPT, "wf_meetings", SECONDS)


if __name__ == "__main__":
    sys.exit(main())
