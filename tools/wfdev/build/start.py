"""Starts the package from the script ./wf, which sets Python's path to the folder tools.

This file uses old syntax, so that an old Python can say which one is expected. Until the package installs its own handlers, Ctrl-C ends
the process without a traceback.
"""
# ruff: noqa: PTH
import os
import signal
import sys

OLDEST = (3, 11)


def hold_closed_streams() -> None:
    """Gives each standard stream that is closed a file that fails in the same way, so that no other file gets its number."""
    for number, way in ((0, os.O_WRONLY), (1, os.O_RDONLY), (2, os.O_RDONLY)):
        try:
            os.fstat(number)
        except OSError:
            os.open(os.devnull, way)
            os.set_inheritable(number, True)


def start(words: list) -> int:  # type: ignore[type-arg]
    """Carries out the words of the script, and returns its status."""
    signal.signal(signal.SIGINT, signal.SIG_DFL)
    hold_closed_streams()
    if sys.version_info < OLDEST:
        found = "%d.%d" % sys.version_info[:2]
        wanted = "%d.%d" % OLDEST
        sys.stderr.write("wf: 'python3' is Python %s: expected %s or newer; put a newer python3 on the PATH\n" % (found, wanted))
        return 125
    from wfdev.build import door

    return door.main(words)
