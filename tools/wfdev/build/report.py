"""The output of the script ./wf itself: its messages on standard error, and its texts on standard output."""
from __future__ import annotations

import os

FAILED = 125


class Failure(Exception):
    """The script could not do its own part. The message says what is wrong, what was expected, and what to do; `said` is the end
    of the output of a command that failed."""

    def __init__(self, why: str, said: str = "") -> None:
        super().__init__(why)
        self.why = why
        self.said = said


class Refusal(Exception):
    """The words are wrong: the script ends with status 1. If the first word is a command, `command` names it."""

    def __init__(self, why: str, command: str = "") -> None:
        super().__init__(why)
        self.command = command


class WriteFault(Exception):
    """Standard output is closed or full."""


class Notes:
    """Notes on standard error, which --quiet leaves out."""

    quiet = False

    @classmethod
    def say(cls, line: str) -> None:
        """Prints a note."""
        if not cls.quiet:
            complain(line)


def show_octets(octets: bytes) -> None:
    """Writes octets to standard output, whole."""
    try:
        while octets:
            octets = octets[os.write(1, octets) :]
    except BrokenPipeError:
        raise
    except OSError:
        raise WriteFault from None


def show(text: str) -> None:
    """Writes a text to standard output, whole."""
    show_octets(text.encode(errors="surrogateescape"))


def write(text: str) -> None:
    """Writes lines to standard error. If it is closed or full there is nobody to read them."""
    octets = (text if text.endswith("\n") else f"{text}\n").encode(errors="surrogateescape")
    try:
        while octets:
            octets = octets[os.write(2, octets) :]
    except OSError:
        pass


def complain(text: str) -> None:
    """Reports lines on standard error, also with --quiet."""
    write("\n".join(f"wf: {line}" for line in text.splitlines()))


def complain_of(failure: Failure) -> None:
    """Prints the output of the command that failed, and then the reason."""
    if failure.said:
        write(failure.said)
    complain(failure.why)
