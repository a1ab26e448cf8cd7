"""How far the runs of a command are: bars on a terminal, lines elsewhere, or nothing."""
from __future__ import annotations

import sys
import time
from collections.abc import Callable

CLEAR = "\r\x1b[K"  # clears the line of a terminal
WIDTH = 30  # characters of a bar
INTERVAL = 0.2  # seconds between two bars


def report(what: str) -> None:
    """Writes a line on standard error, if that is open."""
    if sys.stderr is not None:
        print(f"wf sim: {what}", file=sys.stderr)


def is_terminal() -> bool:
    return bool(sys.stderr and sys.stderr.isatty())


def bar(share: float) -> str:
    """A bar of which this share is full."""
    full = int(WIDTH * min(max(share, 0.0), 1.0))
    return f"[{'#' * full}{'.' * (WIDTH - full)}]"


class Progress:
    """Counts runs that have finished. This class shows nothing."""

    def __init__(self, total: int = 0) -> None:
        self.total = total
        self.done = 0
        self.kept = 0  # results of earlier commands among them
        self.began = time.monotonic()

    def finished(self, label: str, is_kept: bool) -> None:
        """Notes that a run has finished, or that an earlier command had kept its result."""
        self.done += 1
        self.kept += is_kept
        if not is_kept or self.done == self.total:
            self.show(label)

    def state(self) -> str:
        """The runs that are done, and an estimate of the time that the others take."""
        state = f"{self.done} of {self.total} runs"
        ran = self.done - self.kept
        if ran and self.done < self.total:
            seconds = (time.monotonic() - self.began) / ran * (self.total - self.done)
            state += f", about {seconds:.0f} s left"
        return state

    def show(self, label: str) -> None:
        """Shows the progress after this run."""

    def close(self) -> None:
        """Leaves no trace of a bar."""


class Bars(Progress):
    """A bar on a terminal."""

    def show(self, label: str) -> None:
        share = self.done / max(self.total, 1)
        print(f"{CLEAR}wf sim: {bar(share)} {self.state()}", end="", file=sys.stderr, flush=True)

    def close(self) -> None:
        print(CLEAR, end="", file=sys.stderr, flush=True)


class Lines(Progress):
    """A line for each run."""

    def show(self, label: str) -> None:
        report(f"{self.state()}: {label}")


def progress(total: int, quiet: bool) -> Progress:
    """The progress of several runs."""
    if quiet:
        return Progress(total)
    return Bars(total) if is_terminal() else Lines(total)


def within(label: str, seconds: float, quiet: bool) -> Callable[[int], None] | None:
    """A function that a single run calls with its simulated microseconds; None if standard error is no terminal."""
    if quiet or not is_terminal():
        return None
    shown = time.monotonic()

    def show(now: int) -> None:
        nonlocal shown
        if time.monotonic() - shown > INTERVAL:
            shown = time.monotonic()
            line = f"{CLEAR}wf sim: {label}: {bar(now / 1e6 / seconds)} {now / 1e6:.1f} of {seconds:g} s"
            print(line, end="", file=sys.stderr, flush=True)

    return show
