"""Commands that a build runs: each is stopped, with all that it started, when a signal stops the build."""
# ruff: noqa: PTH
from __future__ import annotations

import contextlib
import ctypes
import os
import pathlib
import signal
import subprocess
import tempfile
import time
from collections.abc import Callable, Iterator, Mapping, Sequence
from types import FrameType

STOPPING = (signal.SIGINT, signal.SIGTERM, signal.SIGHUP, signal.SIGQUIT)
PARENT_DEATH_SIGNAL = 1  # of prctl
PAUSE = 0.05  # seconds between two looks at a command
PATIENCE = 10.0  # seconds that a command has to end after SIGTERM
ENDING = 128


class Stopped(BaseException):
    """A signal stopped the build."""

    def __init__(self, number: int) -> None:
        super().__init__(number)
        self.status = ENDING + number


class _Signals:
    """The signal that arrived first, if one did."""

    arrived: int | None = None


def _note(number: int, _frame: FrameType | None) -> None:
    _Signals.arrived = _Signals.arrived or number


def stop_if_asked() -> None:
    """Raises Stopped if a signal arrived."""
    if _Signals.arrived is not None:
        raise Stopped(_Signals.arrived)


@contextlib.contextmanager
def noted_signals() -> Iterator[None]:
    """Notes the signals that ask to stop, so that children end and temporary folders are removed before the script does. A signal that is
    ignored stays ignored."""
    _Signals.arrived = None
    earlier = {number: signal.getsignal(number) for number in STOPPING}
    for number, handler in earlier.items():
        if handler is not signal.SIG_IGN:
            signal.signal(number, _note)
    try:
        yield
        stop_if_asked()
    finally:
        for number, handler in earlier.items():
            signal.signal(number, handler)


def wait(seconds: float) -> None:
    """Waits, at most until a signal asks to stop."""
    time.sleep(seconds)
    stop_if_asked()


def end_with_parent() -> None:
    """Has the system send SIGTERM to this process when its parent ends, also if the parent is killed."""
    ctypes.CDLL(None).prctl(PARENT_DEATH_SIGNAL, signal.SIGTERM, 0, 0, 0)


def _end(child: subprocess.Popen[bytes]) -> None:
    """Ends a command and the group of processes that it leads."""
    with contextlib.suppress(ProcessLookupError):
        os.killpg(child.pid, signal.SIGTERM)
    with contextlib.suppress(subprocess.TimeoutExpired):
        child.wait(PATIENCE)
    with contextlib.suppress(ProcessLookupError):
        os.killpg(child.pid, signal.SIGKILL)
    child.wait()


def run(
    words: Sequence[str | pathlib.Path],
    folder: pathlib.Path,
    log: pathlib.Path,
    variables: Mapping[str, str] | None = None,
    look: Callable[[], None] = lambda: None,
) -> int:
    """Runs a command in a folder, appends its output to a log, and returns its status. `look` is called again and again while it runs."""
    stop_if_asked()
    with open(log, "ab") as file:
        child = subprocess.Popen(
            [str(word) for word in words],
            cwd=folder,
            env={**os.environ, **(variables or {})},
            stdin=subprocess.DEVNULL,
            stdout=file,
            stderr=file,
            start_new_session=True,
            preexec_fn=end_with_parent,
        )
    try:
        while child.poll() is None:
            wait(PAUSE)
            look()
        look()
    except BaseException:
        _end(child)
        raise
    return child.returncode


def output(words: Sequence[str | pathlib.Path]) -> str:
    """Returns the output of a command, from both streams."""
    with tempfile.TemporaryDirectory(prefix="wf-build-") as folder:
        log = pathlib.Path(folder) / "said"
        run(words, pathlib.Path(folder), log)
        return log.read_text(encoding="utf-8", errors="replace")


def last_lines(log: pathlib.Path, count: int = 20) -> str:
    """Returns the end of a log."""
    try:
        return "\n".join(log.read_text(encoding="utf-8", errors="replace").splitlines()[-count:])
    except OSError:
        return ""
