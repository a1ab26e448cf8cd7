"""Runs a program for as long as its threads go on, however slow other work makes them."""
import contextlib
import os
import subprocess
import time
from collections.abc import Mapping, Sequence
from pathlib import Path

from wfdev.build.children import end_with_parent

STILL_SECONDS = 120.0
LOOK_SECONDS = 0.5
FIRST_PRIORITY = -20


class Stuck(Exception):
    """No thread of a program ran for a long time."""


def run_first() -> None:
    """Ends this process with its parent, and lets its threads, on one processor, run before those of others, so that they hand on turns at once. Only the
    superuser may do this: for others the threads only share the processor."""
    end_with_parent()
    os.sched_setaffinity(0, {min(os.sched_getaffinity(0))})
    with contextlib.suppress(OSError):
        os.setpriority(os.PRIO_PROCESS, 0, FIRST_PRIORITY)


def steps(process: int) -> int:
    """Returns for how many nanoseconds the threads of a process have run or have waited for a processor."""
    total = 0
    for file in Path(f"/proc/{process}/task").glob("*/schedstat"):
        with contextlib.suppress(OSError):
            total += sum(map(int, file.read_text(encoding="utf-8").split()[:2]))
    return total


def run(
    words: Sequence[str], given: bytes, environment: Mapping[str, str] | None = None, still: float = STILL_SECONDS
) -> subprocess.CompletedProcess[bytes]:
    """Returns how a program ended on this input. Raises Stuck if none of its threads ran for so many seconds."""
    with subprocess.Popen(
        words, stdin=subprocess.PIPE, stdout=subprocess.PIPE, stderr=subprocess.PIPE, env=environment, preexec_fn=run_first
    ) as child:
        first: bytes | None = given
        seen, since = steps(child.pid), time.monotonic()
        while True:
            try:
                written, errors = child.communicate(first, timeout=min(LOOK_SECONDS, still))
                return subprocess.CompletedProcess(words, child.returncode, written, errors)
            except subprocess.TimeoutExpired:
                first = None
            if (now := steps(child.pid)) != seen:
                seen, since = now, time.monotonic()
            elif time.monotonic() - since > still:
                child.kill()
                raise Stuck(f"no thread of {' '.join(words)} ran for {still:g} seconds")
