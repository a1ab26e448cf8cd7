"""Replays a short and a long trace by the built program, and compares the most memory that each took.

Each trace comes on a pipe from another process, which writes one life of a frame after another: enq, pull, arrive, answer,
done, reap and tick. The answers are read and dropped, except the summary, which has to count all calls. The memory of the longer
replay may be at most 2 MB more.
"""
import re
import subprocess
import sys
import time
from collections.abc import Sequence
from pathlib import Path
from typing import IO

from wfdev.harness.script import Difference, Script
from wfdev.repo import paths

SCRIPT = Script("long-replay")
LIFE = 7  # calls of one life of a frame
KEPT = 4096  # octets of the end of the answers that are kept: more than the summary has
ROOM = 2048  # kilobytes
PIECE = 1 << 20


def write_trace(calls: int, out: IO[bytes]) -> None:
    """Writes a trace of this many calls: a join, and lives of frames, the last one cut where the calls end."""
    out.write(f"cell calls={calls}\njoin 0 64 0 3\n".encode())
    left, life = calls - 1, 0
    while left > 0:
        lines = [
            f"enq 0 0 {life % 1024} 1500\n",
            "pull be\n",
            f"arrive {life} 0\n",
            f"answer {life}\n",
            f"done {life} heard\n",
            "reap\n",
            "tick 1000\n",
        ]
        out.write("".join(lines[:left]).encode())
        left, life = left - min(left, LIFE), life + 1
    out.write(b"end\n")
    out.flush()


def most_memory(process: int) -> int:
    """Returns the most kilobytes that a process has had since it began this program, or 0 if it has ended.

    The figure of wait4 includes the memory of this script, from which the process was forked.
    """
    try:
        status = Path(f"/proc/{process}/status").read_text(encoding="ascii")
    except OSError:
        return 0
    return next((int(line.split()[1]) for line in status.splitlines() if line.startswith("VmHWM:")), 0)


def read_all(child: subprocess.Popen[bytes]) -> tuple[bytes, int]:
    """Reads all answers of a process. Returns their last octets, and the most memory that it had meanwhile."""
    assert child.stdout is not None
    end, most = b"", 0
    while piece := child.stdout.read(PIECE):
        end = (end + piece)[-KEPT:]
        most = max(most, most_memory(child.pid))
    return end, most


def replay(program: Path, calls: int) -> tuple[float, int]:
    """Replays a trace of this many calls. Returns the seconds and the most kilobytes that the replay took."""
    begun = time.monotonic()
    writer = subprocess.Popen([paths.CHECKS / SCRIPT.name, "--write", str(calls)], stdout=subprocess.PIPE)
    child = subprocess.Popen([program, "replay"], stdin=writer.stdout, stdout=subprocess.PIPE, bufsize=0)
    assert writer.stdout is not None
    writer.stdout.close()
    end, most = read_all(child)
    if writer.wait() or child.wait():
        raise Difference(f"the replay of {calls} calls ended with {child.returncode}, and its trace with {writer.returncode}")
    counted = re.search(rb"^calls (\d+)$", end, re.M)
    if not counted or int(counted[1]) != calls:
        raise Difference(f"the summary does not count {calls} calls: {end[-200:]!r}")
    return time.monotonic() - begun, most


def compare(program: Path, short: int, long: int) -> None:
    """Replays both traces and compares the memory."""
    most: dict[int, int] = {}
    for calls in (short, long):
        seconds, most[calls] = replay(program, calls)
        SCRIPT.say(f"{calls} calls: {seconds:.1f} seconds, {calls / seconds:.0f} a second, at most {most[calls]} kB")
    if most[long] > most[short] + ROOM:
        raise Difference(f"the replay of {long} calls took {most[long] - most[short]} kB more than that of {short}")


def main(words: Sequence[str] | None = None) -> int:
    """Compares both replays and returns the exit status."""
    parser = SCRIPT.parser(__doc__)
    parser.add_argument("calls", nargs="*", type=int, help="the calls of the short and the long trace (default: 1000000 20000000)")
    parser.add_argument("--write", type=int, metavar="CALLS", help="only write a trace of this many calls")
    asked = parser.parse_args(words)
    if asked.write is not None:
        write_trace(asked.write, sys.stdout.buffer)
        return 0
    if len(asked.calls) not in (0, 2):
        parser.error("two numbers of calls are needed, or none")
    short, long = asked.calls or (1_000_000, 20_000_000)
    try:
        compare(SCRIPT.program().path, short, long)
    except Difference as difference:
        SCRIPT.fail(difference)
    SCRIPT.say("both take the same memory")
    return 0


if __name__ == "__main__":
    sys.exit(main())
