"""Runs `wf live` many times, and replays each history that threads made.

Seeds and sizes are of many kinds. The runs are alone, pinned to one processor, or next to busy rivals with a lower priority,
one on each processor. For each run: the status is 0; the trace before the summary, given to `wf replay`, leads to the same
summary; the clock is the number of senders; each sender has a line for each of its frames and one more, the tick, as its last;
each driver's lines are within its quota; and no frame is held, unless a driver used up its calls. The check stops at the first
difference, and prints what it ran.
"""
import contextlib
import enum
import os
import random
import re
import subprocess
import sys
import time
from collections import defaultdict
from collections.abc import Iterator, Mapping, Sequence
from dataclasses import dataclass
from pathlib import Path

from wfdev.harness.script import Difference, Script, expect

SCRIPT = Script("lives")
DRIVER_QUOTA = 150_000
DRIVERS = 4
TIMER = 65535  # the caller of the lines that no thread has: two for each sender
SEEDS = [0, 1, 7, 2**32 - 1, 2**32, 2**63, 2**64 - 1]
SECONDS = 600
# It keeps a processor busy until its parent has ended, and lets others go first.
RIVAL = "import os\nos.nice(10)\nparent = os.getppid()\nwhile os.getppid() == parent: pass"


class Manner(enum.Enum):
    """The other work of the processors during a run."""

    ALONE = "alone"
    PINNED = "pinned"
    RIVALS = "beside rivals"


@dataclass(frozen=True)
class Size:
    """The words of a run."""

    seed: int
    senders: int
    frames: int

    @property
    def words(self) -> list[str]:
        """The words of the command line."""
        return ["live", str(self.seed), str(self.senders), str(self.frames)]


@contextlib.contextmanager
def rivals(manner: Manner) -> Iterator[None]:
    """Keeps a busy process on each processor, if the manner asks for them."""
    count = os.cpu_count() or 1 if manner is Manner.RIVALS else 0
    busy = [subprocess.Popen([sys.executable, "-c", RIVAL]) for _ in range(count)]
    try:
        yield
    finally:
        for one in busy:
            one.kill()
            one.wait()


@dataclass(frozen=True)
class Wf:
    """The built program."""

    path: Path

    def run(self, words: Sequence[str], given: bytes = b"", pinned: bool = False) -> bytes:
        """Returns what the program wrote."""
        command = [*(["taskset", "-c", "0"] if pinned else []), str(self.path), *words]
        ran = subprocess.run(command, input=given, capture_output=True, check=False, timeout=SECONDS)
        if ran.returncode:
            raise Difference(f"ended with {ran.returncode}: {ran.stderr.decode()[-200:]}")
        return ran.stdout


def by_caller(trace: bytes) -> dict[int, list[bytes]]:
    """Returns the calls of each caller."""
    lines: dict[int, list[bytes]] = defaultdict(list)
    for line in trace.split(b"\n")[1:-2]:
        named = re.match(rb"@(\d+) (.*)", line)
        lines[int(named[1]) if named else 0].append(named[2] if named else line)
    return dict(lines)


def look_at_callers(size: Size, lines: Mapping[int, list[bytes]]) -> None:
    """Checks how many calls each caller made, and of which kind."""
    expect("the other callers", set(lines) - set(range(size.senders + DRIVERS)), {TIMER})
    expect("the lines of no thread", len(lines[TIMER]), 2 * size.senders)
    for sender in range(size.senders):
        *frames, last = lines[sender]
        if len(frames) != size.frames or last != b"tick 1" or any(not call.startswith(b"enq ") for call in frames):
            raise Difference(f"sender {sender} made other calls")
    if any(len(lines.get(size.senders + driver, [])) > DRIVER_QUOTA for driver in range(DRIVERS)):
        raise Difference("a driver made more calls than its quota")


def look(wf: Wf, size: Size, text: bytes) -> int:
    """Checks what a run wrote, and replays it. Returns how many calls it has."""
    end = text.index(b"\nend\n") + 5
    trace, summary = text[:end], text[end:]
    if not wf.run(["replay"], trace).endswith(b"\n" + summary):
        raise Difference("the replay of its trace has another summary")
    lines = by_caller(trace)
    look_at_callers(size, lines)
    is_spent = any(len(lines.get(size.senders + driver, [])) == DRIVER_QUOTA for driver in range(DRIVERS))
    if f"\nnow {size.senders}\n".encode() not in b"\n" + summary:
        raise Difference("the clock is not the number of senders")
    if not is_spent and not re.search(rb"^frames .* held 0$", summary, re.M):
        raise Difference("a frame is held, and every driver had calls left")
    return sum(map(len, lines.values()))


def size_of(draws: random.Random, turn: int, manner: Manner) -> Size:
    """Returns a seed and sizes of many kinds; the largest are rare, and never next to rivals, since each would take minutes."""
    is_small = bool(turn % 50) or manner is Manner.RIVALS
    seed = SEEDS[turn % len(SEEDS)] if turn % 3 == 0 else draws.getrandbits(64)
    frames = draws.choice([1, 2, 3, 10, 50, 200, 1000] if is_small else [5000, 10000])
    return Size(seed, draws.randrange(1, 9), frames)


def run_all(wf: Wf, manner: Manner, turns: range, draws: random.Random) -> None:
    """Runs one manner, and raises Difference with the words of the first run that differs."""
    calls = 0
    with rivals(manner):
        for turn in turns:
            size = size_of(draws, turn, manner)
            try:
                calls += look(wf, size, wf.run(size.words, pinned=manner is Manner.PINNED))
            except (Difference, subprocess.TimeoutExpired, ValueError) as why:
                raise Difference(f"wf {' '.join(size.words)}, {manner.value}: {why}") from why
    SCRIPT.say(f"{manner.value}: {len(turns)} runs, {calls} calls")


def main(words: Sequence[str] | None = None) -> int:
    """Runs all manners and returns the exit status."""
    parser = SCRIPT.parser(__doc__)
    parser.add_argument("turns", nargs="?", type=int, default=1000, help="how many runs (default: 1000)")
    manners = [manner.value for manner in Manner]
    parser.add_argument("manners", nargs="*", metavar="MANNER", help=f"how to run: {', '.join(manners)} (default: all)")
    asked = parser.parse_args(words)
    for name in asked.manners:
        if name not in manners:
            parser.error(f"there is no manner {name}; the manners are: {', '.join(manners)}")
    wf, draws, began = Wf(SCRIPT.program().path), random.Random(asked.turns), time.monotonic()
    failed: Difference | None = None
    try:
        for place, manner in enumerate(Manner):
            if not asked.manners or manner.value in asked.manners:
                run_all(wf, manner, range(place, asked.turns, len(Manner)), draws)
    except Difference as difference:
        failed = difference
    SCRIPT.say(f"{failed or 'no difference'} in {time.monotonic() - began:.0f} seconds")
    return 1 if failed else 0


if __name__ == "__main__":
    sys.exit(main())
