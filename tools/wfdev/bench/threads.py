"""Measures how many calls a second threads make that share one cell, what a turn at a gate costs, and what plain locks cost.

It is no test. Without --turn, --locks and --cells it prints all figures.

Each run of `live` has 10,000 frames for each of 1, 2, 4 and 8 senders, and four drivers besides. Its seconds include the writing of the
trace; a soak writes none. Each figure is the best of five runs.

The turn is measured by wf_show_gate: processor seconds of the same calls through the gate and without it, less those of a run
without calls.

The locks are in threads.d/locks.c: a mutex of POSIX, a ticket lock whose waiters spin, and one whose waiters yield. Each guards
the same work as the gate of wf_show_gate. The column `burst` has calls through the gate in bursts of 16 (`Gate::call_all`), and
`burst / bare` compares them with the calls of one thread without a gate. A figure is the time by the clock of the median of five
runs, less that of a run without calls, over the calls of all threads: in the fastest run the threads may have come one after another.
A run that takes too long is cut off: a lock that spins may take long if there are more threads than processors.

The cells are in threads.d/wf_show_cell, which is built without proofs: the calls of threads that share one cell, one by one and in
bursts of 16, and the same calls of one thread without a gate. In the mix `whole`, 16 calls make a whole exchange of four
frames; in the mix `light` frames are given and reaped. The times are by the clock, as above.
"""
import os
import re
import statistics
import subprocess
import sys
import tempfile
import threading
import time
from collections.abc import Mapping, Sequence
from dataclasses import dataclass
from pathlib import Path

from wfdev.build import unproved
from wfdev.build.report import Failure
from wfdev.harness import trials
from wfdev.harness.script import NO_PROGRAM, Script
from wfdev.repo import paths, programs

SCRIPT = Script("threads", paths.BENCH)
RUNS = 5
COUNTER = paths.CRATES / "wf_show_gate" / "out" / "wf_show_gate"
TURNS = 2_000_000
THREADS = (2, 4, 8, 12)
GATE, BURST, BARE = "gate", "burst", "bare"
LOCKS = ("mutex", "spin", "yield")
AT_GATE = (GATE, BURST)
WAYS = (*AT_GATE, *LOCKS)
CALLS, CALLS_OF_MANY = 1_152_000, 46_080  # for threads up to the number of processors, and above: whole bursts for each thread
LONGEST = 10  # seconds of a run
CELL = "wf_show_cell"
CELL_THREADS = (2, 4)
CELL_CALLS = 480_000
MIXES = ("whole", "light")
SOAK = ["soak", "1", "1000000"]


@dataclass(frozen=True)
class Ran:
    """The output of a run, its seconds by the clock, and those on the processors."""

    text: bytes
    seconds: float
    used: float

    @property
    def calls(self) -> int:
        """The calls that the summary counts."""
        return int(re.findall(rb"^calls (\d+)$", self.text, re.M)[-1])


def processors() -> int:
    """Returns the number of processors."""
    return os.cpu_count() or 1


def run(program: Path, words: Sequence[str]) -> Ran:
    """Runs a program."""
    began = time.monotonic()
    child = subprocess.Popen([program, *words], stdin=subprocess.DEVNULL, stdout=subprocess.PIPE)
    assert child.stdout is not None
    text = child.stdout.read()
    _, status, usage = os.wait4(child.pid, 0)
    seconds = time.monotonic() - began
    if status:
        SCRIPT.fail(f"{program.name} {' '.join(words)} ended with {os.waitstatus_to_exitcode(status)}")
    return Ran(text, seconds, usage.ru_utime + usage.ru_stime)


def print_table(program: Path) -> None:
    """Prints how many calls a second threads make."""
    print(f"{processors()} processors")
    print("| run | threads | calls | calls a second | processor seconds |")
    print("|---|---|---|---|---|")
    runs = [(1, SOAK)] + [(senders + 4, ["live", "1", str(senders), "10000"]) for senders in (1, 2, 4, 8)]
    for threads, words in runs:
        best = min((run(program, words) for _ in range(RUNS)), key=lambda it: it.seconds / it.calls)
        print(f"| `wf {' '.join(words)}` | {threads} | {best.calls} | {best.calls / best.seconds:.0f} | {best.used:.2f} |", flush=True)


def each(counter: Path, way: str) -> tuple[bytes, float]:
    """Returns what the calls of wf_show_gate print, and the nanoseconds of each of them."""
    text = run(counter, [way, str(TURNS)]).text
    full, empty = (min(run(counter, [way, str(calls)]).used for _ in range(RUNS)) for calls in (TURNS, 0))
    return text, (full - empty) / TURNS * 1e9


def print_turn(counter: Path) -> None:
    """Prints what a turn at a gate costs."""
    (text, gate), (same, bare) = each(counter, GATE), each(counter, BARE)
    if text != same:
        SCRIPT.fail("wf_show_gate gives another sum through the gate")
    costs = f"{gate:.1f} ns each through the gate and {bare:.1f} ns without"
    print(f"{TURNS} calls of wf_show_gate: {costs}, so a turn takes {gate - bare:.1f} ns")


def built_locks() -> Path:
    """Builds the program of the locks."""
    program, source = paths.BENCH_OUT / "locks", SCRIPT.folder / "locks.c"
    program.parent.mkdir(exist_ok=True)
    subprocess.run(["cc", "-std=c11", "-O2", "-Wall", "-Wextra", "-pthread", source, "-o", program], check=True)
    return program


@dataclass(frozen=True)
class Meeting:
    """The programs in which threads meet: at the gate of wf_show_gate, and at locks."""

    counter: Path
    locks: Path

    def seconds(self, way: str, threads: int, calls: int) -> float | None:
        """Returns the seconds of a run of this many threads with this many calls each, or None if it took too long."""
        at_gate = [str(self.counter), way, str(calls), str(threads)]
        words = at_gate if way in AT_GATE else [str(self.locks), way, str(threads), str(calls)]
        began = time.monotonic()
        child = subprocess.Popen(words, stdin=subprocess.DEVNULL, stdout=subprocess.DEVNULL)
        # (the timeout of `wait` would look only every 50 ms)
        guard = threading.Timer(LONGEST, child.kill)
        guard.start()
        status = child.wait()
        seconds = time.monotonic() - began
        guard.cancel()
        return None if status else seconds

    def medians(self, threads: int, calls: int) -> dict[str, float | None]:
        """Returns the nanoseconds of a call in each way, of the median run. The ways alternate."""
        found: dict[str, list[float]] = {way: [] for way in WAYS}
        for _ in range(RUNS):
            for way in WAYS:
                full, empty = self.seconds(way, threads, calls), self.seconds(way, threads, 0)
                if full and empty:
                    found[way].append((full - empty) / (threads * calls) * 1e9)
        return {way: statistics.median(times) if len(times) == RUNS else None for way, times in found.items()}


def ratio(cost: float | None, other: float | None) -> str:
    """Returns how many times one cost is another."""
    return f"{cost / other:.2f}" if cost and other else "-"


def ratios(cost: Mapping[str, float | None], bare: float) -> list[str]:
    """Returns what the gate costs in relation to each lock, and a call of a burst in relation to one without a gate."""
    return [*(ratio(cost[GATE], cost[way]) for way in LOCKS), ratio(cost[BURST], bare)]


def print_locks(counter: Path) -> None:
    """Prints what a call costs through a gate and through locks."""
    meeting = Meeting(counter, built_locks())
    _, bare = each(counter, BARE)
    print(f"{processors()} processors, a load of {os.getloadavg()[0]:.1f} before; a call without a gate takes {bare:.1f} ns")
    compared = [*(f"gate / {way}" for way in LOCKS), "burst / bare"]
    print("| threads | calls | " + " | ".join(f"{way}, ns" for way in WAYS) + " | " + " | ".join(compared) + " |")
    print("|---" * (2 + len(WAYS) + len(compared)) + "|")
    for threads in THREADS:
        calls = (CALLS if threads <= processors() else CALLS_OF_MANY) // threads
        cost = meeting.medians(threads, calls)
        shown = [f"{nanoseconds:.0f}" if nanoseconds else "cut off" for nanoseconds in cost.values()]
        print(f"| {threads} | {threads * calls} | {' | '.join(shown + ratios(cost, bare))} |", flush=True)


def built_cells(room: Path) -> Path:
    """Builds the program of the cells without proofs, in an empty folder."""
    program = paths.BENCH_OUT / CELL
    program.parent.mkdir(exist_ok=True)
    with trials.scratch(trials.crate_of(CELL, SCRIPT.folder), trials.texts(SCRIPT.folder / CELL)) as crate:
        try:
            unproved.build_program(crate, program, room)
        except Failure as why:
            SCRIPT.fail(why)
    return program


def nanoseconds(program: Path, mix: str, way: str, threads: int) -> float:
    """Returns the nanoseconds of a call of the median run, by the clock, less those of a run without calls."""
    of_each = CELL_CALLS // threads
    shared = [] if way == BARE else [str(threads)]
    runs = [[run(program, [mix, way, str(calls), *shared]).seconds for calls in (of_each, 0)] for _ in range(RUNS)]
    return statistics.median((full - empty) / (threads * of_each) * 1e9 for full, empty in runs)


def print_cells() -> None:
    """Prints what a call of a cell costs at a gate, one by one and in bursts, and without a gate."""
    with tempfile.TemporaryDirectory(prefix="wf-cells-") as room:
        program = built_cells(Path(room))
    print(f"{processors()} processors, a load of {os.getloadavg()[0]:.1f} before; {CELL_CALLS} calls")
    print("| mix | threads | bare, ns | gate, ns | burst, ns | gate / bare | burst / bare |")
    print("|---|---|---|---|---|---|---|")
    for mix in MIXES:
        for threads in CELL_THREADS:
            bare = nanoseconds(program, mix, BARE, 1)
            gate, burst = (nanoseconds(program, mix, way, threads) for way in AT_GATE)
            shown = f"{bare:.0f} | {gate:.0f} | {burst:.0f} | {ratio(gate, bare)} | {ratio(burst, bare)}"
            print(f"| {mix} | {threads} | {shown} |", flush=True)


def program_of(named: Path | None) -> Path:
    """Returns the program that is given, or the one that `./wf which` names."""
    found = programs.find() if named is None else None
    if named is None and found is None:
        SCRIPT.fail(NO_PROGRAM)
    if found is not None:
        print(f"threads: uses {found}", file=sys.stderr)
        return found.path
    assert named is not None
    return named


def check_counter(counter: Path) -> None:
    """Fails if the program wf_show_gate is not there."""
    if not counter.exists():
        other = "tools/unproved wf_show_gate FILE builds an unproved one for --counter FILE"
        SCRIPT.fail(f"there is no {paths.shown(counter)}: rt run in crates/wf_show_gate proves and builds it; {other}")


def main(words: Sequence[str] | None = None) -> int:
    """Measures, prints the figures, and returns the exit status."""
    parser = SCRIPT.parser(__doc__)
    parser.add_argument("--program", type=Path, help="the program (default: the one that ./wf which names)")
    parser.add_argument("--counter", default=COUNTER, type=Path, help="the program wf_show_gate")
    parser.add_argument("--turn", action="store_true", help="print only what a turn costs")
    parser.add_argument("--locks", action="store_true", help="print only what locks cost")
    parser.add_argument("--cells", action="store_true", help="print only what a call of a cell costs, which takes some minutes to build")
    asked = parser.parse_args(words)
    is_whole = not (asked.turn or asked.locks or asked.cells)
    if is_whole:
        print_table(program_of(asked.program))
    if asked.turn or asked.locks or is_whole:
        check_counter(asked.counter)
    if asked.turn or is_whole:
        print_turn(asked.counter)
    if asked.locks or is_whole:
        print_locks(asked.counter)
    if asked.cells or is_whole:
        print_cells()
    return 0


if __name__ == "__main__":
    sys.exit(main())
