"""Runs the built program for a number of seconds on seeds of many kinds, and stops at the first difference.

In turn: a soak, twice, with the same text; a generated trace, replayed whole and in small pieces, with the same text, and with
frames that add up; a history that threads made, replayed with the same summary; and one soak and one replay that never change,
whose memory has to stay within a twentieth of the first run's. Memory is what GNU time reports of the program (a process that
this one starts itself would count the memory of this one); without it none is watched.
"""
import random
import re
import shutil
import subprocess
import sys
import tempfile
import time
from collections.abc import Callable, Sequence
from dataclasses import dataclass, field
from pathlib import Path

from wfdev.harness.script import Difference, Script

SCRIPT = Script("long-runs")
CLASSES = ["bk", "be", "vi", "vo"]
STEADY = "always the same"
PIECES = [1000, 4096, 5001]


@dataclass
class Watch:
    """The program, how often each kind ran, and the memory in kilobytes of its first run and of its greatest."""

    program: Path
    timer: str | None = field(default_factory=lambda: shutil.which("time"))
    runs: dict[str, int] = field(default_factory=dict)
    first: dict[str, int] = field(default_factory=dict)
    most: dict[str, int] = field(default_factory=dict)

    def see(self, kind: str, kilobytes: int) -> None:
        """Counts a run."""
        self.runs[kind] = self.runs.get(kind, 0) + 1
        self.first.setdefault(kind, kilobytes)
        self.most[kind] = max(self.most.get(kind, 0), kilobytes)
        if kind.endswith(STEADY) and kilobytes > self.first[kind] * 1.05 + 256:
            raise Difference(f"{kind} took {kilobytes} kB; the first run took {self.first[kind]} kB")

    def run(self, kind: str, words: Sequence[str], given: bytes = b"", piece: int | None = None) -> bytes:
        """Runs the program and returns what it wrote; the input comes whole, or in pieces."""
        with tempfile.TemporaryFile() as out, tempfile.NamedTemporaryFile() as told:
            timed = [self.timer, "--quiet", "--format=%M", f"--output={told.name}"] if self.timer else []
            child = subprocess.Popen([*timed, str(self.program), *words], stdin=subprocess.PIPE, stdout=out, stderr=subprocess.DEVNULL)
            assert child.stdin is not None
            step = piece or max(len(given), 1)
            for place in range(0, len(given), step):
                child.stdin.write(given[place : place + step])
                child.stdin.flush()
            child.stdin.close()
            child.wait()
            self.see(kind, int(told.read() or 0))
            if child.returncode not in (0, 2):
                raise Difference(f"wf {' '.join(words)} ended with {child.returncode}")
            out.seek(0)
            return out.read()


def soak(watch: Watch, draws: random.Random) -> None:
    """Two soaks of one seed and kind write the same text."""
    words = ["soak", str(draws.getrandbits(64)), str(draws.choice([1, 100, 5000, 100000, 1000000]))]
    words += draws.choice([[], ["device"], ["agreements"]])
    kind = f"soak of {' '.join(words[2:])}"
    if watch.run(kind, words) != watch.run(kind, words):
        raise Difference(f"wf {' '.join(words)} wrote two texts")


def rate(draws: random.Random) -> str:
    """Returns a rate of some format, sometimes one that does not exist."""
    mcs, mhz = draws.randrange(17), draws.choice([20, 30, 40, 80, 160])
    guard, streams = draws.choice(["long", "short"]), draws.randrange(10)
    return draws.choice(
        [
            f"{mcs} {mhz} {guard}",
            f"vht {mcs % 11} {mhz} {guard} {streams}",
            f"he {mcs % 13} {mhz} {draws.choice([400, 800, 1600, 3200])} {streams}",
        ]
    )


def call(draws: random.Random, opened: int) -> str:
    """Returns a line of a call; many are refused."""
    station, tid, some = draws.randrange(5), draws.randrange(9), draws.randrange(max(opened, 1) + 1)
    return draws.choice(
        [
            f"join {station} {draws.choice([1, 2, 64, 65, 256, 257])} {draws.randrange(4097)} {draws.randrange(5)} {draws.randrange(1, 9)}",
            f"leave {station}",
            f"rate {station} {rate(draws)}",
            f"tick {draws.choice([0, 1, 1000, 100000])}",
            *[f"enq {station} {tid} {draws.randrange(9)} {draws.choice([1, 64, 1500, 2304])}"] * 6,
            *[f"pull {draws.choice(CLASSES)}"] * 4,
            *[f"arrive {some} {draws.randrange(4)}"] * 4,
            *[f"answer {some}"] * 2,
            *[f"done {some} {draws.choice(['heard', 'lost'])}"] * 3,
            f"done {some} {draws.choice(['heard', 'lost'])} air {draws.choice([0, 1, 5000, 5001])}",
            f"plain {station} {draws.randrange(4097)} {draws.randrange(5)}",
            *[f"{draws.choice(['hold', 'free', 'cease', 'flush'])} {station} {tid}"] * 2,
            f"begin {station} {tid} {draws.choice([1, 2, 64, 65, 256])}",
            f"sleep {station}",
            f"wake {station}",
            f"poll {station}",
            f"rx {station} {draws.choice(CLASSES)} {draws.choice([1, 200, 70000])}",
            "reap",
        ]
    )


def trace(draws: random.Random) -> bytes:
    """Returns a trace of many calls."""
    settings = f"flows={draws.randrange(1, 5)} limit={draws.randrange(1, 60)} attempts={draws.randrange(1, 4)}"
    lines = [f"cell stations=4 {settings} agg={draws.choice([1, 4, 256])} charge={draws.choice([0, 5000])}"]
    lines += [f"join {station} {draws.choice([1, 2, 64, 256])} {draws.choice([0, 4090])} 3" for station in range(4)]
    lines += [call(draws, number // 12) for number in range(draws.choice([50, 500, 5000]))]
    return ("\n".join(lines) + "\nend\n").encode()


def replay(watch: Watch, draws: random.Random) -> None:
    """A trace, whole and in pieces, gives the same text, and its frames add up."""
    given = trace(draws)
    whole = watch.run("replay", ["replay"], given)
    if whole != watch.run("replay", ["replay"], given, piece=draws.choice(PIECES)):
        raise Difference("a trace in pieces wrote another text")
    frames = re.search(rb"^frames .*$", whole, re.M)
    accepted, *fates = map(int, re.findall(rb"\d+", frames[0] if frames else b"-1"))
    if accepted != sum(fates):
        raise Difference("the frames do not add up")


def live(watch: Watch, draws: random.Random) -> None:
    """A history that threads made replays with the same summary."""
    words = ["live", str(draws.getrandbits(64)), str(draws.randrange(1, 9)), str(draws.choice([1, 20, 300]))]
    text = watch.run(f"live of {words[3]}", words)
    end = text.rindex(b"\nend\n") + 5
    answers = watch.run("replay of a live", ["replay"], text[:end])
    if answers[answers.rindex(b"\ncalls ") + 1 :] != text[end:]:
        raise Difference(f"wf {' '.join(words)}: its trace has another summary")


def same(watch: Watch, _draws: random.Random) -> None:
    """The memory of these runs does not grow."""
    watch.run(f"soak of 100000, {STEADY}", ["soak", "1", "100000"])
    watch.run(f"replay, {STEADY}", ["replay"], trace(random.Random(1)))


KINDS: list[Callable[[Watch, random.Random], None]] = [soak, replay, live, same]


def main(words: Sequence[str] | None = None) -> int:
    """Runs all kinds in turn and returns the exit status."""
    parser = SCRIPT.parser(__doc__)
    parser.add_argument("seconds", nargs="?", type=int, default=3600, help="how long to run (default: 3600)")
    seconds: int = parser.parse_args(words).seconds
    watch, draws, until, turn = Watch(SCRIPT.program().path), random.Random(seconds), time.monotonic() + seconds, 0
    failed: Difference | None = None
    while time.monotonic() < until and not failed:
        try:
            KINDS[turn % len(KINDS)](watch, draws)
        except Difference as difference:
            failed = difference
        turn += 1
    for kind, count in sorted(watch.runs.items()):
        SCRIPT.say(f"{kind}: {count} runs, at most {watch.most[kind]} kB")
    SCRIPT.say(f"{failed or 'no difference'} in {turn} turns")
    return 1 if failed else 0


if __name__ == "__main__":
    sys.exit(main())
