"""Counts what the program wf costs: instructions by callgrind, seconds, and peak memory. It is no test.

  bench/instructions                  prints the figures of the program that `./wf which` names
  bench/instructions --page           writes them into docs/PERFORMANCE.md too, after its line '## Figures'
  bench/instructions --program FILE   takes another program

Counts are differences of two runs, so the start and the end of a run cost nothing. Traces and what callgrind keeps are in bench/out.
The run needs valgrind, and takes some minutes.
"""
import io
import json
import os
import re
import subprocess
import sys
import time
from collections.abc import Callable, Sequence
from dataclasses import dataclass, field
from pathlib import Path

from wfdev.bench import callgrind, origin
from wfdev.harness.script import NO_PROGRAM, Script
from wfdev.repo import paths, programs

SCRIPT = Script("instructions", paths.BENCH)
OUT = paths.BENCH_OUT
PAGE = paths.DOCS / "PERFORMANCE.md"
SETTINGS = paths.TOP / "sim" / "settings.json"
HEADING = "## Figures\n"
JOIN = "join {} 64 100 3"
CLASS_TIDS = {"bk": 1, "be": 0, "vi": 5, "vo": 6}
LONGEST = 2304
MOST_FUNCTIONS = 9
LARGEST_SOAK = "soak-1000000"


@dataclass(frozen=True)
class Ran:
    """The output of a run, its seconds, and its greatest memory in kilobytes."""

    text: str
    seconds: float
    kilobytes: int

    @property
    def accepted(self) -> int:
        """The accepted frames that the summary counts."""
        found = re.search(r"^frames (\d+)", self.text, re.M)
        return int(found[1]) if found else 0


@dataclass
class Report:
    """The program, and the lines of the page so far."""

    program: Path
    lines: io.StringIO = field(default_factory=io.StringIO)

    def say(self, text: str = "") -> None:
        """Adds a line."""
        self.lines.write(text + "\n")

    def row(self, *cells: object) -> None:
        """Adds a row of a table."""
        self.say("| " + " | ".join(map(str, cells)) + " |")

    def head(self, *cells: str) -> None:
        """Adds the head of a table."""
        self.row(*cells)
        self.row("---", *["---:"] * (len(cells) - 1))

    def run(self, words: Sequence[str], trace: Path | None = None) -> Ran:
        """Runs the program."""
        with open(trace or os.devnull, "rb") as given, open(OUT / "written", "wb") as written:
            began = time.monotonic()
            child = subprocess.Popen([self.program, *words], stdin=given, stdout=written)
            _, status, usage = os.wait4(child.pid, 0)
            seconds = time.monotonic() - began
        if status:
            SCRIPT.fail(f"wf {' '.join(words)} ended with {os.waitstatus_to_exitcode(status)}")
        return Ran(paths.read(OUT / "written"), seconds, usage.ru_maxrss)

    def count(self, words: Sequence[str], trace: Path | None = None, keep: str = "callgrind") -> int:
        """Returns the instructions of a run. The profile is kept under this name."""
        with open(trace or os.devnull, "rb") as given:
            said = callgrind.run([self.program, *words], OUT / keep, given)
        found = re.search(r"Collected : (\d+)", said)
        return int(found[1]) if found else SCRIPT.fail(f"callgrind does not say what it collected: {said[-400:]}")

    def replay(self, lines: Sequence[str]) -> int:
        """Returns the instructions of a replay of these lines."""
        return self.count(["replay"], made_trace("made", [*lines, "end"]))

    def each(self, before: Sequence[str], more: Sequence[str], count: int) -> float:
        """Returns the instructions of each of `count` calls, which are the lines `more`, after the lines `before`."""
        return (self.replay([*before, *more]) - self.replay(before)) / count


def made_trace(name: str, lines: Sequence[str]) -> Path:
    """Writes a trace and returns its file."""
    trace = OUT / f"{name}.trace"
    trace.write_text("\n".join([*lines, ""]), encoding="utf-8")
    return trace


def whole(number: float) -> str:
    """Returns a number as a page shows it."""
    return f"{round(number):,}"


def soaks(report: Report) -> None:
    """Soaks of two sizes: what a frame costs, and whether a call costs the same in a short run and in a long one."""
    report.say("\n### Soaks of seed 1\n")
    report.head("From calls", "to calls", "a call", "an accepted frame")
    for low, high in [(50_000, 100_000), (500_000, 1_000_000)]:
        counts = [report.count(["soak", "1", str(n)], keep=f"soak-{n}") for n in (low, high)]
        frames = [report.run(["soak", "1", str(n)]).accepted for n in (low, high)]
        cost = counts[1] - counts[0]
        report.row(whole(low), whole(high), whole(cost / (high - low)), whole(cost / (frames[1] - frames[0])))


def ticks(report: Report) -> None:
    """A long replay of the shortest call."""
    count = 1_000_000
    trace = made_trace("ticks", ["cell", *["tick 0"] * count, "end"])
    seconds = min(report.run(["replay"], trace).seconds for _ in range(3))
    report.say(f"\n### Ticks\n\nA replay of {count:,} lines `tick 0` takes {seconds:.2f} seconds (the best of three).")


def exchange(number: int) -> list[str]:
    """Returns one exchange of one frame, from its pull to its reaping."""
    return ["pull be", f"arrive {number} 0", f"answer {number}", f"done {number} heard", "reap"]


def joined(count: int) -> list[str]:
    """Returns the lines that make this many stations join, with a fast rate."""
    joins = [JOIN.format(station) for station in range(count)]
    return [*joins, *(f"rate {station} 7 20 long" for station in range(count))]


def device_head(more: str = "") -> str:
    """Returns the head of a trace with the settings for devices, and others."""
    named = (f"{row['name']}={row['device']}" for row in json.loads(SETTINGS.read_text(encoding="utf-8")) if row["device"] != row["standard"])
    return " ".join(["cell", *named, *filter(None, [more])])


def frame_cost(report: Report, head: str, count: int, frames: int) -> float:
    """Returns the instructions of the five calls of a frame, while this many stations are listed all the time."""
    before = [head, *joined(count), *(f"enq {place % count} 0 {place % count} 200" for place in range(frames))]
    return report.each(before, [line for number in range(frames // 2) for line in exchange(number)], frames // 2)


def stations(report: Report) -> None:
    """The same load, with few stations and with many. Each is listed all the time."""
    frames, counts = 4096, [16, 32, 64, 128, 256]
    report.say(f"\n### Stations\n\n{frames:,} frames wait, and half of them go out one by one, with five calls each.\n")
    report.head("Stations", "the five calls of a frame", "each station more", "with the settings for devices")
    first = 0.0
    for count in counts:
        settings = f"stations={count} agg=1"
        cost = frame_cost(report, f"cell {settings}", count, frames)
        device = frame_cost(report, device_head(settings), count, frames)
        first = first or cost
        more = "" if count == counts[0] else whole((cost - first) / (count - counts[0]))
        report.row(count, whole(cost), more, whole(device))


def memory(report: Report) -> None:
    """All frames that a cell accepts, each of the greatest length, none of them reaped."""
    report.say("\n### Peak memory\n\nA replay accepts all frames that a cell has room for, 2304 octets each, and reaps none.\n")
    report.head("Settings", "frames held", "megabytes", "of them bodies")
    largest = "stations=256 flows=4096 limit=65535 room=131072 agg=256"
    for name, settings, room, count in [("standard", "", 65_536, 16), ("largest", largest, 131_072, 256)]:
        lines = [f"cell {settings}", *[JOIN.format(station) for station in range(count)]]
        lines += [f"enq {place % count} {place // count % 8} {place % 5000} {LONGEST}" for place in range(room)]
        ran = report.run(["replay"], made_trace("held", [*lines, "end"]))
        report.row(name, whole(ran.accepted), whole(ran.kilobytes / 1000), whole(room * LONGEST / 1_000_000))


def opened(per_class: int, frames: int) -> tuple[list[str], list[str]]:
    """Returns the lines before the pulls of as many exchanges as may be open, of this many frames each, and the pulls."""
    before = [f"cell inflight=8 agg={frames}", *joined(per_class)]
    for tid in CLASS_TIDS.values():
        before += [f"enq {station} {tid} {station} 100" for station in range(per_class) for _ in range(frames)]
    return before, [f"pull {name}" for name in CLASS_TIDS for _ in range(per_class)]


def transmissions(report: Report) -> None:
    """The calls of an exchange, of one frame and of an aggregate of 32."""
    for frames in (1, 32):
        before, pulls = opened(8, frames)
        numbers = range(len(pulls))
        sent = [*before, *pulls]
        arrives = [f"arrive {number} {index}" for number in numbers for index in range(frames)]
        answers, ends = [f"answer {number}" for number in numbers], [f"done {number} heard" for number in numbers]
        size = "one frame" if frames == 1 else f"{frames} frames"
        report.row(f"Pull of {size}", whole(report.each(before, pulls, len(pulls))))
        if frames == 1:
            report.row("Arrive", whole(report.each(sent, arrives, len(arrives))))
            report.row("Answer", whole(report.each([*sent, *arrives], answers, len(answers))))
        report.row(f"Done of {size}, heard", whole(report.each([*sent, *arrives, *answers], ends, len(ends))))


def calls(report: Report) -> None:
    """Each kind of call, by what a thousand more of them cost."""
    count = 1000
    report.say("\n### Kinds of calls\n\nBy `wf replay`: reading the line and writing the answer are counted.\n")
    report.head("Call", "instructions")
    cell = ["cell", JOIN.format(0)]
    enqueues = [f"enq 0 0 {place % 16} 1000" for place in range(count)]
    limited = ["cell limit=100", JOIN.format(0), *enqueues[:100]]
    kinds = [
        ("Tick", cell, ["tick 0"] * count),
        ("Enqueue, of 1000 octets", cell, enqueues),
        ("Enqueue past the limit", limited, enqueues),
        ("Reap", [*limited, *enqueues], ["reap"] * count),
        ("Reap, if nothing is finished", cell, ["reap"] * count),
        ("Pull, if nobody is ready", cell, ["pull be"] * count),
        ("Rate", cell, ["rate 0 7 20 long"] * count),
        ("Rx", cell, ["rx 0 be 100"] * count),
        ("Sleep and Wake, half each", cell, ["sleep 0", "wake 0"] * (count // 2)),
        ("Leave and Join, half each", cell, ["leave 0", JOIN.format(0)] * (count // 2)),
    ]
    for name, before, more in kinds:
        report.row(name, whole(report.each(before, more, len(more))))
    transmissions(report)


def functions(report: Report) -> None:
    """The functions that have most instructions in the soak of a million calls."""
    report.say("\n### The most expensive functions of a soak\n\nAn inlined function counts as part of its caller.\n")
    words = ["callgrind_annotate", "--threshold=100", str(OUT / LARGEST_SOAK)]
    said = subprocess.run(words, capture_output=True, text=True, check=True).stdout
    found = re.findall(r"^ *[\d,]+ \( ?([\d.]+)%\) +(\S+?):(.+?)(?: \[.*)?$", said, re.M)
    report.head("Function", "of the instructions")
    for share, _, name in found[:MOST_FUNCTIONS]:
        report.row(f"`{re.sub(r'::<#.*', '', name)}`", f"{share} %")


def lived(report: Report) -> list[str]:
    """Returns the calls of a run of `live`, and of its summary nothing."""
    lines = report.run(["live", "1", "8", "2000"]).text.splitlines()
    return lines[1 : lines.index("end")]


def both(report: Report, before: Sequence[str], more: Sequence[str], count: int) -> tuple[float, float]:
    """Returns the instructions of each of `count` calls with the standard settings and with those for devices."""
    one, other = (report.each([head, *before], more, count) for head in ("cell", device_head()))
    return one, other


def devices(report: Report) -> None:
    """The cost of the settings for devices, next to the standard ones."""
    report.say("\n### The settings for devices\n")
    report.say("The lines of a history are those of `wf live 1 8 2000`; with other settings some of its answers are others.\n")
    report.head("Call", "standard", "devices", "ratio")
    fill = [f"enq {place % 16} 0 {place} 1000" for place in range(2000)]
    wide = [line for _ in range(32) for line in (f"enq {station} 0 {station} 100" for station in range(16))]
    pulls = [line for number in range(16) for line in ("pull be", f"done {number} lost")]
    history = lived(report)
    rows = [
        ("Enqueue, of 1000 octets", both(report, joined(16), fill, len(fill))),
        ("The five calls of a frame", (frame_cost(report, "cell agg=1", 16, 4096), frame_cost(report, device_head("agg=1"), 16, 4096))),
        ("Pull of 32 frames, and a done that hears nothing", both(report, [*joined(16), *wide], pulls, 16)),
        ("A line of a history", both(report, [], history, len(history))),
    ]
    for name, (standard, device) in rows:
        report.row(name, whole(standard), whole(device), f"{device / standard:.3f}")


PARTS: list[Callable[[Report], None]] = [soaks, stations, calls, devices, memory, ticks, functions]


def measure(program: programs.Program) -> str:
    """Returns the figures, as a page has them."""
    report = Report(program.path)
    report.say(f"The {program.kind.value} program of {origin.sources()}, by {origin.tools()},")
    report.say(f"on {origin.processor()}.")
    for part in PARTS:
        part(report)
        print(f"instructions: {part.__name__} done", file=sys.stderr)
    return report.lines.getvalue()


def main(words: Sequence[str] | None = None) -> int:
    """Counts, prints the figures, and returns the exit status."""
    parser = SCRIPT.parser(__doc__)
    parser.add_argument("--program", type=Path, help="the program (default: the one that ./wf which names)")
    parser.add_argument("--page", action="store_true", help="write the figures into docs/PERFORMANCE.md too")
    given = parser.parse_args(words)
    named = programs.Program(programs.Kind.NAMED, given.program.resolve()) if given.program else None
    program = named or programs.find()
    if program is None:
        SCRIPT.fail(NO_PROGRAM)
    if not os.access(program.path, os.X_OK):
        SCRIPT.fail(f"{program} cannot be run")
    SCRIPT.require("valgrind")
    OUT.mkdir(exist_ok=True)
    figures = measure(program)
    print(figures, end="")
    if given.page:
        PAGE.write_text(paths.read(PAGE).split(HEADING)[0] + HEADING + "\n" + figures, encoding="utf-8")
    return 0


if __name__ == "__main__":
    sys.exit(main())
