"""Counts what the built program requests of memory, refuses each request in turn, and prints a table.

Each command runs on a small input. If nothing is refused, its requests and their octets equal those of allocations.d/counts.txt,
so nothing is made twice, and it frees all of them. Then it runs once for each request: a library loaded before the program
refuses that one. The first run that makes fewer requests ends the row. A run is good if it ends with status 5 and its line on
standard error (or as if nothing had been refused, if the program did not need the memory), its output is a prefix of the whole
text, in whole answer lines, and it keeps no memory. A run of `live` in which a sender gets no memory goes on until the drivers
have made 150,000 calls each. On a busy machine such a run takes minutes, or hours without the rights of root, which let its
threads run first. A run is given up only if none of its threads runs for two minutes.
"""
import os
import subprocess
import sys
import tempfile
from collections import Counter
from collections.abc import Sequence
from dataclasses import dataclass, field
from pathlib import Path

from wfdev.harness import commands, progress
from wfdev.harness.commands import Command, Status
from wfdev.harness.script import Script

SCRIPT = Script("allocations")
SHIM = SCRIPT.folder / "failing_memory.c"
COUNTS = SCRIPT.folder / "counts.txt"
COUNTS_HEAD = "# command: requests, octets"
SIZES = {"soak": ["1", "40", "agreements"], "live": ["7", "2", "5"]}


@dataclass(frozen=True)
class Ended:
    """How a run ended: its status, standard error and output."""

    status: int
    errors: bytes
    written: bytes


@dataclass(frozen=True)
class Counts:
    """The memory of a run: the requests, their octets, and the pieces that it does not free."""

    requests: int
    octets: int
    kept: int

    def __str__(self) -> str:
        return f"{self.requests}, {self.octets}"


@dataclass
class Row:
    """The runs of a command: how many requests there are, how the runs ended, and how many differ."""

    requests: int = 0
    statuses: Counter[int] = field(default_factory=Counter)
    bad: int = 0


@dataclass(frozen=True)
class Shim:
    """The library that counts and refuses requests, the file that it makes when it refuses one, and that of its counts."""

    library: Path
    mark: Path
    counts: Path

    def environment(self, request: int) -> dict[str, str]:
        """Returns the environment in which the request of this number is refused; none is, if it is 0."""
        more = {
            "LD_PRELOAD": str(self.library),
            "FAILING_REQUEST": str(request),
            "FAILING_MARK": str(self.mark),
            "FAILING_COUNTS": str(self.counts),
        }
        return {**os.environ, **more}

    def counted(self) -> Counts:
        """Returns the counts of the last run."""
        requests, octets, kept = map(int, self.counts.read_text(encoding="utf-8").split())
        return Counts(requests, octets, kept)


def run(program: Path, command: Command, environment: dict[str, str] | None = None) -> Ended:
    """Runs a command once."""
    try:
        done = progress.run(command.line(program), command.given or b"", environment)
    except progress.Stuck as stuck:
        SCRIPT.fail(stuck)
    return Ended(done.returncode, done.stderr, done.stdout)


def is_good(command: Command, ended: Ended, whole: bytes) -> bool:
    """Returns whether a run with a refused request ended as it has to."""
    if ended.status == Status.DONE:
        return not ended.errors and (not command.is_steady or ended.written == whole)
    in_lines = command.name == "replay --pcap" or not ended.written or ended.written.endswith(b"\n")
    has_line = ended.status == Status.NO_MEMORY and ended.errors == commands.LINES[Status.NO_MEMORY]
    return has_line and in_lines and (not command.is_steady or whole.startswith(ended.written))


def keeps_memory(command: Command, counts: Counts) -> bool:
    """Returns whether a run kept memory. The C library keeps some for the threads of `live`, which `freed` looks at."""
    return command.is_steady and counts.kept != 0


def known_counts() -> dict[str, str]:
    """Returns the requests and octets of each command in counts.txt."""
    lines = [line for line in COUNTS.read_text(encoding="utf-8").splitlines() if not line.startswith("#")]
    return {name: said for name, said in (line.split(": ") for line in lines)}


def count(program: Path, command: Command, shim: Shim) -> Counts:
    """Runs a command of which nothing is refused, and returns its counts."""
    ended = run(program, command, shim.environment(0))
    counts = shim.counted()
    if ended.status != Status.DONE:
        SCRIPT.fail(f"{command.name}: status {ended.status}, {ended.errors!r}")
    return counts


def has_counts(command: Command, counts: Counts, known: str | None) -> bool:
    """Returns whether the counts are the known ones and no memory is kept, and says what differs."""
    if str(counts) != known:
        SCRIPT.say(f"{command.name}: requests, octets: {counts}; expected {known}: correct the program, or counts.txt by --write")
    if keeps_memory(command, counts):
        SCRIPT.say(f"{command.name}: {counts.kept} pieces of memory are not freed")
    return str(counts) == known and not keeps_memory(command, counts)


def write_counts(counts: dict[str, Counts]) -> None:
    """Writes counts.txt."""
    lines = [COUNTS_HEAD, *(f"{name}: {of}" for name, of in counts.items())]
    COUNTS.write_text("\n".join(lines) + "\n", encoding="utf-8")


def refuse_each(program: Path, command: Command, shim: Shim) -> Row:
    """Refuses each request of a command in turn."""
    whole, row = run(program, command).written, Row()
    while True:
        shim.mark.unlink(missing_ok=True)
        ended = run(program, command, shim.environment(row.requests + 1))
        if not shim.mark.exists():
            return row
        row.requests += 1
        row.statuses[ended.status] += 1
        counts = shim.counted()
        if not is_good(command, ended, whole) or keeps_memory(command, counts):
            row.bad += 1
            said = f"status {ended.status}, {ended.errors!r}, {counts.kept} not freed"
            print(f"allocations: {command.name}, request {row.requests}: {said}", file=sys.stderr)


def build_shim(room: Path) -> Shim:
    """Builds the library."""
    library = room / "failing_memory.so"
    subprocess.run(["cc", "-O1", "-Wall", "-Wextra", "-shared", "-fPIC", "-o", library, SHIM, "-ldl"], check=True)
    return Shim(library, room / "refused", room / "counts")


def refuse_all(program: Path, chosen: Sequence[Command], shim: Shim) -> int:
    """Refuses each request of the commands, prints the table, and returns how many runs differ."""
    bad = 0
    print("| Command | Requests refused in turn | Status (runs) | Result |\n|---|---|---|---|")
    for command in chosen:
        row = refuse_each(program, command, shim)
        bad += row.bad
        said = ", ".join(f"{status} ({count})" for status, count in sorted(row.statuses.items())) or "no requests"
        result = "well" if not row.bad else f"{row.bad} differ"
        print(f"| `{command.name}` | {row.requests} | {said} | {result} |", flush=True)
    return bad


def main(words: Sequence[str] | None = None) -> int:
    """Counts and refuses requests of the commands, and returns the exit status."""
    parser = SCRIPT.parser(__doc__)
    parser.add_argument("--counts", action="store_true", help="only count, and refuse none")
    parser.add_argument("--write", action="store_true", help="write counts.txt, and refuse none")
    parser.add_argument("names", nargs="*", metavar="COMMAND", help="the commands to run (default: all)")
    said = parser.parse_args(words)
    SCRIPT.require("cc")
    program = SCRIPT.program().path
    with tempfile.TemporaryDirectory(prefix="wf-allocations-") as folder:
        shim = build_shim(Path(folder))
        chosen = [command for command in commands.all_of(program, SIZES) if not said.names or command.name in said.names]
        counts = {command.name: count(program, command, shim) for command in chosen}
        if said.write:
            write_counts(counts)
            return SCRIPT.ended(0)
        known = known_counts()
        bad = sum(not has_counts(command, counts[command.name], known.get(command.name)) for command in chosen)
        if not said.counts:
            bad += refuse_all(program, chosen, shim)
    return SCRIPT.ended(bad)


if __name__ == "__main__":
    sys.exit(main())
