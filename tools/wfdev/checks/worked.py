"""Runs the worked rows of worked.d and the traces of examples, and compares output and status with those worked out by hand.

A row with a file NAME.err also compares standard error, if a program is built. The program is the one that `./wf which`
names. If there is none, the check is skipped, or, when words are given, each run is by `rt try`, which takes half a minute
and proves nothing. A trace NAME.trace of examples has to write NAME.out, and to end with the status in NAME.status, or 0.
"""
import re
import subprocess
import sys
from collections.abc import Callable, Iterator, Sequence
from dataclasses import dataclass
from pathlib import Path

from wfdev.harness.script import Script
from wfdev.repo import paths

SCRIPT = Script("worked")
ROWS = SCRIPT.folder
CELLS = 5
SECONDS = 300


@dataclass(frozen=True)
class Ended:
    """How a run ended: its output, its status, and what it wrote on standard error."""

    written: bytes
    status: int
    errors: bytes


@dataclass(frozen=True)
class Row:
    """A row of ROWS.md: its name, its command, the status, and how its file matches the output."""

    name: str
    command: list[str]
    status: int
    how: str

    def is_asked_for(self, words: Sequence[str]) -> bool:
        """Returns whether the row has one of these words in its name or command, or no word is given."""
        return not words or any(word in self.name or word in self.command for word in words)


def run(program: Path | None, words: Sequence[str], given: bytes) -> Ended:
    """Runs the program, or the sources by `rt try` if there is none."""
    command: list[str | Path] = [program, *words] if program else ["rt", "try", "--", *words]
    folder = paths.TOP if program else paths.CRATES / "wf"
    done = subprocess.run(command, cwd=folder, input=given, capture_output=True, timeout=SECONDS, check=False)
    return Ended(done.stdout, done.returncode, done.stderr)


def rows() -> Iterator[Row]:
    """Yields the rows of the table."""
    for line in paths.read(ROWS / "ROWS.md").splitlines():
        cells = [cell.strip() for cell in line.strip("|").split("|")]
        if len(cells) == CELLS and re.fullmatch(r"\d", cells[2]):
            yield Row(cells[0], cells[1].strip("`").split(), int(cells[2]), cells[3])


def answers(lines: Sequence[str]) -> Sequence[str]:
    """Returns the lines before the summary."""
    last = max((place for place, line in enumerate(lines) if line.startswith("calls ")), default=len(lines))
    return lines[:last]


def has_in_order(lines: Sequence[str], wanted: Sequence[str], fits: Callable[[str, str], bool]) -> bool:
    """Returns whether for each wanted line one fits, in this order."""
    rest = iter(lines)
    return all(any(fits(line, want) for line in rest) for want in wanted)


def matches(how: str, written: Sequence[str], wanted: Sequence[str]) -> bool:
    """Returns whether the lines are as a row says."""
    number = re.search(r"\d+", how)
    first = int(number.group()) - 1 if number else 0
    ways: dict[str, Callable[[], bool]] = {
        "prefix": lambda: written[: len(wanted)] == wanted,
        "from line": lambda: written[first : first + len(wanted)] == wanted,
        "answers from line": lambda: answers(written)[first:] == wanted,
        "answers end": lambda: answers(written)[-len(wanted) :] == wanted,
        "ends": lambda: written[-len(wanted) :] == wanted,
        "contains": lambda: has_in_order(written, wanted, str.__eq__),
        "contains beginnings": lambda: has_in_order(written, wanted, str.startswith),
    }
    return ways[re.sub(r" \d+", "", how)]()


def octets_of(path: Path) -> bytes:
    """Returns what a file holds, or nothing if there is none."""
    return path.read_bytes() if path.exists() else b""


def is_as_wanted(row: Row, written: bytes) -> bool:
    """Returns whether the output is equal to the row's file."""
    whole = octets_of(ROWS / f"{row.name}.out")
    if row.how == "whole":
        return written == whole
    wanted = octets_of(ROWS / f"{row.name}.part") or whole
    return matches(row.how, written.decode("latin-1").splitlines(), wanted.decode("latin-1").splitlines())


def has_errors_as_wanted(row: Row, errors: bytes, program: Path | None) -> bool:
    """Returns whether standard error is equal to the row's file, if there is one; `rt try` writes more there."""
    path = ROWS / f"{row.name}.err"
    return not path.exists() or program is None or errors == path.read_bytes()


def worked_rows(program: Path | None, words: Sequence[str]) -> Iterator[tuple[str, bool]]:
    """Yields each row's name, and whether it went as worked out."""
    for row in rows():
        if row.is_asked_for(words):
            ended = run(program, row.command, octets_of(ROWS / f"{row.name}.in"))
            went_well = ended.status == row.status and is_as_wanted(row, ended.written)
            yield row.name, went_well and has_errors_as_wanted(row, ended.errors, program)


def traces(program: Path | None, words: Sequence[str]) -> Iterator[tuple[str, bool]]:
    """Yields each trace of examples, and whether it wrote its text."""
    for trace in sorted(paths.EXAMPLES.glob("*.trace")):
        if not words or any(word in trace.stem for word in words):
            ended = run(program, ["replay"], trace.read_bytes())
            status = int(octets_of(trace.with_suffix(".status")) or 0)
            yield trace.stem, ended.status == status and ended.written == octets_of(trace.with_suffix(".out"))


def main(words: Sequence[str] | None = None) -> int:
    """Runs the rows and the traces, names each that differs, and returns the exit status."""
    parser = SCRIPT.parser(__doc__)
    parser.add_argument("words", nargs="*", metavar="WORD", help="run only the rows with one of these in name or command")
    asked: list[str] = parser.parse_args(words).words
    found = SCRIPT.program_or_none() if asked else SCRIPT.program()
    if found is None:
        SCRIPT.require("rt")
    program = found.path if found else None
    passed = failed = 0
    for name, went_well in [*worked_rows(program, asked), *traces(program, asked)]:
        passed, failed = passed + went_well, failed + (not went_well)
        if not went_well:
            SCRIPT.say(f"{name} differs")
    SCRIPT.say(f"{passed} runs as worked out, {failed} differ")
    return 1 if failed or not passed else 0


if __name__ == "__main__":
    sys.exit(main())
