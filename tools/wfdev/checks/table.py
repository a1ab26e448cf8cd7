"""Checks that the files that tools/tables writes are up to date, and that the pages agree with the tables of wf_frame.

docs/MACHINE.md has a row for each call, with known refusals; docs/TRACE.md gives the refusals that have a number.
"""
import re
import sys
from collections.abc import Iterator, Sequence
from pathlib import Path

from wfdev import table_rows, tables
from wfdev.harness.script import Script
from wfdev.repo import paths

SCRIPT = Script("table")
LEAST_ROWS = 5
# No call is refused so by the machine: it is the answer of a history that is full.
OUTSIDE = {"history-full"}


def table_below(page: str, head: str) -> Iterator[list[str]]:
    """Yields the rows of a page's table, as lists of cells, by the first cell of its head."""
    lines = page.splitlines()
    start = next((place for place, line in enumerate(lines) if line.startswith(f"| {head} |")), len(lines))
    for line in lines[start + 2 :]:
        if not line.startswith("|"):
            return
        yield [cell.strip() for cell in line.strip("|").split("|")]


def of_machine(page: str, known: table_rows.Tables) -> Iterator[str]:
    """Yields how the table of calls on the page of the machine differs."""
    rows = list(table_below(page, "Call"))
    names = [row[0] for row in rows]
    first = {call.number: call.variant.lower() for call in reversed(known.calls)}
    wanted = [first[number] for number in sorted(first)]
    if names != wanted:
        yield f"MACHINE.md: the calls are {', '.join(names)}; the table has {', '.join(wanted)}"
    words = {refusal.word for refusal in known.refusals}
    said = {word: row[0] for row in rows for word in row[2].split(", ") if word}
    yield from (f"MACHINE.md: {said[word]} is refused by {word}, which is no refusal" for word in sorted(said.keys() - words))
    yield from (f"MACHINE.md: no call is refused by {word}" for word in sorted(words - said.keys() - OUTSIDE))


def of_trace(page: str, known: table_rows.Tables) -> Iterator[str]:
    """Yields how the refusals with a number on the page of traces differ."""
    with_number = set(re.findall(r"`([\w-]+) [A-Z]`", page[page.find("with a number for") :].split("\n")[0]))
    counted = {refusal.word for refusal, _ in known.counted}
    if with_number != counted:
        yield f"TRACE.md: a number follows {', '.join(sorted(with_number))}; in the table {', '.join(sorted(counted))}"


def differences(top: Path) -> list[str]:
    """Returns each difference, as a line."""
    try:
        known = table_rows.read(top)
        found = [f"{path.name}: out of date: run tools/tables" for path in tables.differences(top)]
    except table_rows.Fault as fault:
        return [str(fault)]
    if len(known.calls) < LEAST_ROWS or len(known.refusals) < LEAST_ROWS:
        found.append("the tables have too few rows")
    found += of_machine(paths.read(top / tables.MACHINE), known)
    found += of_trace(paths.read(top / tables.TRACE), known)
    return found


def main(words: Sequence[str] | None = None) -> int:
    """Compares, prints each difference, and returns the exit status."""
    parser = SCRIPT.parser(__doc__)
    parser.add_argument("top", nargs="?", type=Path, default=paths.TOP, help="another checkout than this one")
    found = differences(parser.parse_args(words).top)
    for line in found:
        SCRIPT.say(line)
    SCRIPT.say(f"{len(found)} differences")
    return 1 if found else 0


if __name__ == "__main__":
    sys.exit(main())
