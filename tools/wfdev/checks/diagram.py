"""Draws what crates.txt has: the rooms, the crates of each, their heights, what each crate is, and how much depends on it.

  checks/diagram            prints the body of docs/generated/crates.md
  checks/diagram --write    writes that page
  checks/diagram --check    reports whether the page is up to date: lines and minutes may differ by a tenth, all else must be equal

Minutes come from bench/gate.seconds, lines `CRATE SECONDS` that bench/gate writes. Without that file there is no column,
and a crate that it lacks has no figure, nor have those below it.
"""
import math
import re
import sys
from collections.abc import Iterator, Sequence
from dataclasses import dataclass
from functools import cached_property
from pathlib import Path

from wfdev.harness.script import Script
from wfdev.repo import crates, generated, paths

SCRIPT = Script("diagram")
SECONDS = Path("bench") / "gate.seconds"
WIDTH = 100
LEGEND = (
    "Each room is followed by the rooms that its crates use. A star's column is the crate's height: the length of the longest "
    "chain of crates below it. The figures to the right say how many crates depend on it, directly or not, and how many thousand "
    "lines those have."
)
ABOVE = (
    "After a change in a crate, the gate proves that crate and each crate above it again. Lines are those of code, definitions "
    "and proofs. Minutes are those of bench/gate.seconds, one crate after the other."
)


@dataclass(frozen=True)
class Tree:
    """The crates of a checkout, and what the page shows of them."""

    top: Path

    @cached_property
    def known(self) -> dict[str, crates.Crate]:
        """The crates, in the order of crates.txt."""
        return crates.read(self.top / "crates.txt")

    @cached_property
    def heights(self) -> dict[str, int]:
        """The height of each crate."""
        return crates.heights(self.known)

    @cached_property
    def above(self) -> dict[str, set[str]]:
        """The crates that depend on each crate."""
        return crates.above(self.known)

    @cached_property
    def lines(self) -> dict[str, int]:
        """The lines of each crate."""
        return {name: crates.line_count(name, self.top) for name in self.known}

    @cached_property
    def seconds(self) -> dict[str, float]:
        """The seconds that the gate needs for each crate, if they were measured."""
        return seconds_of(self.top / SECONDS)

    def rooms(self) -> dict[str, list[crates.Crate]]:
        """Returns the rooms with their crates, in the order of crates.txt."""
        found: dict[str, list[crates.Crate]] = {}
        for crate in self.known.values():
            found.setdefault(crate.room, []).append(crate)
        return found

    def beneath(self, room: str, members: Sequence[crates.Crate]) -> list[str]:
        """Returns the other rooms that a room's crates depend on directly."""
        used = {self.known[library].room for crate in members for library in crate.uses if library in self.known}
        return [other for other in self.rooms() if other in used and other != room]

    def lines_again(self, name: str) -> int:
        """Returns the lines of a crate and those above it."""
        return sum(self.lines[other] for other in self.above[name] | {name})

    def minutes(self, name: str) -> str:
        """Returns the minutes of a crate and those above it, rounded up, or `-` if one of them was not measured."""
        again = self.above[name] | {name}
        if not all(other in self.seconds for other in again):
            return "-"
        return str(math.ceil(sum(self.seconds[other] for other in again) / 60))


def seconds_of(path: Path) -> dict[str, float]:
    """Reads a file of lines `CRATE SECONDS`, if there is one."""
    if not path.exists():
        return {}
    rows = (line.split("#")[0].split() for line in paths.read(path).splitlines())
    return {row[0]: float(row[1]) for row in rows if row}


def sentence_of(name: str, top: Path) -> str:
    """Returns the first sentence of a crate's own words."""
    sources = (top / "crates" / name / "src" / f"{kind}.rt" for kind in ("lib", "main"))
    text = next((paths.read(source) for source in sources if source.exists()), "")
    words = " ".join(re.findall(r"^//! ?(.*)$", text, re.M))
    return re.split(r"(?<=\.)(?: |$)", words, maxsplit=1)[0]


def wrapped(text: str, indent: str) -> list[str]:
    """Returns a text in lines of the page's width."""
    lines = [indent]
    for word in text.split():
        if len(lines[-1]) + len(word) + 1 > WIDTH and lines[-1].strip():
            lines.append(indent)
        lines[-1] += word if lines[-1] == indent else f" {word}"
    return lines


def diagram(tree: Tree) -> Iterator[str]:
    """Yields the rooms in order, and in each its crates: a star at the crate's height, and the size of all above it."""
    tallest = max(tree.heights.values(), default=0)
    name_width = max(map(len, tree.known)) + 2
    scale = "".join(f"{height:<5}" for height in range(0, tallest + 1, 5))
    yield f"{'':{name_width}}  {'height':{tallest + 2}}  above it".rstrip()
    yield f"{'':{name_width}}  {scale:{tallest + 2}}  {'crates':>6}  {'1,000 lines':>11}"
    for room, members in tree.rooms().items():
        yield ""
        yield from wrapped(f"{room}: {members[0].about}", "")
        beneath = tree.beneath(room, members)
        if beneath:
            yield from wrapped("on " + ", ".join(beneath), "    ")
        for crate in members:
            above = tree.above[crate.name]
            star = "-" * tree.heights[crate.name] + "*"
            thousands = round(sum(tree.lines[name] for name in above) / 1000)
            yield f"  {crate.name:{name_width}}{star:{tallest + 2}}  {len(above):6}  {thousands:11}"
    yield ""
    yield f"{len(tree.known)} crates, {round(sum(tree.lines.values()) / 1000)} thousand lines; the longest chain has {tallest + 1} crates"


def sentences(tree: Tree) -> Iterator[str]:
    """Yields an item for each crate: what it is."""
    for name in tree.known:
        yield from hung(f"{name}: {sentence_of(name, tree.top)}")


def hung(text: str) -> list[str]:
    """Returns an item of a list in lines of the page's width."""
    first, *rest = wrapped(text, "  ")
    return [f"- {first.strip()}", *rest]


def table(tree: Tree) -> Iterator[str]:
    """Yields the table of the crates that are proved again after a change in each crate."""
    measured, whole = bool(tree.seconds), sum(tree.lines.values())
    yield "| Crate | Crates above it | 1,000 lines proved again | Of all |" + (" Minutes |" if measured else "")
    yield "|---|---:|---:|---:|" + ("---:|" if measured else "")
    for name in sorted(tree.known, key=lambda name: -len(tree.above[name])):
        lines = tree.lines_again(name)
        minutes = f" {tree.minutes(name)} |" if measured else ""
        yield f"| {name} | {len(tree.above[name])} | {round(lines / 1000)} | {round(100 * lines / whole)} % |{minutes}"


def body(tree: Tree) -> str:
    """Returns the body of the page."""
    drawing = ["```text", *diagram(tree), "```"]
    said = ["## Each crate in a sentence", "", *sentences(tree)]
    above = ["## Crates above each crate", "", *wrapped(ABOVE, ""), "", *table(tree)]
    return "\n".join([*wrapped(LEGEND, ""), "", *drawing, "", *said, "", *above])


def main(words: Sequence[str] | None = None) -> int:
    """Prints, writes or checks the page, and returns the exit status."""
    parser = SCRIPT.parser(__doc__)
    parser.add_argument("--top", type=Path, default=paths.TOP, help="another checkout than this one")
    parser.add_argument("--write", action="store_true", help="write the page")
    parser.add_argument("--check", action="store_true", help="report whether the page is up to date")
    asked = parser.parse_args(words)
    page, drawn = generated.CRATES, body(Tree(asked.top))
    if asked.write:
        page.write(drawn, asked.top)
        SCRIPT.say(f"wrote {page.path(asked.top)}")
    elif asked.check:
        is_old = not generated.is_near(page.read(asked.top), page.text(drawn))
        SCRIPT.say(f"{generated.FOLDER / page.name} is {f'out of date: run {page.command}' if is_old else 'up to date'}")
        return 1 if is_old else 0
    else:
        print(drawn)
    return 0


if __name__ == "__main__":
    sys.exit(main())
