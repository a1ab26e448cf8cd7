"""Reads crates.txt: the rooms, the crates of each room, what each crate depends on, and what depends on it."""
import graphlib
import re
from collections.abc import Iterable, Iterator, Mapping
from dataclasses import dataclass
from pathlib import Path

from wfdev.repo import paths

# The folders of a crate whose lines are counted, and which a copy of it needs.
PARTS = ("src", "specs", "proofs")
SUFFIXES = (".rt", ".antt")


@dataclass(frozen=True)
class Crate:
    """A line of crates.txt: the name, the words before the colon, the libraries, and the crate's room with its text."""

    name: str
    words: tuple[str, ...]
    uses: tuple[str, ...]
    room: str
    about: str = ""

    def line(self) -> str:
        """Returns the line of crates.txt, with each library once."""
        return f"{' '.join((self.name, *self.words))}: {' '.join(dict.fromkeys(self.uses))}".rstrip() + "\n"


Crates = Mapping[str, Crate]


def parse(text: str) -> dict[str, Crate]:
    """Returns the crates in a text of the form of crates.txt, by name, in its order.

    A comment `# ROOM: TEXT` directly above a crate's line opens a room.
    """
    found: dict[str, Crate] = {}
    room, about, above = "", "", ""
    for line in text.splitlines():
        head, colon, libraries = line.split("#")[0].partition(":")
        if colon:
            opened = re.match(r"#\s*([^:]+?):\s*(.+?)\s*$", above)
            room, about = (opened[1], opened[2]) if opened else (room, about)
            name, *words = head.split()
            found[name] = Crate(name, tuple(words), tuple(libraries.split()), room, about)
        above = line
    return found


def read(path: Path = paths.CRATE_LIST) -> dict[str, Crate]:
    """Returns the crates of the repository, or those of another file of this form."""
    return parse(paths.read(path))


def dependencies(crates: Crates, name: str) -> list[str]:
    """Returns the crates of the repository that a crate depends on directly; the kit's libraries are left out."""
    return [library for library in dict.fromkeys(crates[name].uses) if library in crates]


def below(crates: Crates, names: Iterable[str]) -> list[str]:
    """Returns these crates and all that they depend on, lowest first. Raises graphlib.CycleError if there is a cycle."""
    waiting = [name for name in names if name in crates]
    graph: dict[str, list[str]] = {}
    while waiting:
        name = waiting.pop()
        if name not in graph:
            graph[name] = dependencies(crates, name)
            waiting += graph[name]
    ordered = {name: graph[name] for name in crates if name in graph}
    return list(graphlib.TopologicalSorter(ordered).static_order())


def heights(crates: Crates) -> dict[str, int]:
    """Returns the length of the longest chain of crates below each crate."""
    tall: dict[str, int] = {}
    for name in below(crates, crates):
        tall[name] = max((tall[library] + 1 for library in dependencies(crates, name)), default=0)
    return tall


def above(crates: Crates) -> dict[str, set[str]]:
    """Returns for each crate those that depend on it, directly or not."""
    found: dict[str, set[str]] = {name: set() for name in crates}
    for name in crates:
        for library in below(crates, [name]):
            if library != name:
                found[library].add(name)
    return found


def files(name: str, top: Path = paths.TOP) -> Iterator[Path]:
    """Yields the sources of a crate: code, definitions and proofs."""
    for part in PARTS:
        yield from sorted(path for path in (top / "crates" / name / part).rglob("*") if path.suffix in SUFFIXES)


def line_count(name: str, top: Path = paths.TOP) -> int:
    """Returns how many lines a crate has."""
    return sum(path.read_bytes().count(b"\n") for path in files(name, top))
