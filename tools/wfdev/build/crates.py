"""The lines of crates.txt: the crates, and which crates each one uses."""
from __future__ import annotations

import dataclasses
import pathlib


@dataclasses.dataclass(frozen=True)
class Crate:
    """A line of crates.txt."""

    name: str
    line: str
    uses: tuple[str, ...]


def read(path: pathlib.Path) -> dict[str, Crate]:
    """Returns the crates by their names."""
    found: dict[str, Crate] = {}
    for line in path.read_text(encoding="utf-8").splitlines():
        head, colon, libraries = line.split("#")[0].partition(":")
        if colon and head.split():
            found[head.split()[0]] = Crate(head.split()[0], line, tuple(libraries.split()))
    return found


def below(known: dict[str, Crate], name: str) -> list[str]:
    """Returns the crates that a crate uses, directly or through others, and the crate itself, in the order of crates.txt."""
    found: set[str] = set()
    waiting = [name]
    while waiting:
        one = waiting.pop()
        if one in known and one not in found:
            found.add(one)
            waiting += known[one].uses
    return [one for one in known if one in found]
