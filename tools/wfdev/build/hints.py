"""The hints on inlining that the sources give.

A proved build keeps `#[inline(never)]`, and the module that `rt try` compiles has no such hint. So the unproved build looks the functions
up in the sources, and tells the compiler: a program then needs the same stack, proved or not.
"""
from __future__ import annotations

import dataclasses
import pathlib
import re

# The mark, further attributes and comments, and the function's name.
MARKED = re.compile(r"#\[inline\(never\)\]\s*(?:#\[[^\n]*\]\s*|//[^\n]*\s*)*(?:pub(?:\([a-z]+\))? )?fn (\w+)")


@dataclasses.dataclass(frozen=True)
class Marked:
    """A function that is not to be inlined: the path of its module, and its name."""

    module: str
    name: str

    def pattern(self) -> str:
        """Returns a pattern of its symbols: a type may come before the name, and a sum of the type parameters after it."""
        return rf"{self.module}::(?:\w+::)?{self.name}(?:::<#\w+>)?"


def module_of(source: pathlib.PurePath) -> str:
    """Returns the path of the module of a source, `CRATE/src/..`."""
    crate, _, *parts = source.with_suffix("").parts
    return "::".join([crate, *(parts[:-1] if parts[-1] in ("lib", "main") else parts)])


def never_inlined(crates: pathlib.Path) -> list[Marked]:
    """Returns the functions that the sources of these crates mark `#[inline(never)]`."""
    found = []
    for source in sorted(crates.glob("*/src/**/*.rt")):
        names = MARKED.findall(source.read_text(encoding="utf-8"))
        found += [Marked(module_of(source.relative_to(crates)), name) for name in names]
    return found


def symbols(marked: list[Marked], module: str) -> list[str]:
    """Returns the symbols of these functions in the text of a module of LLVM."""
    if not marked:
        return []
    pattern = "|".join(function.pattern() for function in marked)
    return sorted(set(re.findall(rf'^define .*?@"({pattern})"\(', module, re.M)))
