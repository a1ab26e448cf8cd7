"""How each path looks in pictures and figures: the colours of Okabe and Ito, which people with each kind of colour vision can tell apart,
with hatches and marks, so that paths differ in grey too. Hatches and marks have matplotlib's names."""
from __future__ import annotations

from collections.abc import Sequence
from dataclasses import dataclass


@dataclass(frozen=True)
class Style:
    """A colour, the hatch of a bar, and the mark of a point."""

    colour: str
    hatch: str
    mark: str


PATHS = {
    "fifo": Style("#d55e00", "//", "o"),
    "fq_codel": Style("#e69f00", "", "s"),
    "fq_mac": Style("#cc79a7", "\\\\", "^"),
    "one_list": Style("#56b4e9", "..", "v"),
    "airtime": Style("#0072b2", "", "D"),
}
OTHERS = (  # for a path with other settings
    Style("#009e73", "xx", "P"),
    Style("#f0e442", "||", "X"),
    Style("#999999", "--", "*"),
    Style("#000000", "", "h"),
)
FLOWS = (  # for flows, if colours tell these apart
    *(Style("#0072b2", "", "o"), Style("#e69f00", "//", "D"), Style("#009e73", "xx", "s")),
    *(Style("#d55e00", "--", "^"), Style("#cc79a7", "||", "v"), Style("#56b4e9", "..", "P")),
)


def styles_of(names: Sequence[str]) -> list[Style]:
    """A style for each name: that of its path, which is the same in every picture, or else one that no name has yet."""
    found: list[Style] = []
    for name in names:
        free = [style for style in OTHERS if style not in found]
        found.append(PATHS[name] if name in PATHS else free[0] if free else OTHERS[-1])
    return found
