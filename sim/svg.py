"""One picture as SVG: a frame with axes, bars, curves and points. The same numbers make the same text."""
from __future__ import annotations

import math
from collections.abc import Iterable, Sequence
from dataclasses import dataclass, field
from html import escape

from .styles import Style

WIDTH, HEIGHT = 680, 400
LEFT, RIGHT, TOP = 64, 20, 60
AXIS = 44  # below the frame: the names of steps, and of the axis
LEGEND_ROW = 20
CHARACTER = 6.4  # about the width of one at size 12
LINE = 106  # characters of a note in one line

TILE = 6  # the width of the square that a hatch repeats
HATCHES = {  # by the name of a hatch, the lines in its square
    "//": "M0 6L6 0",
    "\\\\": "M0 0L6 6",
    "xx": "M0 6L6 0M0 0L6 6",
    "..": "M2 3h2",
    "||": "M3 0v6",
    "--": "M0 3h6",
}
MARKS = {  # by the name of a mark, its outline from its middle on
    "o": "m-3.5 0a3.5 3.5 0 1 0 7 0a3.5 3.5 0 1 0 -7 0z",
    "s": "m-3.2 -3.2h6.4v6.4h-6.4z",
    "^": "m0 -4l3.8 6.6h-7.6z",
    "v": "m0 4l3.8 -6.6h-7.6z",
    "D": "m0 -4.4l4.4 4.4l-4.4 4.4l-4.4 -4.4z",
    "P": "m-1.2 -3.8h2.4v2.6h2.6v2.4h-2.6v2.6h-2.4v-2.6h-2.6v-2.4h2.6z",
}
POINTS = {"o": "h0", "D": "m-2.5 0h5", "s": "m0 -2.5v5", "^": "m-2 -2l4 4", "v": "m-2 2l4 -4"}  # small marks, of which there are many
MARKED = (0.1, 0.3, 0.5, 0.7, 0.9)  # parts of a curve at which it has marks

Pairs = Iterable[tuple[float, float]]


@dataclass(frozen=True)
class Entry:
    """An entry of the legend: its words, and a bar, a curve or points of a style."""

    words: str
    style: Style
    kind: str = "bar"
    dash: str = ""


Placed = tuple[float, Entry]


def number(value: float) -> str:
    """A coordinate or a label with at most one digit after the point."""
    return f"{value:.1f}".removesuffix(".0")


@dataclass
class Axis:
    """From a low to a high value, in equal steps or, with `log`, in equal ratios."""

    name: str
    low: float
    high: float
    steps: list[float]
    log: bool = False

    def part(self, value: float) -> float:
        """The place of a value, from 0 to 1; values beyond an end are at that end."""
        value = min(max(value, self.low), self.high)
        if self.log:
            return math.log(value / self.low) / math.log(self.high / self.low)
        return (value - self.low) / (self.high - self.low)


def linear(name: str, high: float) -> Axis:
    """An axis from 0 to at least a value, in round steps."""
    if high <= 0:
        return Axis(name, 0, 1, [0, 1])
    size = 10.0 ** math.floor(math.log10(high / 4))
    step = next(size * factor for factor in (1, 2, 2.5, 5, 10) if size * factor * 5 >= high)
    count = max(1, math.ceil(high / step - 1e-9))
    return Axis(name, 0, count * step, [index * step for index in range(count + 1)])


def logarithmic(name: str, low: float, high: float) -> Axis:
    """An axis between the round values (1, 2 or 5 times a power of ten) around two values; if these are far apart, it names powers of
    ten alone."""
    powers = range(math.floor(math.log10(low)), math.ceil(math.log10(high)) + 1)
    steps = [factor * 10.0**power for power in powers for factor in (1, 2, 5)]
    first = max(step for step in steps if step <= low)
    last = min(step for step in steps if step >= high and step > first)
    steps = [step for step in steps if first <= step <= last]
    if last / first > 1000:
        steps = [step for step in steps if math.log10(step).is_integer()]
    return Axis(name, first, last, steps, log=True)


def tag(name: str, text: str | None = None, **attributes: object) -> str:
    """An element with attributes; `_` in their names is `-`."""
    words = "".join(f' {key.replace("_", "-")}="{escape(str(value))}"' for key, value in attributes.items())
    return f"<{name}{words}/>" if text is None else f"<{name}{words}>{escape(text, quote=False)}</{name}>"


@dataclass
class Picture:
    """A picture: its title with a note below it, its legend, and the shapes between the two axes."""

    title: str
    note: str
    across: Axis
    up: Axis
    legend: Sequence[Entry]
    parts: list[str] = field(default_factory=list)
    hatches: set[str] = field(default_factory=set)  # the names of those that are defined

    def __post_init__(self) -> None:
        rows = self.legend_rows()
        self.bottom = AXIS + LEGEND_ROW * len(rows) + 6
        self.parts.append(f'<svg xmlns="http://www.w3.org/2000/svg" viewBox="0 0 {WIDTH} {HEIGHT}" font-family="sans-serif" font-size="12">')
        self.parts.append(tag("rect", width=WIDTH, height=HEIGHT, fill="white"))
        self.text(WIDTH / 2, 22, self.title, size=16)
        self.text(WIDTH / 2, 42, self.note, size=11 if len(self.note) <= LINE else 11 * LINE / len(self.note), fill="#555")
        self.draw_up()
        self.draw_across()
        for nth, row in enumerate(rows):
            self.draw_legend(row, HEIGHT - LEGEND_ROW * (len(rows) - nth) + 8)

    def legend_rows(self) -> list[list[Placed]]:
        """The legend's entries in rows that fit the picture, in columns of one width, each with its place across."""
        wide = max((46 + CHARACTER * len(entry.words) for entry in self.legend), default=float(WIDTH))
        columns = max(1, int((WIDTH - LEFT - RIGHT) / wide))
        placed = [(LEFT + wide * (nth % columns), entry) for nth, entry in enumerate(self.legend)]
        return [placed[first : first + columns] for first in range(0, len(placed), columns)]

    def x(self, value: float) -> float:
        return LEFT + (WIDTH - LEFT - RIGHT) * self.across.part(value)

    def y(self, value: float) -> float:
        return HEIGHT - self.bottom - (HEIGHT - TOP - self.bottom) * self.up.part(value)

    def text(self, x: float, y: float, words: str, size: float = 12, anchor: str = "middle", fill: str = "black") -> None:
        places = {"x": number(x), "y": number(y), "font_size": number(size)}
        self.parts.append(tag("text", words, **places, text_anchor=anchor, fill=fill))

    def line(self, x1: float, y1: float, x2: float, y2: float, colour: str = "black", width: float = 1, dash: str = "") -> None:
        ends = {"x1": number(x1), "y1": number(y1), "x2": number(x2), "y2": number(y2)}
        dashes = {"stroke_dasharray": dash} if dash else {}
        self.parts.append(tag("line", **ends, stroke=colour, stroke_width=width, **dashes))

    def draw_up(self) -> None:
        for step in self.up.steps:
            self.line(LEFT, self.y(step), WIDTH - RIGHT, self.y(step), "#ddd")
            self.text(LEFT - 6, self.y(step) + 4, f"{step:g}", anchor="end")
        middle = (self.y(self.up.low) + self.y(self.up.high)) / 2
        self.parts.append(tag("text", self.up.name, transform=f"translate(16 {number(middle)}) rotate(-90)", text_anchor="middle"))

    def draw_across(self) -> None:
        base = self.y(self.up.low)
        self.line(LEFT, base, WIDTH - RIGHT, base)
        for step in self.across.steps:
            if self.across.log:
                self.line(self.x(step), base, self.x(step), self.y(self.up.high), "#ddd")
            self.text(self.x(step), base + 16, f"{step:g}")
        self.text((WIDTH + LEFT - RIGHT) / 2, base + 34, self.across.name)

    def draw_legend(self, row: Sequence[Placed], y: float) -> None:
        for x, entry in row:
            if entry.kind == "bar":
                self.box(x, y - 9, 14, 10, entry.style)
            elif entry.kind == "curve":
                self.line(x, y - 4, x + 22, y - 4, entry.style.colour, 2, entry.dash)
                self.mark(x + 11, y - 4, entry.style)
            else:
                self.small_marks([f"{number(x + place)} {number(y - 4)}" for place in (4, 11, 18)], entry.style)
            self.text(x + 26, y, entry.words, anchor="start")

    def fill(self, style: Style) -> str:
        """The fill of a bar. A hatch is defined when a picture first needs it; equal definitions have the same name."""
        if not style.hatch:
            return style.colour
        name = f"hatch-{style.colour[1:]}"
        if name not in self.hatches:
            self.hatches.add(name)
            inside = tag("rect", width=TILE, height=TILE, fill=style.colour) + tag("path", d=HATCHES[style.hatch], stroke="black", stroke_width=0.8)
            self.parts.append(f'<pattern id="{name}" width="{TILE}" height="{TILE}" patternUnits="userSpaceOnUse">{inside}</pattern>')
        return f"url(#{name})"

    def box(self, x: float, y: float, width: float, height: float, style: Style) -> None:
        """A box with the hatch and the colour of a style."""
        places = {"x": number(x), "y": number(y), "width": number(width), "height": number(height)}
        self.parts.append(tag("rect", **places, fill=self.fill(style), stroke="black", stroke_width=0.5))

    def bar(self, left: float, right: float, value: float, style: Style, label: str | None = None) -> None:
        """A bar between two places across, with its value above it if a label is given."""
        x, y, base = self.x(left), self.y(value), self.y(self.up.low)
        self.box(x, y, self.x(right) - x, base - y, style)
        if label:
            self.text((x + self.x(right)) / 2, y - 4, label, size=10)

    def mark(self, x: float, y: float, style: Style) -> None:
        """The mark of a style."""
        outline = MARKS.get(style.mark, MARKS["o"])
        self.parts.append(tag("path", d=f"M{number(x)} {number(y)}{outline}", fill=style.colour, stroke="black", stroke_width=0.7))

    def curve(self, pairs: Pairs, style: Style, dash: str = "") -> None:
        """A line with some marks."""
        dashes = {"stroke_dasharray": dash} if dash else {}
        places = [(self.x(x), self.y(y)) for x, y in pairs]
        path = " ".join(f"{number(x)},{number(y)}" for x, y in places)
        self.parts.append(tag("polyline", points=path, fill="none", stroke=style.colour, stroke_width=1.8, **dashes))
        for place in dict.fromkeys(int(part * (len(places) - 1)) for part in MARKED):
            self.mark(*places[place], style)

    def points(self, pairs: Pairs, style: Style) -> None:
        """A small mark at each place, each place once."""
        self.small_marks(list(dict.fromkeys(f"{number(self.x(x))} {number(self.y(y))}" for x, y in pairs)), style)

    def small_marks(self, places: Sequence[str], style: Style) -> None:
        """Small marks: dots, or lines of a direction."""
        form = POINTS.get(style.mark, POINTS["o"])
        width = 3.2 if form == POINTS["o"] else 1.6
        path = "".join(f"M{place}{form}" for place in places)
        self.parts.append(tag("path", d=path, fill="none", stroke=style.colour, stroke_width=width, stroke_linecap="round"))

    def svg(self) -> str:
        return "\n".join([*self.parts, "</svg>", ""])
