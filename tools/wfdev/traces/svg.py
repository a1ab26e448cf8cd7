"""A small writer of pictures in SVG: shapes, texts and hatches that differ also without colours."""
from __future__ import annotations

import dataclasses
from xml.sax.saxutils import escape, quoteattr

FONT = 'font-family="sans-serif" font-size="12"'
# Each hatch is a square that is repeated: its size, its ground, and the lines on it.
HATCHES = {
    "part": (6, "#e8eef5", "M0 6L6 0M-1 1L1 -1M5 7L7 5"),
    "unheard": (6, "#ffffff", "M0 6L6 0M0 0L6 6"),
    "request": (4, "#ffffff", "M0 2L4 2"),
}
SOLID = {"whole": "#6b8fb5", "open": "none"}


@dataclasses.dataclass
class Picture:
    """A picture of this size, in pixels, as it is drawn."""

    width: float
    height: float
    parts: list[str] = dataclasses.field(default_factory=list)

    def line(self, x1: float, y1: float, x2: float, y2: float, more: str = 'stroke="#000"') -> None:
        """Draws a line."""
        self.parts.append(f'<line x1="{x1:.2f}" y1="{y1:.2f}" x2="{x2:.2f}" y2="{y2:.2f}" {more}/>')

    def words(self, x: float, y: float, text: str, anchor: str = "start", more: str = "") -> None:
        """Writes a text."""
        self.parts.append(f'<text x="{x:.2f}" y="{y:.2f}" text-anchor="{anchor}"{more}>{escape(text)}</text>')

    def bar(self, x: float, y: float, width: float, height: float, look: str, title: str = "") -> None:
        """Draws a bar with one of the looks. Its title is shown by programs that show titles."""
        fill = SOLID.get(look, f"url(#{look})")
        dashes = ' stroke-dasharray="3 2"' if look == "open" else ""
        place = f'x="{x:.2f}" y="{y:.2f}" width="{max(width, 0.5):.2f}" height="{height:.2f}"'
        inside = f"<title>{escape(title)}</title>" if title else ""
        line = f'stroke="#000" stroke-width="0.7"{dashes}'
        self.parts.append(f'<rect class={quoteattr(look)} {place} fill="{fill}" {line}>{inside}</rect>')

    def cross(self, x: float, y: float) -> None:
        """Draws a cross."""
        place = f"M{x - 3:.2f} {y - 3:.2f}l6 6m0 -6l-6 6"
        self.parts.append(f'<path class="lost" d="{place}" stroke="#000" stroke-width="1.5" fill="none"/>')

    def triangle(self, x: float, y: float) -> None:
        """Draws a triangle."""
        self.parts.append(
            f'<path class="again" d="M{x:.2f} {y - 3.5:.2f}l4 7h-8z" fill="#fff" stroke="#000"/>'
        )

    def text(self) -> str:
        """Returns the file."""
        width, height = f"{self.width:.0f}", f"{self.height:.0f}"
        size = f'width="{width}" height="{height}" viewBox="0 0 {width} {height}"'
        head = f'<svg xmlns="http://www.w3.org/2000/svg" {size} {FONT}>'
        hatches = "".join(
            f'<pattern id="{name}" width="{side}" height="{side}" patternUnits="userSpaceOnUse">'
            f'<rect width="{side}" height="{side}" fill="{ground}"/>'
            f'<path d="{path}" stroke="#000" stroke-width="0.8"/></pattern>'
            for name, (side, ground, path) in HATCHES.items()
        )
        ground = '<rect width="100%" height="100%" fill="#fff"/>'
        return "\n".join([head, f"<defs>{hatches}</defs>", ground, *self.parts, "</svg>"]) + "\n"
