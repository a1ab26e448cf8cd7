"""The lines of a trace as they are read: cut from blocks of octets, numbered, and each with its part in the
trace."""
from __future__ import annotations

import dataclasses
import enum

# The octets of a line that are kept: one more than a line of a trace may have.
KEPT = 161
NEWLINE = b"\n"


class Part(enum.Enum):
    """The part that a line has in a trace."""

    SKIPPED = enum.auto()
    HEAD = enum.auto()
    CALL = enum.auto()
    END = enum.auto()
    AFTER = enum.auto()


@dataclasses.dataclass(frozen=True)
class Line:
    """A line: its number, from 1, its part, and its first octets."""

    number: int
    part: Part
    octets: bytes

    @property
    def text(self) -> str:
        """The line as text; octets that are not printable ASCII are shown as escapes."""
        return "".join(chr(octet) if 32 <= octet < 127 else f"\\x{octet:02x}" for octet in self.octets)


class Cutter:
    """Cuts blocks of octets into lines. It keeps the first octets of a line, so its memory is bounded."""

    def __init__(self, kept: int = KEPT) -> None:
        self._kept = kept
        self._open = b""
        self._has_octets = False

    def cut(self, block: bytes) -> list[bytes]:
        """Returns the lines that end in a block, without their newlines."""
        *whole, last = block.split(NEWLINE)
        lines = []
        for part in whole:
            lines.append((self._open + part)[: self._kept])
            self._open, self._has_octets = b"", False
        self._open = (self._open + last[: self._kept])[: self._kept]
        self._has_octets = self._has_octets or bool(last)
        return lines

    def rest(self) -> list[bytes]:
        """Returns the last line, if it has no newline and is not empty."""
        return [self._open] if self._has_octets else []


class Trace:
    """Knows the part of each line of a trace, given the lines in order."""

    def __init__(self) -> None:
        self._count = 0
        self._next = Part.HEAD

    def line(self, octets: bytes) -> Line:
        """Returns the next line with its number and part."""
        self._count += 1
        return Line(self._count, self._part(octets.split(b" ")), octets)

    def _part(self, pieces: list[bytes]) -> Part:
        words = [piece for piece in pieces if piece]
        if self._next is Part.AFTER:
            return Part.AFTER
        if not words or words[0].startswith(b"#"):
            return Part.SKIPPED
        if self._next is Part.HEAD:
            self._next = Part.CALL
            return Part.HEAD
        if words[0] == b"end":
            self._next = Part.AFTER
            return Part.END
        return Part.CALL
