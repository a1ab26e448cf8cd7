"""Random calls through the package get the answers of `wf replay` for their trace.

WF_PROGRAM names the program that replays, and WFPATH_CALLS how many calls are drawn. checks/python sets the
first.
"""
from __future__ import annotations

import os
import subprocess
import unittest

from .draw import CellDraw, Draw, PathDraw

PROGRAM = os.environ.get("WF_PROGRAM", "")
CALLS = int(os.environ.get("WFPATH_CALLS", "4000"))


def replayed(lines: list[str]) -> list[str]:
    """Returns what `wf replay` answers."""
    text = "".join(f"{line}\n" for line in lines).encode()
    done = subprocess.run([PROGRAM, "replay"], input=text, stdout=subprocess.PIPE, check=True)
    return done.stdout.decode().splitlines()


def as_path(answers: list[str]) -> list[str]:
    """Returns the answers of a replay as a path gives them: it does not know what a station passed up at a cease."""
    return [" ".join(answer.split()[:2]) if answer.startswith("ceased ") else answer for answer in answers]


@unittest.skipUnless(PROGRAM, "WF_PROGRAM names no program")
class Replay(unittest.TestCase):
    """Calls of a path and of a cell."""

    def compare(self, draw: Draw, wanted: list[str], count: int) -> None:
        """Compares the first `count` answers with those of the replay."""
        self.assertEqual(len(draw.answers), count)
        self.assertGreaterEqual(len(wanted), count)
        for place, (found, other) in enumerate(zip(draw.answers, wanted)):
            if found is not None and found != other:
                line = draw.lines[place + 1] if place + 1 < len(draw.lines) else "the summary"
                self.fail(f"answer {place} to '{line}': '{found}'; the replay says '{other}'")

    def compare_path(self, draw: PathDraw) -> None:
        """Compares all answers of a path, and its summary."""
        wanted = as_path(replayed(draw.lines))
        self.compare(draw, wanted, len(wanted))
        draw.handle.close()

    def compare_cell(self, draw: CellDraw) -> None:
        """Compares all answers of a cell, and its history."""
        self.compare(draw, replayed(draw.lines), CALLS)
        self.assertEqual(list(draw.handle.trace()), draw.lines)
        self.assertEqual(len(draw.handle), CALLS)
        draw.handle.close()

    def test_path(self) -> None:
        for seed in (1, 2):
            self.compare_path(PathDraw(seed, CALLS))

    def test_cell(self) -> None:
        for seed in (3, 4):
            self.compare_cell(CellDraw(seed, CALLS))

    def test_agreements_of_a_path(self) -> None:
        for seed in (5, 6):
            self.compare_path(PathDraw(seed, CALLS, agreements=True))

    def test_agreements_of_a_cell(self) -> None:
        for seed in (7, 8):
            self.compare_cell(CellDraw(seed, CALLS, agreements=True))


if __name__ == "__main__":
    unittest.main()
