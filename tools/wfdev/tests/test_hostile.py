"""Tests of checks/hostile: which runs are good, and how the edge of memory is found."""
import unittest

from wfdev.checks.hostile import limits
from wfdev.checks.hostile.case import Case, Ended, Subject
from wfdev.harness.commands import LINES, Command, Status

SUBJECT = Subject(Command("replay", ("replay",), b"cell\nend\n"), ["wf", "replay"], b"one\ntwo\n")


def is_good(ended: Ended, *allowed: Status) -> bool:
    """Returns whether a run is good."""
    case = Case(SUBJECT, "a test")
    case.see(ended, set(allowed))
    return case.good == 1


class Cases(unittest.TestCase):
    def test_a_whole_text_is_needed_for_status_0(self) -> None:
        self.assertTrue(is_good(Ended(0, b"", b"one\ntwo\n"), Status.DONE))
        self.assertFalse(is_good(Ended(0, b"", b"one\n"), Status.DONE))

    def test_a_prefix_and_the_line_of_the_status_are_enough_otherwise(self) -> None:
        line = LINES[Status.NO_MEMORY]
        self.assertTrue(is_good(Ended(5, line, b"one\n"), Status.DONE, Status.NO_MEMORY))
        self.assertFalse(is_good(Ended(5, b"", b"one\n"), Status.DONE, Status.NO_MEMORY))
        self.assertFalse(is_good(Ended(5, line, b"two\n"), Status.DONE, Status.NO_MEMORY))
        self.assertFalse(is_good(Ended(4, LINES[Status.WRITE_FAULT], b""), Status.DONE))

    def test_a_signal_is_named(self) -> None:
        case = Case(SUBJECT, "a test")
        case.see(Ended(-11, b"", b""), {Status.DONE}, note="ulimit -v 1")
        self.assertIn("SIGSEGV (1)", case.row())
        self.assertIn("1 differ, first ulimit -v 1: SIGSEGV", case.row())


def least(edge: int) -> int:
    """Returns what the bisection finds if this many kilobytes are enough."""

    def is_enough(kilobytes: int) -> bool:
        return kilobytes >= edge

    return limits.least(is_enough)


class Limits(unittest.TestCase):
    def test_the_least_is_found_by_bisection(self) -> None:
        for edge in (600, 4800, 11070):
            self.assertIn(least(edge), range(edge, edge + limits.STEP))

    def test_a_limit_is_set_by_the_shell(self) -> None:
        self.assertEqual(limits.limited("-v", 8, ["wf"])[-2:], ["sh", "wf"])


if __name__ == "__main__":
    unittest.main()
