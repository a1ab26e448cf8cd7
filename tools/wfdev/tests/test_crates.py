"""Tests of wfdev.repo.crates: the lines of crates.txt, and the crates below and above a crate."""
import graphlib
import unittest

from wfdev.repo import crates

LIST = """# The crates, by rooms: what a list is for,
# told in two lines.

# definitions: what is believed
low:
# machine: what runs
middle may_wait=2 tests_may=Threads+Wait: low arrayvec low
# a remark
high: middle low
lib staticlib: high  # for C
"""


class Crates(unittest.TestCase):
    def setUp(self) -> None:
        self.found = crates.parse(LIST)

    def test_reads_names_words_and_uses(self) -> None:
        middle = self.found["middle"]
        self.assertEqual(middle.words, ("may_wait=2", "tests_may=Threads+Wait"))
        self.assertEqual(middle.uses, ("low", "arrayvec", "low"))
        self.assertEqual(self.found["lib"].uses, ("high",))

    def test_a_line_names_each_library_once(self) -> None:
        self.assertEqual(self.found["middle"].line(), "middle may_wait=2 tests_may=Threads+Wait: low arrayvec\n")
        self.assertEqual(self.found["low"].line(), "low:\n")

    def test_rooms_begin_at_their_comment_lines(self) -> None:
        self.assertEqual([crate.room for crate in self.found.values()], ["definitions", "machine", "machine", "machine"])
        self.assertEqual(self.found["high"].about, "what runs")

    def test_below_is_lowest_first_and_leaves_out_the_kit(self) -> None:
        self.assertEqual(crates.below(self.found, ["high"]), ["low", "middle", "high"])
        self.assertEqual(crates.below(self.found, ["arrayvec"]), [])

    def test_a_cycle_is_an_error(self) -> None:
        with self.assertRaises(graphlib.CycleError):
            crates.below(crates.parse("one: two\ntwo: one\n"), ["one"])

    def test_heights_are_the_longest_chains(self) -> None:
        self.assertEqual(crates.heights(self.found), {"low": 0, "middle": 1, "high": 2, "lib": 3})

    def test_above_is_near_and_far(self) -> None:
        self.assertEqual(crates.above(self.found)["low"], {"middle", "high", "lib"})
        self.assertEqual(crates.above(self.found)["lib"], set())


if __name__ == "__main__":
    unittest.main()
