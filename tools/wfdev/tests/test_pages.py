"""Tests of checks/links, checks/pages and checks/pre-commit: references of a page, its commands, and the crates of a commit."""
import tempfile
import unittest
from pathlib import Path
from unittest import mock

from wfdev.checks import links, pages, pre_commit
from wfdev.repo import crates


class Links(unittest.TestCase):
    def setUp(self) -> None:
        kept = tempfile.TemporaryDirectory()
        self.addCleanup(kept.cleanup)
        self.top = Path(kept.name)
        (self.top / "crates" / "wf_low" / "specs").mkdir(parents=True)
        (self.top / "crates" / "wf_low" / "specs" / "World.antt").write_text("abbrev pub told : ℕ\n")
        (self.top / "crates.txt").write_text("wf_low:\n")
        self.page = self.top / "README.md"
        self.page.touch()

    def test_a_link_has_a_file_or_is_of_the_web(self) -> None:
        text = "[a](README.md) [b](README.md#part) [c](https://example.org/x) [d](missing.md)"
        self.assertEqual(list(links.dead_links(self.page, text)), ["there is no file missing.md"])

    def test_a_named_file_is_there_and_has_the_name(self) -> None:
        text = "wf_low, specs/World (`told`); wf_low, specs/World (`untold`); wf_low, src/lib; wf_gone, specs/World; other, specs/X"
        missing = ["there is no file src/lib of wf_low", "there is no file specs/World of wf_gone"]
        faults = ["specs/World of wf_low does not contain untold", *missing]
        self.assertEqual(list(links.dead_names(self.top, text)), faults)


class Pages(unittest.TestCase):
    def test_dots_stand_for_any_lines(self) -> None:
        self.assertTrue(pages.fits(["a", "...", "d"], ["a", "b", "c", "d"]))
        self.assertTrue(pages.fits(["a", "..."], ["a"]))
        self.assertFalse(pages.fits(["a", "d"], ["a", "b", "d"]))

    def test_a_tool_is_named_as_a_whole_word(self) -> None:
        with mock.patch("shutil.which", return_value=None):
            self.assertEqual(pages.missing_tool("tshark -r x.pcap", has_program=True), "tshark")
            self.assertIsNone(pages.missing_tool("cat notes-of-tshark.txt examples/cc", has_program=True))


class Hook(unittest.TestCase):
    def test_crates_of_a_commit_come_lowest_first(self) -> None:
        known = crates.parse("high: low\nlow:\nother:\n")
        files = ["crates/high/src/lib.rt", "docs/TRACE.md", "crates/low/must-fail/x.edit", "crates/low/specs/A.antt", "crates.txt"]
        self.assertEqual(pre_commit.touched(files, known), ["low", "high"])


if __name__ == "__main__":
    unittest.main()
