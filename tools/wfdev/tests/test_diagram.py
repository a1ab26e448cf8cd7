"""Tests of checks/diagram: what it draws of a small list of crates, and when a page is up to date."""
import contextlib
import io
import tempfile
import unittest
from pathlib import Path

from wfdev.checks import diagram
from wfdev.repo import generated

LIST = "# definitions: what is believed\nlow:\n\n# machine: what runs\nmiddle: low arrayvec\nhigh: middle low\n"


class Diagram(unittest.TestCase):
    def setUp(self) -> None:
        kept = tempfile.TemporaryDirectory()
        self.addCleanup(kept.cleanup)
        self.top = Path(kept.name)
        (self.top / "crates.txt").write_text(LIST)
        for name, lines in (("low", 1000), ("middle", 4000), ("high", 5000)):
            (self.top / "crates" / name / "src").mkdir(parents=True)
            (self.top / "crates" / name / "src" / "lib.rt").write_text("\n" * lines)

    def drawn(self) -> str:
        return "\n".join(diagram.diagram(diagram.Tree(self.top)))

    def test_a_star_stands_at_a_crate_s_height(self) -> None:
        rows = [line.split() for line in self.drawn().splitlines() if "*" in line]
        self.assertEqual(rows, [["low", "*", "2", "9"], ["middle", "-*", "1", "5"], ["high", "--*", "0", "0"]])

    def test_a_room_names_the_rooms_below_it(self) -> None:
        self.assertIn("machine: what runs\n    on definitions\n", self.drawn())

    def test_minutes_come_from_what_was_measured(self) -> None:
        self.assertIn("| low | 2 | 10 | 100 % |", list(diagram.table(diagram.Tree(self.top))))
        (self.top / "bench").mkdir()
        (self.top / "bench" / "gate.seconds").write_text("# of a run\nlow 60\nhigh 120.4\n")
        self.assertIn("| low | 2 | 10 | 100 % | - |", list(diagram.table(diagram.Tree(self.top))))
        (self.top / "bench" / "gate.seconds").write_text("low 60\nmiddle 1\nhigh 120\n")
        self.assertIn("| low | 2 | 10 | 100 % | 4 |", list(diagram.table(diagram.Tree(self.top))))

    def test_a_figure_may_be_a_tenth_off_and_a_name_may_not(self) -> None:
        self.assertTrue(generated.is_near("low  -*  3   100", "low  -*  3  91"))
        self.assertTrue(generated.is_near("low  *  0", "low  *  1"))
        self.assertFalse(generated.is_near("low  -*  100", "low  -*  80"))
        self.assertFalse(generated.is_near("low  -*  100", "low  --*  100"))
        self.assertFalse(generated.is_near("low  *  100\n", "low  *  100\nhigh * 0\n"))

    def run_with(self, word: str) -> int:
        """Returns the status of a run with this word."""
        with contextlib.redirect_stdout(io.StringIO()):
            return diagram.main(["--top", str(self.top), word])

    def test_the_page_is_checked_against_what_is_drawn(self) -> None:
        self.assertEqual(self.run_with("--check"), 1)
        self.assertEqual(self.run_with("--write"), 0)
        self.assertEqual(self.run_with("--check"), 0)
        page = generated.CRATES.path(self.top)
        page.write_text(page.read_text(encoding="utf-8").replace("middle", "center"), encoding="utf-8")
        self.assertEqual(self.run_with("--check"), 1)


if __name__ == "__main__":
    unittest.main()
