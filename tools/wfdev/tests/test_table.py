"""Tests of checks/table, on copies of the pages with one word changed."""
import tempfile
import unittest
from pathlib import Path

from wfdev import source_tables, table_rows, tables
from wfdev.checks import table
from wfdev.repo import paths

FILES = sorted(str(path) for path in {table_rows.SETTINGS, table_rows.REFUSALS, *tables.made(paths.TOP)}) + [
    "crates/wf_frame/src/calls.rt",
    "crates/wf_frame/src/classes.rt",
]
# The sources that have the range of a setting.
SOURCES = {"settings.rt", "Settings.antt", "misuse.c", "settings.py"}
SETTINGS, REFUSALS = str(table_rows.SETTINGS), str(table_rows.REFUSALS)


def differences(changed: str = "", old: str = "", new: str = "") -> list[str]:
    """Returns what differs when one file has another text."""
    with tempfile.TemporaryDirectory() as folder:
        for name in FILES:
            text = paths.read(paths.TOP / name)
            if name == changed:
                assert old in text, old
                text = text.replace(old, new)
            path = Path(folder) / name
            path.parent.mkdir(parents=True, exist_ok=True)
            path.write_text(text, encoding="utf-8")
        return table.differences(Path(folder))


class Table(unittest.TestCase):
    """Each place that may differ is seen."""

    def test_the_pages_agree(self) -> None:
        self.assertEqual(differences(), [])

    def test_a_number_of_the_header(self) -> None:
        self.assertEqual(len(differences("include/wf.h", "WF_ROOM = 15", "WF_ROOM = 16")), 1)

    def test_a_call_of_the_header(self) -> None:
        self.assertEqual(len(differences("include/wf.h", "WF_CALL_RX = 12", "WF_CALL_RX = 11")), 1)

    def test_a_refusal_that_is_none(self) -> None:
        self.assertEqual(len(differences("docs/MACHINE.md", "| wake | woken | bad-station", "| wake | woken | bad-sta")), 1)

    def test_a_call_left_out(self) -> None:
        self.assertEqual(len(differences("docs/MACHINE.md", "| tick | now | bad-tick |\n", "")), 2)

    def test_an_argument_too_many(self) -> None:
        self.assertEqual(len(differences("docs/TRACE.md", "`rx S CLASS MICROSECONDS`", "`rx S CLASS MICROSECONDS N`")), 1)

    def test_a_number_behind_a_refusal(self) -> None:
        self.assertEqual(len(differences("docs/TRACE.md", "`full N`, ", "")), 2)

    def test_a_table_of_another_form(self) -> None:
        self.assertEqual(len(differences("crates/wf_frame/src/classes.rt", " => (", " => [")), 1)
        self.assertIn("number = 9", differences(REFUSALS, "number = 9", "number = 10")[0])
        self.assertIn("standard", differences(SETTINGS, "standard = 32", "standard = 257")[0])
        self.assertIn("most", differences(SETTINGS, "standard = 32", "most = 32")[0])

    def test_a_region_edited_by_hand(self) -> None:
        for name in source_tables.FILES:
            text = paths.read(paths.TOP / name)
            line = text[text.index(": tools/tables writes these lines") :].split("\n")[3]
            found = differences(str(name), line + "\n", "")
            self.assertEqual([one.partition(":")[0] for one in found], [name.name], name)

    def test_a_count_edited_by_hand(self) -> None:
        self.assertEqual(len(differences("crates/wf_trace/src/settings.rt", "[false; ", "[false; 1")), 1)
        self.assertEqual(len(differences("include/wf.h", "reserved[", "reserved[1")), 1)

    def test_a_line_without_an_argument(self) -> None:
        self.assertIn("rx S CLASS", differences("crates/wf_frame/src/calls.rt", 'b"rx S CLASS MICROSECONDS"', 'b"rx S CLASS"')[0])

    def test_a_range_of_a_setting(self) -> None:
        found = differences(SETTINGS, "range = [1, 8]", "range = [1, 9]")
        names = {line.partition(":")[0] for line in found}
        self.assertEqual(names & {"wf.h", "TRACE.md", "texts.rt", "settings.json", "_tables.py"}, names - SOURCES)
        self.assertEqual(names & SOURCES, SOURCES)

    def test_a_setting_of_the_bench(self) -> None:
        self.assertEqual(len(differences("sim/settings.json", '"standard": 8192', '"standard": 8191')), 1)

    def test_a_sentence_of_a_refusal(self) -> None:
        found = differences(REFUSALS, "The TID is above 7.", "The TID is above 8.")
        self.assertEqual({line.partition(":")[0] for line in found}, {"notes.rt", "wf.h", "MACHINE.md", "errors.py"})
