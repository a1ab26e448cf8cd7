"""Tests of wfdev.bench.callgrind and wfdev.bench.marks: what callgrind wrote is read, and a page gets a part between its marks."""
import tempfile
import unittest
from pathlib import Path

from wfdev.bench import callgrind, marks

COUNTED = """fn=(1) main
0 5
cfn=(2) wf_path_tick
calls=2 0
0 90
fn=(2)
0 30
+1 10
cfn=(3) wf_path::path::Path::call
calls=2 0
* 50
fn=(3)
0 50
"""


class Costs(unittest.TestCase):
    def test_its_own_instructions_and_those_below_are_apart(self) -> None:
        with tempfile.TemporaryDirectory() as room:
            counted = Path(room) / "counted"
            counted.write_text(COUNTED, encoding="utf-8")
            profile = callgrind.read(counted)
        names = ["wf_path_tick", "wf_path::path::Path::call"]
        self.assertEqual([profile.calls_of(name) for name in names], [2, 2])
        self.assertEqual(profile.own, {"main": 5, "wf_path_tick": 40, "wf_path::path::Path::call": 50})
        self.assertEqual(profile.below, {"main": 90, "wf_path_tick": 50})

    def test_a_page_gets_the_tables_between_its_marks(self) -> None:
        begin, end = marks.begin("c-calls"), marks.end("c-calls")
        self.assertEqual(marks.into(f"a\n{begin}old\n{end}b\n", "c-calls", "new\n"), f"a\n{begin}\nnew\n{end}b\n")
        with self.assertRaises(marks.NoMarks):
            marks.into("a\n", "c-calls", "new\n")


if __name__ == "__main__":
    unittest.main()
