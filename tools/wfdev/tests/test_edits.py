"""Tests of checks/edits, without a prover."""
import contextlib
import io
import stat
import tempfile
import unittest
from pathlib import Path
from unittest import mock

from wfdev.checks import edits

RT = """#!/bin/sh
[ "$1" = must-fail ] && shift
for crate; do
  for edit in crates/$crate/must-fail/*.edit; do
    case $edit in
      *kept*) echo "rt: must-fail $crate/$(basename $edit): NOT REFUSED: the crate is still proved"; bad=1 ;;
      *) echo "rt: must-fail $crate/$(basename $edit): refused, as it must be" ;;
    esac
  done
done
exit ${bad:-0}
"""


class Edits(unittest.TestCase):
    """A tree of two crates and a prover that is a shell script."""

    def setUp(self) -> None:
        room = tempfile.TemporaryDirectory()
        self.addCleanup(room.cleanup)
        self.top = Path(room.name)
        for name in ["src/lib.rt", "edits/a.edit", "edits/b.edit", "must-fail/of_the_gate.edit", "out/rlib/stamp"]:
            self.write(f"crates/low/{name}", "text\n")
        self.write("crates/top/src/lib.rt", "text\n")
        self.write("crates.txt", "low:\ntop: low\n")
        self.write("HANDLES", "Handles allowed: none.\n")
        self.write("bin/rt", RT).chmod(stat.S_IRWXU)

    def write(self, name: str, text: str) -> Path:
        """A file of the tree."""
        path = self.top / name
        path.parent.mkdir(parents=True, exist_ok=True)
        path.write_text(text, encoding="utf-8")
        return path

    def run_with(self, *names: str) -> tuple[int, list[str]]:
        """Returns the status and the lines of a run."""
        said = io.StringIO()
        path = {"PATH": f"{self.top}/bin:/usr/bin:/bin"}
        with mock.patch.dict("os.environ", path), contextlib.redirect_stdout(said):
            try:
                status = edits.main([*names], self.top)
            except SystemExit as ended:
                if ended.code:
                    raise
                status = 0
        return status, said.getvalue().splitlines()

    def test_a_line_for_each_edit_that_the_gate_leaves_alone(self) -> None:
        status, said = self.run_with()
        self.assertEqual(status, 0)
        refused = [f"edits: low/{name}.edit: refused, as it must be" for name in ("a", "b")]
        self.assertEqual(said, [*refused, "edits: 2 of 2 tried, all refused"])

    def test_one_that_is_still_proved_fails(self) -> None:
        self.write("crates/low/edits/kept.edit", "text\n")
        status, said = self.run_with("low")
        self.assertEqual((status, said[-1]), (1, "edits: 3 of 3 tried, not all refused"))

    def test_a_crate_without_such_edits(self) -> None:
        with self.assertRaises(SystemExit) as ended:
            self.run_with("top")
        self.assertIn("top has no file crates/top/edits/*.edit", str(ended.exception))

    def test_no_edits_at_all(self) -> None:
        for path in self.top.glob("crates/low/edits/*.edit"):
            path.unlink()
        self.assertEqual(self.run_with(), (0, ["edits: skipped, since no crate has a file edits/*.edit"]))

    def test_the_tree_stays_as_it_is(self) -> None:
        before = sorted(self.top.rglob("*"))
        self.run_with()
        self.assertEqual(sorted(self.top.rglob("*")), before)


if __name__ == "__main__":
    unittest.main()
