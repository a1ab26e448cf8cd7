"""Tests of checks/bugs, with a check and a build that are shell scripts."""
import stat
import tempfile
import unittest
from dataclasses import replace
from pathlib import Path

from wfdev.checks import bugs, runner
from wfdev.harness.script import Difference
from wfdev.repo import paths

BUILD = '#!/bin/sh\n[ "$*" = "build --unproved" ] && ! grep -q broken crates/low/src/lib.rt\n'
CHECK = '#!/bin/sh\necho "small: $1"\nif grep -q wrong crates/low/src/lib.rt; then echo "small: it is wrong"; exit 1; fi\n'
SKIPPED = '#!/bin/sh\necho "small: skipped, since there is no tool"\n'
WRONG = bugs.Bug("wrong", "crates/low/src/lib.rt", "right\nbody", "wrong\nbody", ["small", "word"], "is wrong")


class Finding(unittest.TestCase):
    """A tree of one file, one check and a script that builds."""

    def setUp(self) -> None:
        room = tempfile.TemporaryDirectory()
        self.addCleanup(room.cleanup)
        self.top = Path(room.name)
        self.write("crates/low/src/lib.rt", "a right\nbody\n")
        self.write("wf", BUILD).chmod(stat.S_IRWXU)
        self.write("checks/small", CHECK).chmod(stat.S_IRWXU)

    def write(self, name: str, text: str) -> Path:
        """A file of the tree."""
        path = self.top / name
        path.parent.mkdir(parents=True, exist_ok=True)
        path.write_text(text, encoding="utf-8")
        return path

    def why(self, bug: bugs.Bug) -> str:
        """Returns why no check finds a wrong body."""
        with self.assertRaises(Difference) as missed:
            bugs.find(bug, self.top)
        return str(missed.exception)

    def test_the_line_of_the_check_is_told(self) -> None:
        self.assertEqual(bugs.find(WRONG, self.top), "small: it is wrong")

    def test_the_tree_stays_as_it_is(self) -> None:
        bugs.find(WRONG, self.top)
        self.assertEqual(paths.read(self.top / WRONG.file), "a right\nbody\n")

    def test_a_check_that_passes_finds_nothing(self) -> None:
        self.assertIn("checks/small word ends with 0", self.why(replace(WRONG, new="other\nbody")))

    def test_a_check_that_fails_for_another_reason_finds_nothing(self) -> None:
        self.assertIn("ends with 1, and not with: another", self.why(replace(WRONG, says="another")))

    def test_a_check_has_to_pass_without_a_wrong_body(self) -> None:
        bugs.passes(WRONG.by, self.top)
        self.write(WRONG.file, WRONG.new)
        with self.assertRaisesRegex(Difference, "checks/small word does not pass without a wrong body: it ends with 1"):
            bugs.passes(WRONG.by, self.top)

    def test_a_skipped_check_does_not_pass(self) -> None:
        self.write("checks/small", SKIPPED)
        with self.assertRaisesRegex(Difference, "does not pass without a wrong body: it ends with 0"):
            bugs.passes(WRONG.by, self.top)

    def test_what_is_not_built_is_not_found(self) -> None:
        self.assertIn("was not built", self.why(replace(WRONG, new="broken")))

    def test_the_old_text_has_to_be_there_once(self) -> None:
        self.assertIn("found 0 times: neither", self.why(replace(WRONG, old="neither")))
        self.write(WRONG.file, "right\nbody, right\nbody")
        self.assertIn("found 2 times: right", self.why(WRONG))


class Files(unittest.TestCase):
    """The files of bugs.d."""

    def test_each_names_a_check_and_a_text_that_is_there_once(self) -> None:
        known = {check.name for check in runner.ALL}
        for bug in bugs.bugs(bugs.SCRIPT.folder, []):
            self.assertIn(bug.by[0], known, bug.name)
            self.assertEqual(paths.read(paths.TOP / bug.file).count(bug.old), 1, bug.name)
            self.assertNotEqual(bug.old, bug.new, bug.name)

    def test_line_ends_are_escaped(self) -> None:
        with tempfile.TemporaryDirectory() as room:
            path = Path(room) / "name.edit"
            path.write_text("file: f\nold: a\\nb\nnew: c\nby: small 'two words'\nsays: s\n", encoding="utf-8")
            self.assertEqual(bugs.read(path), bugs.Bug("name", "f", "a\nb", "c", ["small", "two words"], "s"))


if __name__ == "__main__":
    unittest.main()
