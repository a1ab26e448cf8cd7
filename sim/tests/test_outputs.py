"""Files take their places when everything is written, and only then."""
from __future__ import annotations

import os
import pathlib
import tempfile
import unittest

from sim.fields import Fault
from sim.outputs import Outputs


class Places(unittest.TestCase):
    def setUp(self) -> None:
        folder = tempfile.TemporaryDirectory()
        self.addCleanup(folder.cleanup)
        self.folder = pathlib.Path(folder.name)
        self.old = self.folder / "old.json"
        self.old.write_text("before", encoding="utf-8")

    def test_a_file_is_replaced_at_the_end(self) -> None:
        with Outputs() as outputs:
            outputs.open(str(self.old)).write("after")
            self.assertEqual(self.old.read_text(encoding="utf-8"), "before")
        self.assertEqual(self.old.read_text(encoding="utf-8"), "after")
        self.assertEqual(os.listdir(self.folder), ["old.json"])

    def test_an_interrupt_leaves_everything_unchanged(self) -> None:
        with self.assertRaises(KeyboardInterrupt), Outputs() as outputs:
            outputs.open(str(self.old)).write("after")
            outputs.open(str(self.folder / "new.csv")).write("after")
            raise KeyboardInterrupt
        self.assertEqual(self.old.read_text(encoding="utf-8"), "before")
        self.assertEqual(os.listdir(self.folder), ["old.json"])

    def test_two_outputs_in_one_file(self) -> None:
        link = self.folder / "link"
        link.symlink_to("old.json")
        with self.assertRaisesRegex(Fault, "link: two outputs have this file"), Outputs() as outputs:
            outputs.open(str(self.old))
            outputs.open(str(link))
        self.assertEqual(self.old.read_text(encoding="utf-8"), "before")

    def test_a_link_remains_one(self) -> None:
        link = self.folder / "link"
        link.symlink_to("old.json")
        with Outputs() as outputs:
            outputs.open(str(link)).write("after")
        self.assertTrue(link.is_symlink())
        self.assertEqual(self.old.read_text(encoding="utf-8"), "after")

    def test_a_file_keeps_its_mode(self) -> None:
        self.old.chmod(0o640)
        with Outputs() as outputs:
            outputs.open(str(self.old)).write("after")
        self.assertEqual(self.old.stat().st_mode & 0o777, 0o640)

    def test_a_device(self) -> None:
        with Outputs() as outputs:
            outputs.open("/dev/null").write("after")
        self.assertFalse(os.path.isfile("/dev/null"))

    def test_a_full_device(self) -> None:
        with self.assertRaisesRegex(Fault, "/dev/full: No space left on device"), Outputs() as outputs:
            outputs.open("/dev/full").write("after")

    def test_a_folder_that_is_missing(self) -> None:
        with self.assertRaisesRegex(Fault, "/nowhere/x: No such file or directory"), Outputs() as outputs:
            outputs.open("/nowhere/x")


if __name__ == "__main__":
    unittest.main()
