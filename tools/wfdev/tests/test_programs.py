"""Tests of wfdev.repo.programs: which program and which library `./wf which` names."""
import os
import tempfile
import unittest
from pathlib import Path
from unittest import mock

from wfdev.repo import programs
from wfdev.repo.programs import Kind, Program


class Answers(unittest.TestCase):
    """The script is a stand-in, which prints its variable."""

    def setUp(self) -> None:
        room = tempfile.TemporaryDirectory()
        self.addCleanup(room.cleanup)
        self.script = Path(room.name) / "wf"
        patched = mock.patch.dict(os.environ)
        patched.start()
        self.addCleanup(patched.stop)
        for name in ("WF", "WF_PROGRAM"):
            os.environ.pop(name, None)

    def answers(self, text: str) -> Program | None:
        """Returns the program that a script names."""
        self.script.write_text(f"#!/bin/sh\n{text}\n", encoding="utf-8")
        self.script.chmod(0o755)
        return programs.find(self.script)

    def test_kind_and_path_are_those_of_the_script(self) -> None:
        self.assertEqual(self.answers("echo proved /a/wf"), Program(Kind.PROVED, Path("/a/wf")))
        self.assertEqual(self.answers("echo unproved '/a b/wf'"), Program(Kind.UNPROVED, Path("/a b/wf")))

    def test_there_may_be_none(self) -> None:
        self.assertIsNone(self.answers("echo a message >&2; exit 1"))

    def test_the_older_variable_still_works(self) -> None:
        os.environ["WF"] = "/old/wf"
        self.assertEqual(self.answers('echo named "$WF_PROGRAM"'), Program(Kind.NAMED, Path("/old/wf")))
        os.environ["WF_PROGRAM"] = "/new/wf"
        self.assertEqual(self.answers('echo named "$WF_PROGRAM"'), Program(Kind.NAMED, Path("/new/wf")))

    def test_a_library_is_that_of_the_script(self) -> None:
        self.answers('[ "$*" = "which --library" ] && echo unproved /a/libwf.a')
        self.assertEqual(programs.fresh_library(self.script), Path("/a/libwf.a"))
        self.answers("exit 1")
        self.assertIsNone(programs.fresh_library(self.script))


if __name__ == "__main__":
    unittest.main()
