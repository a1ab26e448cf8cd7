"""Waiting for a program: a slow one may take its time, and one that stands still is given up."""
from __future__ import annotations

import sys
import unittest

from wfdev.harness import progress

SLOW = "import time\nend = time.monotonic() + 2\nwhile time.monotonic() < end: pass\nprint(input())"


class Progress(unittest.TestCase):
    def test_a_program_that_runs_longer_than_the_limit_is_waited_for(self) -> None:
        done = progress.run([sys.executable, "-c", SLOW], b"read\n", still=0.4)
        self.assertEqual((done.returncode, done.stdout, done.stderr), (0, b"read\n", b""))

    def test_a_program_that_stands_still_is_given_up(self) -> None:
        with self.assertRaisesRegex(progress.Stuck, "no thread of sleep 600 ran for 0.4 seconds"):
            progress.run(["sleep", "600"], b"", still=0.4)

    def test_status_and_both_outputs(self) -> None:
        done = progress.run(["sh", "-c", "cat; echo no >&2; exit 5"], b"in")
        self.assertEqual((done.returncode, done.stdout, done.stderr), (5, b"in", b"no\n"))


if __name__ == "__main__":
    unittest.main()
