"""Real builds, which need rt and take minutes: the program and the library are built without proof, stopped, and installed."""
from __future__ import annotations

import os
import pathlib
import shutil
import signal
import subprocess
import tempfile
import time
import unittest

from wfdev.build import fresh

from .support import TOP

TRACE = (TOP / "examples" / "one-frame.trace").read_bytes()
WANTED = (TOP / "examples" / "one-frame.out").read_bytes()


@unittest.skipUnless(shutil.which("rt"), "there is no rt")
class Whole(unittest.TestCase):
    """The cases run in the order of their names, over one clone."""

    room: tempfile.TemporaryDirectory[str]
    top: pathlib.Path

    @classmethod
    def setUpClass(cls) -> None:
        cls.room = tempfile.TemporaryDirectory(prefix="wf-door-")
        cls.top = pathlib.Path(cls.room.name) / "a clone"
        subprocess.run(["cp", "-a", "--", str(TOP), str(cls.top)], check=True)
        for out in cls.top.glob("crates/*/out"):
            shutil.rmtree(out)

    @classmethod
    def tearDownClass(cls) -> None:
        cls.room.cleanup()

    def wf(self, *words: str, given: bytes = b"") -> subprocess.CompletedProcess[bytes]:
        """Runs the script."""
        return subprocess.run([self.top / "wf", *words], input=given, capture_output=True, timeout=1200, check=False)

    def test_1_a_stopped_build_leaves_no_process(self) -> None:
        temporary = pathlib.Path(self.room.name) / "temporary files"
        temporary.mkdir()
        variables = {**os.environ, "TMPDIR": str(temporary)}
        child = subprocess.Popen([self.top / "wf", "build", "--unproved"], env=variables, stderr=subprocess.PIPE, start_new_session=True)
        time.sleep(10)
        child.send_signal(signal.SIGTERM)
        _, why = child.communicate(timeout=30)
        self.assertEqual(child.returncode, 128 + signal.SIGTERM, why)
        self.assertNotIn(b"Traceback", why)
        time.sleep(1)
        running = subprocess.run(["ps", "-eo", "args"], capture_output=True, text=True, check=True).stdout
        self.assertNotIn(str(temporary), running)
        self.assertEqual(list(temporary.iterdir()), [])

    def test_2_a_trace_that_comes_late_is_answered(self) -> None:
        line = f"(sleep 45; cat '{TOP}/examples/one-frame.trace') | '{self.top}/wf' replay"
        done = subprocess.run(["bash", "-c", line], capture_output=True, timeout=1200, check=False)
        self.assertEqual((done.stdout, done.returncode), (WANTED, 0), done.stderr)

    def test_3_a_long_trace_is_answered(self) -> None:
        head, *calls, end = TRACE.splitlines(keepends=True)
        trace = b"".join([b"cell calls=4294967295\n", *[b"tick 1\n"] * 5_000_000, end])
        done = self.wf("replay", given=trace)
        self.assertEqual(done.returncode, 0, done.stderr)
        self.assertIn(b"calls 5000000\n", done.stdout[-400:])

    def test_4_the_library_alone_is_installed(self) -> None:
        done = self.wf("lib", "--unproved")
        self.assertEqual(done.stdout.decode(), f"{self.top / fresh.UNPROVED_LIBRARY}\n", done.stderr)
        prefix = pathlib.Path(self.room.name) / "prefix"
        self.assertEqual(self.wf("install", str(prefix), "--unproved").returncode, 0)
        self.assertTrue((prefix / "lib/libwf.so").exists())
        self.assertEqual(self.wf("uninstall", str(prefix)).returncode, 0)
        self.assertFalse(any(prefix.rglob("libwf*")))
