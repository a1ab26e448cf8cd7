"""The command line: what it refuses, and what it writes."""
from __future__ import annotations

import contextlib
import io
import os
import pathlib
import signal
import subprocess
import sys
import tempfile
import time
import unittest
import unittest.mock
from collections.abc import Iterator

from sim.cli import main
from sim.program import TOP

from .support import ONE_STATION, program

SLEEPER = ONE_STATION.replace("[[flow]]", "sleeps = [{ from = 0.1, to = 0.2 }]\n[[flow]]")


def hear_interrupts() -> None:
    """Ends what a job in the background inherits from its shell: that it ignores an interrupt."""
    signal.signal(signal.SIGINT, signal.SIG_DFL)


class InAFolder(unittest.TestCase):
    def setUp(self) -> None:
        folder = tempfile.TemporaryDirectory()
        self.addCleanup(folder.cleanup)
        self.folder = pathlib.Path(folder.name)
        self.file = self.folder / "one.toml"
        self.file.write_text(ONE_STATION, encoding="utf-8")


class Command(InAFolder):
    def call(self, *words: str) -> tuple[int, str, str]:
        """The status of a call, and what it wrote on standard output and on standard error."""
        with contextlib.redirect_stdout(io.StringIO()) as out, contextlib.redirect_stderr(io.StringIO()) as err:
            status = main([str(self.file), *words])
        return status, out.getvalue(), err.getvalue()

    def refused(self, said: str, *words: str) -> None:
        status, out, err = self.call(*words)
        self.assertEqual((status, out), (2, ""))
        self.assertIn(said, err)

    def test_refusals(self) -> None:
        self.refused('wf sim: --compare: unknown path "nobody"', "--compare", "nobody")
        self.refused("wf sim: --compare: fq_mac is given twice", "--compare", "fq_mac,fq_mac")
        self.refused("wf sim: --trace: only airtime makes a trace", "--compare", "fifo", "--trace", "x")
        self.refused("No such file or directory", "--compare", "fifo", "--json", "/nowhere/x")
        self.refused("wf sim: --frames: expected --json FILE next to it", "--frames")
        self.file.write_text(SLEEPER, encoding="utf-8")
        self.refused("wf sim: fifo: models have no power save", "--compare", "fifo")
        self.file.write_text(ONE_STATION.replace("loss = 0", 'agreements = "first-frame"'), encoding="utf-8")
        self.refused("wf sim: fifo: in models all agreements begin at the join", "--compare", "fifo")
        self.file.write_text("seconds = 1\n", encoding="utf-8")
        self.refused("one.toml: station is missing: expected a table [[station]]")

    def test_seconds(self) -> None:
        for word in ("0", "1e9", "nan", "x", "-1", "9" * 5000):
            self.refused(f"wf sim: --seconds {word}: expected a number from 0.001 to 86400", "--seconds", word)
        self.file.write_text("warmup = 0.5\n" + ONE_STATION, encoding="utf-8")
        self.refused("wf sim: --seconds 0.4: expected more than the scenario's warm-up of 0.5 seconds", "--seconds", "0.4")

    def test_seeds(self) -> None:
        for word in ("-5", "1.5", "x", "9223372036854775808", "٣"):
            self.refused(f"wf sim: --seed {word}: expected a whole number from 0 to 9223372036854775807", f"--seed={word}")

    def test_models_need_no_program(self) -> None:
        status, out, _ = self.call("--compare", "fifo,fq_codel", "--seconds", "0.5", "--seed", "3")
        self.assertEqual(status, 0)
        self.assertIn("0.5 s, seed 3", out)
        self.assertNotIn("program", out)

    def test_files(self) -> None:
        with contextlib.chdir(self.folder), self.program_named():
            status, out, _ = self.call(
                "--compare", "fifo,airtime,airtime:agg=4", "--plot", "out", "--json", "a.json", "--csv", "a.csv", "--trace", "a.trace"
            )
            self.assertEqual(status, 0)
            self.assertIn("== airtime agg=4 ==", out)
            self.assertIn("airtime is the named program", out)
            self.assertEqual(sorted(os.listdir()), ["a.csv", "a.json", "a.trace", "one.toml", "out"])
            self.assertEqual(sorted(os.listdir("out")), ["one-airtime.svg", "one-delay.svg", "one-throughput.svg"])
            trace = pathlib.Path("a.trace").read_text(encoding="utf-8")
            self.assertEqual((trace.split()[0], trace.split()[-1], trace.count("cell ")), ("cell", "end", 1))
            self.assertTrue(os.path.getsize("a.json") and os.path.getsize("a.csv"))

    def test_one_file_for_two_outputs(self) -> None:
        with contextlib.chdir(self.folder):
            self.refused("./f: two outputs have this file", "--compare", "fifo", "--json", "f", "--csv", "./f")
            self.assertEqual(os.listdir(), ["one.toml"])

    def test_models_run_no_longer_than_the_machine(self) -> None:
        self.file.write_text(ONE_STATION + "[machine]\ncalls = 1000\n", encoding="utf-8")
        with self.program_named():
            _, out, _ = self.call("--compare", "fifo,airtime")
        self.assertIn("The run ended at 0.", out)
        seconds = [line.split()[0] for line in out.splitlines() if " s simulated in " in line]
        self.assertEqual(len(set(seconds)), 1)

    @contextlib.contextmanager
    def program_named(self) -> Iterator[None]:
        """Names a program to the command, if there is one."""
        with unittest.mock.patch.dict(os.environ, WF_PROGRAM=program()[0]):
            yield

    def test_a_program_that_is_missing(self) -> None:
        with self.program_named():
            os.environ["WF_PROGRAM"] = "/nowhere/wf"
            self.refused("/nowhere/wf: No such file or directory")

    def test_no_program_and_none_that_can_be_built(self) -> None:
        with unittest.mock.patch("sim.runs.find", return_value=None), unittest.mock.patch("sim.runs.build", return_value=None):
            self.refused("no program is built from these sources: build one by './wf build --unproved'")


class Process(InAFolder):
    """The bench as its own process."""

    def start(self, *words: str, tail: str = "") -> subprocess.Popen[str]:
        """A shell that runs the bench over a model, with a redirection. It hears an interrupt even in a background job."""
        line = " ".join(["exec", sys.executable, "-P", "-m", "sim", str(self.file), "--compare", "fifo", *words, tail])
        environment = {**os.environ, "PYTHONPATH": str(TOP)}
        pipe = subprocess.PIPE
        words_of_shell = ["bash", "-c", line]
        return subprocess.Popen(
            words_of_shell, cwd=self.folder, stdout=pipe, stderr=pipe, text=True, env=environment, preexec_fn=hear_interrupts
        )

    def test_standard_output_is_closed(self) -> None:
        done = self.start(tail=">&-")
        _, err = done.communicate()
        self.assertEqual((done.returncode, err), (4, "wf sim: standard output is closed\n"))

    def test_standard_output_is_full(self) -> None:
        done = self.start("--json", "a.json", tail=">/dev/full")
        _, err = done.communicate()
        self.assertEqual((done.returncode, err), (4, "wf sim: standard output: No space left on device\n"))
        self.assertEqual(sorted(os.listdir(self.folder)), ["a.json", "one.toml"])

    def test_standard_error_is_closed(self) -> None:
        done = self.start("--seed", "x", tail="2>&-")
        out, _ = done.communicate()
        self.assertEqual((done.returncode, out), (2, ""))

    def stopped_by(self, number: signal.Signals) -> tuple[int, str, str]:
        """The status and the texts of a run that a signal stops while it writes files."""
        old = self.folder / "old.json"
        old.write_text("before", encoding="utf-8")
        self.file.write_text(ONE_STATION.replace("seconds = 1", "seconds = 10000"), encoding="utf-8")
        done = self.start("--json", "old.json", "--csv", "new.csv")
        while len(os.listdir(self.folder)) < 4 and done.poll() is None:  # until both files are written aside
            time.sleep(0.02)
        done.send_signal(number)
        out, err = done.communicate()
        self.assertEqual(old.read_text(encoding="utf-8"), "before")
        self.assertEqual(sorted(os.listdir(self.folder)), ["old.json", "one.toml"])
        return done.returncode, out, err

    def test_an_interrupt(self) -> None:
        self.assertEqual(self.stopped_by(signal.SIGINT), (130, "", "wf sim: interrupted; no file was written\n"))

    def test_a_request_to_end(self) -> None:
        self.assertEqual(self.stopped_by(signal.SIGTERM), (143, "", ""))


class Front(unittest.TestCase):
    def test_the_front_script_says_which(self) -> None:
        done = subprocess.run([TOP / "wf", "which"], env={**os.environ, "WF_PROGRAM": "/a/b"}, capture_output=True, text=True, check=True)
        self.assertEqual(done.stdout, "named /a/b\n")


if __name__ == "__main__":
    unittest.main()
