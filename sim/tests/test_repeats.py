"""Repeated runs: intervals, kept results, progress, and the command."""
from __future__ import annotations

import contextlib
import io
import math
import pathlib
import pickle
import tempfile
import unittest
import unittest.mock
from collections.abc import Callable
from concurrent.futures import Executor, Future
from typing import Any

from sim import runs
from sim.cli import main
from sim.fields import Fault
from sim.intervals import interval, quantile
from sim.keep import Store, key
from sim.models import Choice
from sim.progress import Bars, Lines, Progress, bar
from sim.runs import Job, jobs_of, repeated, run_jobs, run_many

from .support import ONE_STATION, scenario

SHORT = ONE_STATION.replace("seconds = 1", "seconds = 0.05").replace("mbit = 10", "poisson_per_s = 500")


class Serial(Executor):
    """Runs each call when it is submitted."""

    def submit(self, call: Callable[..., Any], /, *words: Any, **named: Any) -> Future[Any]:
        future: Future[Any] = Future()
        try:
            future.set_result(call(*words, **named))
        except Fault as fault:
            future.set_exception(fault)
        return future


def area(freedom: int, end: float) -> float:
    """The part of Student's t distribution between -end and end, by Simpson's rule in the angle atan(t / sqrt(n))."""
    steps = 2000
    top = math.atan(end / math.sqrt(freedom))
    whole = 0.0
    for step in range(steps + 1):
        weight = 1 if step in (0, steps) else 4 if step % 2 else 2
        whole += weight * math.cos(top * step / steps) ** (freedom - 1)
    density = math.exp(math.lgamma((freedom + 1) / 2) - math.lgamma(freedom / 2)) / math.sqrt(math.pi)
    return 2 * density * whole * top / steps / 3


class Intervals(unittest.TestCase):
    def test_the_quantiles_leave_five_per_cent(self) -> None:
        for freedom in (*range(1, 31), 40, 60, 120):
            self.assertAlmostEqual(area(freedom, quantile(freedom)), 0.95, delta=5e-5, msg=str(freedom))

    def test_between_two_quantiles_the_greater_one_counts(self) -> None:
        self.assertEqual([quantile(31), quantile(59), quantile(500)], [quantile(30), quantile(40), quantile(120)])

    def test_by_hand(self) -> None:
        found = interval([1, 2, 3])
        self.assertEqual((found.mean, found.count), (2, 3))
        self.assertAlmostEqual(found.half, 4.303 / math.sqrt(3))
        self.assertEqual(found.text(1), "2.0 ±2.5")

    def test_missing_values(self) -> None:
        self.assertEqual(interval([None, math.nan]).text(1), "-")
        self.assertEqual(interval([None, 4.0]).text(1, 10), "40.0")


class Keeping(unittest.TestCase):
    def setUp(self) -> None:
        folder = tempfile.TemporaryDirectory()
        self.addCleanup(folder.cleanup)
        self.store = Store(pathlib.Path(folder.name))
        self.jobs = [job for one in repeated(scenario(SHORT), 2) for job in jobs_of(one, [Choice("fifo")], None)]

    def run_them(self, store: Store) -> tuple[list[dict[str, Any]], int]:
        """The numbers of the jobs, and how many of these ran."""
        with unittest.mock.patch.object(runs, "work", wraps=runs.work) as worked:
            return run_jobs(self.jobs, store, Serial(), Progress()), worked.call_count

    def test_a_finished_run_is_not_run_again(self) -> None:
        first, ran = self.run_them(self.store)
        self.assertEqual(ran, 2)
        self.assertEqual(self.run_them(self.store), (first, 0))
        self.assertEqual([one["seed"] for one in first], [1, 2])
        self.assertNotEqual(first[0]["flows"], first[1]["flows"])
        self.assertEqual(self.run_them(Store(self.store.folder, is_fresh=True))[1], 2)

    def test_a_result_that_cannot_be_read_is_made_again(self) -> None:
        self.run_them(self.store)
        self.store.place(self.jobs[0].key).write_text("{", encoding="utf-8")
        self.assertEqual(self.run_them(self.store)[1], 1)

    def test_the_key_has_all_that_matters(self) -> None:
        one = self.jobs[0].scenario
        keys = {key(one, "fifo", None, 1), key(one, "fq_mac", None, 1), key(one, "fifo", __file__, 1), key(one, "fifo", None, 2)}
        keys.add(key(self.jobs[1].scenario, "fifo", None, 1))
        self.assertEqual(len(keys), 5)
        one.title = "another"
        self.assertIn(key(one, "fifo", None, 1), keys)

    def test_a_mistake_ends_all(self) -> None:
        with unittest.mock.patch.object(runs, "work", side_effect=Fault("broken")), self.assertRaisesRegex(Fault, "broken"):
            run_jobs(self.jobs, self.store, Serial(), Progress())

    def test_a_job_goes_to_another_process(self) -> None:
        self.assertEqual(pickle.loads(pickle.dumps(self.jobs[0])), self.jobs[0])

    def test_models_run_no_longer_than_the_machine(self) -> None:
        one = scenario(SHORT)

        def shorter(job: Job) -> dict[str, Any]:
            reached = 0.02 if job.choice.is_machine else job.until / 1e6
            return {"path": job.choice.label, "simulated_s": reached}

        groups = [jobs_of(one, [Choice("fifo"), Choice("airtime")], runs.Program("/bin/true", "", 1))]
        with unittest.mock.patch.object(runs, "work", side_effect=shorter):
            found = run_many(groups, Store(), Serial(), Progress())
        self.assertEqual([one["simulated_s"] for one in found], [0.02, 0.02])


class Showing(unittest.TestCase):
    def shown(self, kind: type[Progress]) -> str:
        with contextlib.redirect_stderr(io.StringIO()) as err:
            made = kind(2)
            made.finished("fifo, seed 1", is_kept=True)
            made.finished("fifo, seed 2", is_kept=False)
        return err.getvalue()

    def test_lines_bars_and_nothing(self) -> None:
        self.assertEqual(self.shown(Lines), "wf sim: 2 of 2 runs: fifo, seed 2\n")
        self.assertIn("2 of 2 runs", self.shown(Bars))
        self.assertEqual(self.shown(Progress), "")
        self.assertEqual(bar(0.5), "[" + "#" * 15 + "." * 15 + "]")


class Command(unittest.TestCase):
    def test_several_seeds(self) -> None:
        with tempfile.TemporaryDirectory() as folder, contextlib.redirect_stdout(io.StringIO()) as out:
            file = pathlib.Path(folder, "one.toml")
            file.write_text(SHORT, encoding="utf-8")
            with contextlib.redirect_stderr(io.StringIO()) as err:
                words = ["--compare", "fifo", "--seeds", "2", "--processes", "2", "--keep", f"{folder}/kept"]
                self.assertEqual(main([str(file), *words, "--csv", f"{folder}/a.csv"]), 0)
            self.assertEqual(pathlib.Path(folder, "a.csv").read_text(encoding="utf-8").count("\nfifo,"), 4)
        self.assertIn("seeds 1 to 2; 95 % intervals", out.getvalue())
        self.assertRegex(out.getvalue(), r"\na  +7 20 long  100\.0 ±0\.0")
        self.assertIn("wf sim: 2 of 2 runs", err.getvalue())

    def test_refusals(self) -> None:
        for words, said in (
            (["--seeds", "0"], "--seeds 0: expected a whole number from 1 to 1000"),
            (["--seeds", "2", "--processes", "x"], "--processes x: expected a whole number from 1 to 1024"),
            (["--seeds", "2", "--trace", "t"], "--trace: expected one seed and no sweep: leave out --seeds and --sweep"),
        ):
            with tempfile.TemporaryDirectory() as folder, contextlib.redirect_stderr(io.StringIO()) as err:
                file = pathlib.Path(folder, "one.toml")
                file.write_text(SHORT, encoding="utf-8")
                self.assertEqual(main([str(file), "--compare", "fifo", *words]), 2)
            self.assertIn(said, err.getvalue())


if __name__ == "__main__":
    unittest.main()
