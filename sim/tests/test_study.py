"""Runs from Python: tables of their stations and flows, with pandas and without."""
from __future__ import annotations

import importlib
import pathlib
import tempfile
import unittest
import unittest.mock
from typing import Any

from sim.fields import Fault
from sim.study import repeat, run

from .test_repeats import SHORT

COLUMNS = {"path", "seed", "simulated_s", "station", "airtime_share", "throughput_mbit_per_s"}


def without_pandas() -> Any:
    return unittest.mock.patch("sim.study.importlib.import_module", side_effect=ImportError)


class Studies(unittest.TestCase):
    def setUp(self) -> None:
        folder = tempfile.TemporaryDirectory()
        self.addCleanup(folder.cleanup)
        self.file = pathlib.Path(folder.name, "one.toml")
        self.file.write_text(SHORT, encoding="utf-8")
        store = unittest.mock.patch("sim.study.standard_folder", return_value=pathlib.Path(folder.name, "kept"))
        store.start()
        self.addCleanup(store.stop)

    def test_one_run(self) -> None:
        with without_pandas():
            found = run(self.file, "fifo", seed=3, seconds=0.1)
            (station,), (flow,) = found.stations, found.flows
        self.assertLessEqual(COLUMNS, set(station))
        self.assertEqual((station["path"], station["seed"], station["simulated_s"], station["station"]), ("fifo", 3, 0.1, "a"))
        self.assertEqual((flow["flow"], flow["dropped_overlimit_frames"]), ("poisson_per_s", 0))
        self.assertGreater(flow["delivered_frames"], 0)

    def test_many_runs(self) -> None:
        with without_pandas():
            found = repeat(self.file, ["fifo", "fq_mac"], seeds=2, sweeps=["station.a.loss=0,0.5"], processes=1)
            rows = [(one["path"], one["seed"], one["station.a.loss"]) for one in found.stations]
        self.assertEqual(rows, [(path, seed, loss) for loss in ("0", "0.5") for seed in (1, 2) for path in ("fifo", "fq_mac")])

    def test_tables_of_pandas(self) -> None:
        try:
            pandas: Any = importlib.import_module("pandas")
        except ImportError:
            self.skipTest("pandas is not installed")
        found = run(self.file, "fifo").flows
        self.assertIsInstance(found, pandas.DataFrame)
        self.assertEqual(list(found["station"]), ["a"])
        self.assertGreater(found["delay_p50_us"].mean(), 0)

    def test_mistakes(self) -> None:
        with self.assertRaisesRegex(Fault, 'path: unknown path "nobody"'):
            run(self.file, "nobody")
        self.file.write_text("warmup = 0.01\n" + SHORT, encoding="utf-8")
        with self.assertRaisesRegex(Fault, "seconds = 0.005: expected more than the warm-up of 0.01 s"):
            run(self.file, "fifo", seconds=0.005)


if __name__ == "__main__":
    unittest.main()
