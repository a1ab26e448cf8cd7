"""The experiments of the paper, and the page of their numbers."""
from __future__ import annotations

import contextlib
import io
import pathlib
import re
import tempfile
import unittest
import unittest.mock
from typing import Any

from sim import figures, paper
from sim.cli import main
from sim.runs import Job, Program

NONE = Program("/bin/true", "", 1)


def numbers(job: Job) -> dict[str, Any]:
    """The result of a run: each number is the seed."""
    seed = job.scenario.seed
    of_station = dict.fromkeys(("airtime_share", "throughput_mbit_per_s", "aggregate_frames"), seed)
    stations: list[dict[str, Any]] = [{"station": one.name, **of_station} for one in job.scenario.stations]
    of_flow = dict.fromkeys(("delay_p50_us", "delay_p95_us", "mos", "transfers", "transfer_mean_us", "transfer_p95_us"), seed)
    kind = {"delay": "one-way", "direction": "down", "connection": 0}
    flows: list[dict[str, Any]] = [{"flow": one.name, "station": one.station.name, **kind, **of_flow} for one in job.scenario.flows]
    whole = {"path": job.choice.label, "seed": seed, "simulated_s": 20, "jain": seed, "throughput_mbit_per_s": seed}
    return {**whole, "parameters": job.parameters, "stations": stations, "flows": flows}


def page(seeds: int) -> str:
    groups = paper.all_groups(NONE, seeds, None)
    return paper.page([[numbers(job) for group in of_one for job in group] for of_one in groups], seeds)


class Pages(unittest.TestCase):
    def test_each_experiment_has_its_table(self) -> None:
        written = page(3)
        for experiment in paper.EXPERIMENTS:
            self.assertIn(f"## {experiment.title}\n", written)
        self.assertIn("| `fifo` | slow | 79 | 200.0 ±248.4 | 5.1 | 5.3 | 2.0 ±2.5 | 2.0 ±2.5 |", written)
        self.assertIn("| `airtime agg=18` | fast 1 |  | 200.0", written)
        self.assertEqual(written.count("| large | `"), len(paper.ALL))
        for path in ("`airtime device`", "`one_list`"):
            self.assertIn(f"\n| {path} | slow |", written)
        self.assertIn("`sim/paper/tcp.toml`, 20 s, of which the first 5 s are not counted.", written)
        self.assertIn("mean over 3 seeds", " ".join(written.split()))
        self.assertLessEqual(max(len(line) for line in written.splitlines() if not line.startswith("|")), 110)

    def test_the_page_has_its_command(self) -> None:
        self.assertEqual(paper.command(10, None), "./wf sim --paper")
        self.assertEqual(paper.command(3, 10), "./wf sim --paper --seeds 3 --seconds 10")
        self.assertIn("`./wf sim --paper --seeds 1`", page(1))
        self.assertIn("A number is of one run", page(1))

    def test_each_row_has_as_many_cells_as_its_head(self) -> None:
        table = 0
        for line in page(1).splitlines():
            if line.startswith("|"):
                table = table or line.count("|")
                self.assertEqual(line.count("|"), table, line)
            else:
                table = 0


class Command(unittest.TestCase):
    def call(self, *words: str) -> tuple[int, str]:
        with contextlib.redirect_stderr(io.StringIO()) as err:
            return main(["--paper", *words]), err.getvalue()

    def test_refusals(self) -> None:
        self.assertEqual(self.call("x", "--csv", "y"), (2, "wf sim: --paper: expected no --csv next to it\n"))
        with contextlib.redirect_stderr(io.StringIO()), self.assertRaises(SystemExit):
            main([])

    def write(self, folder: str) -> tuple[int, str]:
        """Writes the page of synthetic runs."""
        run = unittest.mock.patch("sim.cli.side_by_side", side_effect=lambda given, groups: [numbers(job) for group in groups for job in group])
        with run, unittest.mock.patch("sim.cli.find_program", return_value=NONE):
            self.assertEqual(self.call(f"{folder}/PAPER.md", "--seeds", "1", "--seconds", "1")[0], 2)
            return self.call(f"{folder}/PAPER.md", "--seeds", "1")

    def test_the_page_is_written(self) -> None:
        with tempfile.TemporaryDirectory() as folder, unittest.mock.patch("sim.figures.library", return_value=None):
            status, said = self.write(folder)
            self.assertEqual((status, "matplotlib is not installed" in said), (0, True))
            written = pathlib.Path(folder, "PAPER.md").read_text(encoding="utf-8")
        self.assertIn("## Pages", written)
        self.assertNotIn("![", written)

    def test_the_page_has_its_pictures(self) -> None:
        if figures.library() is None:
            self.skipTest("matplotlib is not installed")
        with tempfile.TemporaryDirectory() as folder:
            self.assertEqual(self.write(folder), (0, ""))
            named = re.findall(r"\]\((.+)\)", pathlib.Path(folder, "PAPER.md").read_text(encoding="utf-8"))
            pictures = [one for one in named if one.endswith(".svg")]
            self.assertEqual(len(pictures), sum(len(one.figures) for one in paper.EXPERIMENTS))
            first = {name: pathlib.Path(folder, name).read_bytes() for name in pictures}
            self.write(folder)
            self.assertEqual(first, {name: pathlib.Path(folder, name).read_bytes() for name in pictures})


if __name__ == "__main__":
    unittest.main()
