"""Figures: the calls of matplotlib, and a message without it."""
from __future__ import annotations

import contextlib
import io
import os
import pathlib
import tempfile
import unittest
import unittest.mock

from sim import figures
from sim.baselines.fifo import Fifo
from sim.cli import main
from sim.exports import run_numbers
from sim.outputs import Outputs
from sim.runs import repeated
from sim.styles import FLOWS, OTHERS, PATHS, styles_of
from sim.svg import HATCHES

from .support import ONE_STATION, run, scenario
from .test_repeats import SHORT


class Drawing(unittest.TestCase):
    def setUp(self) -> None:
        folder = tempfile.TemporaryDirectory()
        self.addCleanup(folder.cleanup)
        self.folder = folder.name
        self.scenario = scenario(SHORT)
        self.runs = [run_numbers(run(one, Fifo(one))[1]) for one in repeated(self.scenario, 2)]

    def test_without_matplotlib_nothing_is_written(self) -> None:
        with unittest.mock.patch("importlib.import_module", side_effect=ImportError), Outputs() as outputs:
            self.assertFalse(figures.write_figures(outputs, self.folder, self.scenario, self.runs))
        self.assertEqual(os.listdir(self.folder), [])

    def test_each_figure_in_each_format(self) -> None:
        pyplot = unittest.mock.MagicMock()
        drawn, axes = unittest.mock.MagicMock(), unittest.mock.MagicMock()
        pyplot.subplots.return_value = drawn, axes
        without_ticks = unittest.mock.patch("sim.figures.make_logarithmic")
        with unittest.mock.patch("sim.figures.library", return_value=pyplot), without_ticks, Outputs() as outputs:
            self.assertTrue(figures.write_figures(outputs, self.folder, self.scenario, self.runs))
        self.assertEqual(len(os.listdir(self.folder)), 9)
        self.assertEqual([call.kwargs["format"] for call in drawn.savefig.call_args_list], ["png", "svg", "pdf"] * 3)
        self.assertEqual(axes.bar.call_args_list[0].args[1], [100.0])  # the airtime of the only station
        self.assertEqual(axes.bar.call_args_list[0].kwargs["yerr"], [0.0])

    def test_matplotlib_draws_them(self) -> None:
        if figures.library() is None:
            self.skipTest("matplotlib is not installed")
        with Outputs() as outputs:
            self.assertTrue(figures.write_figures(outputs, self.folder, self.scenario, self.runs))
        heads = {path.suffix: path.read_bytes()[:5] for path in sorted(pathlib.Path(self.folder).iterdir())}
        self.assertEqual((heads[".png"][1:4], heads[".pdf"], heads[".svg"]), (b"PNG", b"%PDF-", b"<?xml"))

    def test_the_axis_names_the_delay(self) -> None:
        group = [{"flows": [{"delay": "one-way"}, {"delay": "round-trip"}]}]
        titles = [figures.axis_title(figures.FIGURES[2], group, shown) for shown in ([(0, "a")], [(1, "b")], [(0, "a"), (1, "b")])]
        self.assertEqual(titles, ["median one-way delay, ms", "median round-trip time, ms", "median delay, ms"])

    def test_a_path_looks_the_same_in_every_picture(self) -> None:
        other, another = OTHERS[:2]
        self.assertEqual(styles_of(["one_list", "airtime"]), [PATHS["one_list"], PATHS["airtime"]])
        self.assertEqual(styles_of(["fifo", "airtime agg=18", "airtime"]), [PATHS["fifo"], other, PATHS["airtime"]])
        self.assertEqual(styles_of(["airtime limit=1", "airtime limit=2"]), [other, another])
        self.assertEqual(len({(style.hatch, style.mark) for style in PATHS.values()}), len(PATHS))
        for style in (*PATHS.values(), *OTHERS, *FLOWS):
            self.assertTrue(not style.hatch or style.hatch in HATCHES, style)

    def test_a_legend_has_rows_of_one_length(self) -> None:
        self.assertEqual([figures.columns(entries) for entries in (1, 6, 7, 12, 13)], [1, 6, 4, 6, 5])

    def test_many_stations_are_boxes(self) -> None:
        many = scenario(ONE_STATION.replace("seconds = 1", "seconds = 0.02") + "[[station]]\ncount = 20\n")
        numbers = run_numbers(run(many, Fifo(many))[1])
        axes = unittest.mock.MagicMock()
        pyplot = unittest.mock.MagicMock()
        pyplot.subplots.return_value = unittest.mock.MagicMock(), axes
        figures.draw(pyplot, many, [[numbers]], figures.FIGURES[0])
        self.assertEqual(len(axes.boxplot.call_args.args[0][0]), 20)
        self.assertEqual(axes.annotate.call_args.args[0], "a")  # the station that has a table of its own


class Command(unittest.TestCase):
    def test_a_line_says_that_it_is_missing(self) -> None:
        with tempfile.TemporaryDirectory() as folder, contextlib.redirect_stderr(io.StringIO()) as err:
            file = pathlib.Path(folder, "one.toml")
            file.write_text(SHORT, encoding="utf-8")
            with contextlib.redirect_stdout(io.StringIO()), unittest.mock.patch("sim.figures.library", return_value=None):
                self.assertEqual(main([str(file), "--compare", "fifo", "--figures", f"{folder}/f"]), 0)
        self.assertIn("matplotlib is not installed", err.getvalue())


if __name__ == "__main__":
    unittest.main()
