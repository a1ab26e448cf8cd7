"""Axes, pictures, exports and the printed table, and the scenarios that come with the bench."""
from __future__ import annotations

import csv
import io
import json
import unittest
from collections.abc import Iterator
from xml.etree import ElementTree

from sim.baselines.fifo import Fifo
from sim.baselines.fq_mac import FqMac
from sim.bench import Bench
from sim.exports import run_numbers, write_csv, write_json
from sim.measure import Result, measure
from sim.models import choose_all
from sim.plots import PICTURES, pictures
from sim.program import TOP
from sim.reading import read
from sim.scenario import Scenario
from sim.svg import Axis, Picture, linear, logarithmic
from sim.table import text

from .support import THREE_STATIONS, scenario


def results(chosen: Scenario) -> Iterator[Result]:
    """Runs over two models."""
    for name, model in (("fifo", Fifo), ("fq_mac", FqMac)):
        bench = Bench(chosen, model(chosen))
        yield measure(bench, name, name, bench.run(round(chosen.seconds * 1e6)), 0.0)


class Axes(unittest.TestCase):
    def test_linear(self) -> None:
        self.assertEqual(linear("x", 87).steps, [0, 20, 40, 60, 80, 100])
        self.assertEqual(linear("x", 0).steps, [0, 1])
        self.assertEqual(linear("x", 10).part(5), 0.5)

    def test_logarithmic(self) -> None:
        axis = logarithmic("x", 3, 700)
        self.assertEqual(axis.steps, [2, 5, 10, 20, 50, 100, 200, 500, 1000])
        self.assertEqual([axis.part(2), axis.part(1000), axis.part(1)], [0, 1, 0])
        self.assertEqual(logarithmic("x", 0.3, 700).steps, [1, 10, 100, 1000])
        self.assertEqual(logarithmic("x", 5, 5).steps, [5, 10])


class Outputs(unittest.TestCase):
    scenario: Scenario
    results: list[Result]

    @classmethod
    def setUpClass(cls) -> None:
        cls.scenario = scenario(THREE_STATIONS)
        cls.scenario.pictures = list(PICTURES)
        cls.results = list(results(cls.scenario))

    def test_pictures_are_xml_and_stay_inside(self) -> None:
        drawn = pictures(self.scenario, self.results)
        self.assertEqual(list(drawn), list(PICTURES))
        for svg in drawn.values():
            root = ElementTree.fromstring(svg)
            for element in root.iter():
                for key, low, high in (("x", 0, 680), ("y", 0, 400), ("x1", 0, 680), ("y2", 0, 400)):
                    if key in element.attrib:
                        self.assertTrue(low <= float(element.attrib[key]) <= high, element.attrib)

    def test_json(self) -> None:
        file = io.StringIO()
        write_json(file, self.scenario, [run_numbers(one) for one in self.results], "")
        runs = json.loads(file.getvalue())["runs"]
        self.assertEqual([run["path"] for run in runs], ["fifo", "fq_mac"])
        self.assertEqual([flow["delay"] for flow in runs[0]["flows"]], ["one-way"] * 3 + ["round-trip"])
        self.assertNotIn("frames", runs[0]["flows"][0])

    def test_json_with_each_frame(self) -> None:
        file = io.StringIO()
        write_json(file, self.scenario, [run_numbers(one, frames=True) for one in self.results], "")
        bulk, *_, ping = json.loads(file.getvalue())["runs"][0]["flows"]
        self.assertEqual(len(bulk["frames"]), bulk["offered_frames"])
        self.assertEqual(bulk["delivered_frames"], sum(1 for _, released, _, _ in bulk["frames"] if released is not None))
        self.assertTrue(all(answered is None or answered > released for _, released, _, _, answered in ping["frames"]))

    def test_markup_in_a_title_is_escaped(self) -> None:
        picture = Picture("a < b & c", 'a "note"', Axis("x", 0, 1, []), Axis("y", 0, 1, []), [])
        texts = [element.text for element in ElementTree.fromstring(picture.svg()).iter() if element.text]
        self.assertIn("a < b & c", texts)

    def test_delays_of_pings_are_called_round_trips(self) -> None:
        drawn = pictures(self.scenario, self.results)
        self.assertIn(">delay, ms<", drawn["delay"])
        pings = scenario(THREE_STATIONS + '[plot]\npictures = ["delay"]\nflows = ["ping"]\n')
        self.assertIn(">round-trip time, ms<", pictures(pings, list(results(pings)))["delay"])
        printed = text(self.scenario, self.results, "")
        self.assertRegex(printed, r"ping to slow .* round-trip ")
        self.assertRegex(printed, r"bulk to slow .* one-way ")

    def test_csv_has_a_row_for_each_station_and_each_flow(self) -> None:
        file = io.StringIO(newline="")
        write_csv(file, [run_numbers(one, {"station.slow.loss": "0.1"}) for one in self.results])
        rows = list(csv.DictReader(io.StringIO(file.getvalue())))
        self.assertEqual([row["station"] for row in rows[:7]], ["fast 1", "fast 2", "slow"] * 2 + ["slow"])
        self.assertEqual([row["row"] for row in rows[:7]], ["station"] * 3 + ["flow"] * 4)
        self.assertEqual([row["path"] for row in rows[::7]], ["fifo", "fq_mac"])
        self.assertEqual({(row["seed"], row["station.slow.loss"]) for row in rows}, {("5", "0.1")})
        self.assertEqual((rows[0]["delay_p50_us"], rows[3]["airtime_share"]), ("", ""))
        self.assertEqual(len(rows), 14)

    def test_the_table_names_who_was_never_served(self) -> None:
        silent = scenario(THREE_STATIONS + '[[station]]\nname = "deaf"\nloss = 1\n[[flow]]\nstation = "deaf"\nevery_ms = 300\noffset_ms = 0\n')
        printed = text(silent, list(results(silent)), "")
        self.assertIn("Never served: flow every_ms to deaf.", printed)
        self.assertNotIn("Never served: station", printed)  # it got airtime


class Floods(unittest.TestCase):
    def test_a_flood_below_the_link_is_reported(self) -> None:
        slow = scenario(THREE_STATIONS.replace("backlog = 300", "flood_mbit = 1"))
        self.assertIn("bulk to fast 1: this flood does not fill the link; raise flood_mbit.", text(slow, list(results(slow)), ""))


class Scenarios(unittest.TestCase):
    def test_all_that_come_with_the_bench_are_read(self) -> None:
        files = sorted(TOP.glob("sim/scenarios/*.toml"))
        self.assertGreaterEqual(len(files), 11)
        for file in [*files, *TOP.glob("sim/paper/*.toml"), *TOP.glob("sim/speed/*.toml"), *TOP.glob("checks/ns3.d/*.toml")]:
            choose_all(read(file).compare, str(file))


if __name__ == "__main__":
    unittest.main()
