"""Tests of checks/ns3: what ns-3 is told, and how its table is read."""
import subprocess
import unittest
import unittest.mock
from pathlib import Path

from wfdev.checks import ns3, ns3_wifi
from wfdev.checks.ns3_wifi import Row

from sim.reading import read

ANOMALY = ns3.SCRIPT.folder / "anomaly.toml"
LOSSY = ns3.SCRIPT.folder / "lossy.toml"


class Told(unittest.TestCase):
    def test_a_line_for_each_station(self) -> None:
        lines = [ns3_wifi.line(flow) for flow in read(ANOMALY).flows]
        self.assertEqual(lines, ["ht 15 20 400 2 50 0 1500 1\n"] * 2 + ["ht 0 20 400 1 50 0 1500 1\n"])
        self.assertEqual(ns3_wifi.line(read(LOSSY).flows[2]), "ht 7 20 800 1 30 0.3 1500 8 576 1 100 1\n")

    def test_words(self) -> None:
        scenario = read(ANOMALY)
        common = ["--seconds=12", "--warmup=2", "--seed=1", "--frames=32"]
        fifo = ["--discipline=ns3::PfifoFastQueueDisc", "--limit=1000", "--queue=500"]
        self.assertEqual(ns3_wifi.words_for(scenario, "fifo"), [*common, *fifo])
        self.assertEqual(ns3_wifi.words_for(scenario, "airtime"), [*common, "--path"])


class Read(unittest.TestCase):
    def test_the_rows_of_ns3(self) -> None:
        done = subprocess.CompletedProcess([], 0, "1.0 8\n3.0 4\n", "")
        with unittest.mock.patch("subprocess.run", return_value=done):
            row = ns3_wifi.over_ns3(Path("wifi"), read(ANOMALY), "fifo")
        self.assertEqual((row.shares, row.mbit), ([0.25, 0.75], [8, 4]))

    def test_how_far_two_rows_are_apart(self) -> None:
        self.assertAlmostEqual(ns3_wifi.apart(Row([0.5, 0.5], [9, 4], 0), Row([0.5, 0.5], [10, 4], 0)), 0.1)

    def test_the_table_of_the_path(self) -> None:
        said = "A path of the library\nhead\nfast  390.0  33.3  104359  20.1  25.3\nmiddle  175.5  33.3  48881  1  1\nslow  29.3  33.4  0  1  1\n"
        shares = ns3.over_the_path(said)
        self.assertEqual([(one.airtime, one.arrived) for one in shares], [(33.3, 104359), (33.3, 48881), (33.4, 0)])


if __name__ == "__main__":
    unittest.main()
