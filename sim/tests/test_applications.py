"""Pings, calls, transfers of TCP, pages, and flows from stations."""
from __future__ import annotations

import math
import unittest

from sim.baselines.fifo import Fifo
from sim.bench import Bench
from sim.measure import Result
from sim.table import text
from sim.traffic import HEADERS, Tcp
from sim.voice import mos, rating, score

from .support import ONE_STATION, run, scenario

BARE = ONE_STATION.replace("size = 1500\n", "")


def over_fifo(line: str, models: str = "", seconds: float = 1) -> tuple[Bench, Result]:
    """A run of one station with one flow of this kind."""
    chosen = scenario(BARE.replace("mbit = 10", line).replace("seconds = 1", f"seconds = {seconds}") + models)
    return run(chosen, Fifo(chosen))


class Pings(unittest.TestCase):
    def test_a_ping_is_answered(self) -> None:
        bench, result = over_fifo("ping_ms = 100")
        ping = result.flows[0]
        self.assertEqual([frame.octets for frame in bench.frames[0]], [92] * 11)  # the last one at the end
        self.assertEqual((len(ping.delays), ping.flow.echo), (10, True))
        self.assertGreater(result.stations[0].uplink, 0)


class Calls(unittest.TestCase):
    def test_scores_worked_by_hand(self) -> None:
        for value, expected in ((93.2, 4.41), (90, 4.34), (80, 4.02), (70, 3.60), (60, 3.10), (50, 2.58)):
            self.assertAlmostEqual(mos(value), expected, delta=0.006)
        self.assertEqual([mos(-1), mos(0), mos(100), mos(120)], [1, 1, 4.5, 4.5])

    def test_delay_and_loss_impair(self) -> None:
        self.assertEqual(rating(0, 0), 93.2)
        self.assertAlmostEqual(rating(200, 0), 93.2 - 0.024 * 200 - 0.11 * 22.7)
        self.assertAlmostEqual(rating(0, 0.251), 93.2 - 95 / 2)

    def test_the_best_playout_delay(self) -> None:
        self.assertAlmostEqual(score([10_000] * 100, 0, 5_000), mos(rating(35, 0)))
        # To wait a second for one packet of a hundred is worse than to lose it.
        self.assertAlmostEqual(score([*[10_000] * 99, 1_000_000], 0, 0), mos(rating(30, 0.01)))
        self.assertAlmostEqual(score([10_000] * 50, 50, 0), mos(rating(30, 0.5)))
        self.assertEqual(score([], 5, 0), 1)

    def test_a_call(self) -> None:
        bench, result = over_fifo("voip = true")
        self.assertEqual([(frame.came, frame.octets) for frame in bench.frames[0][:2]], [(0, 208), (20_000, 208)])
        self.assertAlmostEqual(result.flows[0].mos, mos(rating(20.6, 0)), delta=0.01)
        self.assertIn("call        MOS\nvoip to a  4.", text(bench.scenario, [result], ""))
        self.assertTrue(math.isnan(over_fifo("mbit = 1", seconds=0.01)[1].flows[0].mos))


class Transfers(unittest.TestCase):
    def test_a_transfer_ends(self) -> None:
        bench, result = over_fifo('tcp = "cubic"\noctets = 100000')
        data = [frame.octets - HEADERS for frame in bench.frames[0]]
        self.assertEqual((sum(data), len(data), data[-1]), (100_000, 70, 100_000 - 69 * 1440))
        self.assertEqual(len(result.flows[0].loads), 1)
        self.assertGreater(result.flows[0].loads[0], 40_000)  # ten frames, then twenty, then forty, with 20 ms between two
        self.assertIn("tcp to a  ", text(bench.scenario, [result], "").split("transfer")[1])

    def test_lost_data_is_sent_again(self) -> None:
        bench, result = over_fifo('tcp = "reno"\noctets = 300000', "[models]\nqueue = 5\nbuffer = 5\n")
        released = [frame for frame in bench.frames[0] if frame.released is not None]
        self.assertGreater(result.flows[0].dropped["overlimit"], 0)
        self.assertEqual(sum(frame.octets - HEADERS for frame in released), 300_000)
        self.assertEqual(len(result.flows[0].loads), 1)

    def test_data_that_arrives_twice_counts_once(self) -> None:
        source = Tcp(scenario(BARE.replace("mbit = 10", 'tcp = "reno"\noctets = 1440')).flows[0], 1)
        first = source.frame(0)
        self.assertFalse(source.may_send())
        source.check(2_000_000)
        again = source.frame(2_000_000)
        for frame in (first, again):
            source.received(frame, 2_100_000)
        self.assertEqual(source.delivered, 1440)


class Upward(unittest.TestCase):
    def test_a_flood_from_a_station(self) -> None:
        bench, result = over_fifo('flood_mbit = 100\ndirection = "up"', seconds=0.3)
        flow = result.flows[0]
        self.assertEqual((flow.flow.label, result.stations[0].mbit), ("flood_mbit from a", 0))
        self.assertGreater(result.stations[0].mbit_up, 40)
        self.assertGreater(flow.dropped["overlimit"], 0)
        self.assertGreater(len(flow.delays), 500)
        self.assertIn("Mbit/s up", text(bench.scenario, [result], ""))

    def test_tcp_from_a_station(self) -> None:
        bench, result = over_fifo('tcp = "cubic"\ndirection = "up"')
        self.assertGreater(result.stations[0].mbit_up, 10)
        self.assertGreater(bench.served[0].airtime, 5000)  # of the acknowledgements
        self.assertEqual(result.flows[0].offered, len(bench.frames[0]))


class Pages(unittest.TestCase):
    def test_a_small_page(self) -> None:
        bench, result = over_fifo('web = "small"\npause_ms = 100')
        first, second = result.flows  # the second and the third request have a connection each
        self.assertEqual((first.flow.label, second.flow.label), ("web to a", "web to a, connection 2"))
        self.assertEqual(second.loads, [])
        self.assertGreaterEqual(len(first.loads), 4)
        # Two connections are opened one after the other, and each asks for something: 20 ms each time.
        self.assertTrue(all(80_000 < took < 200_000 for took in first.loads))
        octets = sum(frame.octets - HEADERS for frames in bench.frames for frame in frames if frame.came < first.loads[0] + 50_000)
        self.assertEqual(octets, 56_000 + 2)

    def test_a_page_of_ones_own(self) -> None:
        _, result = over_fifo('web = [5000, 1]\ndelay_ms = 0\npause_ms = 0', seconds=0.2)
        self.assertEqual(len(result.flows), 1)
        self.assertGreater(len(result.flows[0].loads), 10)


if __name__ == "__main__":
    unittest.main()
