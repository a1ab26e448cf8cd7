"""Offloaded stations: what their device sends, repeats and reports, and the machine below it."""
from __future__ import annotations

import io
import itertools
import unittest

from sim.device import Device
from sim.fields import Fault
from sim.frames import Exchange, Frame
from sim.medium import AccessPoint
from sim.rates import parse_rate

from .support import ONE_STATION, fates, frame, machine, run, scenario

OFFLOADED = ONE_STATION.replace("loss = 0\n", "loss = 0.2\nack_loss = 0.05\noffload = true\n")
SLEEPING = OFFLOADED.replace("offload = true", "offload = true\nsleeps = [{ from = 0.2, to = 0.8 }]\npoll_ms = 50")
LEAVING = OFFLOADED.replace("offload = true", "offload = true\nleave = 0.5").replace("mbit = 10", "backlog = 300")
FLOW = scenario(ONE_STATION).flows[0]


def batch(number: int, count: int) -> Exchange:
    """A batch of frames."""
    return Exchange(number, 0, 0, 100, [frame(FLOW) for _ in range(count)], is_batch=True)


def note_released(frames: list[Frame]) -> list[Frame]:
    """Marks frames as passed up, as the receivers do."""
    for one in frames:
        one.released = 1
    return frames


class TheDevice(unittest.TestCase):
    def setUp(self) -> None:
        self.device = Device(3)
        self.batch = batch(0, 3)
        self.device.add(self.batch)

    def sent(self, *arrived: bool, heard: bool = True) -> tuple[list[int], list[int]]:
        """The indices that a transmission acknowledges, and those of the frames that the receiver passes up."""
        acked, released = self.device.sent(self.batch, arrived, heard, 100)
        return acked, [self.batch.frames.index(one) for one in note_released(released)]

    def test_it_repeats_what_was_not_acknowledged(self) -> None:
        self.assertEqual(self.sent(False, True, False), ([1], []))
        self.assertEqual(len(self.device.left(self.batch)), 2)
        self.assertEqual(self.sent(True, True), ([0, 2], [0, 1, 2]))
        self.assertEqual(self.device.end(self.batch), 200)

    def test_it_repeats_all_if_the_block_ack_was_not_heard(self) -> None:
        self.assertEqual(self.sent(True, True, False, heard=False), ([], [0, 1]))
        self.assertEqual(self.sent(True, True, True), ([0, 1, 2], [2]))

    def test_it_gives_up_after_the_last_attempt(self) -> None:
        self.assertEqual(self.sent(False, True, True), ([1, 2], []))
        self.assertEqual(self.sent(False), ([], []))
        self.assertEqual(self.sent(False), ([], [1, 2]))
        self.assertEqual(self.device.left(self.batch), [])

    def test_the_time_of_a_repeat_is_that_of_its_frames(self) -> None:
        rate = parse_rate("7 20 long")
        assert rate is not None
        self.sent(True, True, False)
        self.assertTrue(self.device.repeats(self.batch, rate))
        self.assertEqual(self.batch.air, rate.data_time(self.batch.frames[2].octets + 34) + 16 + 40)
        self.sent(True)
        self.assertFalse(self.device.repeats(self.batch, rate))

    def test_a_batch_that_waits_is_untried(self) -> None:
        self.assertEqual(self.device.untried(0), [self.batch])
        self.sent(False, False, False)
        self.assertEqual(self.device.untried(0), [])

    def test_the_access_point_gives_back_what_waits(self) -> None:
        point = AccessPoint()
        point.add(self.batch)
        self.assertTrue(point.remove(self.batch))
        self.assertFalse(point.remove(self.batch))
        self.assertEqual(point.count, 0)


class OverTheMachine(unittest.TestCase):
    def test_frames_are_released_in_order_and_once(self) -> None:
        chosen = scenario(OFFLOADED)
        bench, result = run(chosen, machine(chosen))
        times = [one.released for one in bench.frames[0] if one.released is not None]
        self.assertEqual(times, sorted(times))
        self.assertGreater(len(times), 0.95 * result.flows[0].offered)
        self.assertGreater(bench.served[0].retries, 0)

    def test_the_airtime_of_repeats_is_charged(self) -> None:
        chosen = scenario(OFFLOADED)
        _, result = run(chosen, machine(chosen))
        charged = [int(line.split()[4]) for line in result.summary if " be charged " in line]
        self.assertEqual(result.stations[0].airtime - result.stations[0].uplink, charged[0])

    def test_results_are_partial_and_frames_come_back(self) -> None:
        copy = io.StringIO()
        chosen = scenario(SLEEPING.replace("mbit = 10", "backlog = 300"))
        run(chosen, machine(chosen, copy))
        lines = copy.getvalue().splitlines()
        self.assertIn("offload 0 3 1", lines)
        self.assertTrue(any(line.startswith("unsent ") for line in lines))
        reports = [line.split()[1] if line.startswith("arrive ") else "" for line in lines if not line.startswith("reap")]
        times = [exchange for exchange, _ in itertools.groupby(reports) if exchange]
        self.assertGreater(len(times), len(set(times)))  # the clock moves between two reports on one batch

    def test_a_station_leaves_when_its_device_has_reported(self) -> None:
        chosen = scenario(LEAVING)
        bench, result = run(chosen, machine(chosen))
        self.assertGreater(result.flows[0].dropped["left"], 0)
        self.assertEqual(bench.device.batches, {})

    def test_the_same_run_for_the_same_seed(self) -> None:
        for text in (OFFLOADED, SLEEPING, LEAVING):
            first, again = (run(chosen, machine(chosen))[0] for chosen in (scenario(text), scenario(text)))
            self.assertEqual(fates(first), fates(again))


class Read(unittest.TestCase):
    def test_a_window_is_refused(self) -> None:
        with self.assertRaisesRegex(Fault, "window = 64: expected no window, since the device"):
            scenario(OFFLOADED.replace("offload = true", "offload = true\nwindow = 64"))


if __name__ == "__main__":
    unittest.main()
