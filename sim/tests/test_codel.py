"""CoDel against a case worked by hand from RFC 8289's pseudocode: target 5 ms, interval 100 ms."""
from __future__ import annotations

import unittest

from sim.baselines.codel import CoDel, Dropped
from sim.baselines.flow_queues import FlowQueue

from .support import ONE_STATION, frame, scenario

FLOW = scenario(ONE_STATION).flows[0]
TARGET, INTERVAL = 5_000, 100_000


class Drops(unittest.TestCase):
    def setUp(self) -> None:
        self.queue = FlowQueue()
        self.codel = CoDel()
        for _ in range(20):  # all came at 0, so at a time t each has waited for t
            self.queue.push(frame(FLOW))

    def dequeue(self, now: int) -> int:
        """Dequeues, and returns the number of frames that were dropped before the one that came out."""
        dropped: Dropped = []
        self.assertIsNotNone(self.codel.dequeue(self.queue, now, TARGET, INTERVAL, dropped))
        self.assertTrue(all(cause == "codel" for _, cause in dropped))
        return len(dropped)

    def test_below_the_target_nothing_is_dropped(self) -> None:
        self.assertEqual([self.dequeue(4_999) for _ in range(5)], [0] * 5)
        self.assertEqual(self.codel.first_above, 0)

    def test_a_standing_queue(self) -> None:
        self.assertEqual(self.dequeue(10_000), 0)  # above the target: dropping may begin at 110,000
        self.assertEqual(self.codel.first_above, 110_000)
        self.assertEqual(self.dequeue(109_999), 0)
        self.assertEqual(self.dequeue(110_000), 1)  # the first drop; the next at 110,000 + 100,000/sqrt(1)
        self.assertEqual((self.codel.count, self.codel.drop_next), (1, 210_000))
        self.assertEqual(self.dequeue(209_999), 0)
        self.assertEqual(self.dequeue(210_000), 1)  # count 2; the next 100,000/sqrt(2) = 70,710.7 later
        self.assertEqual(self.codel.count, 2)
        self.assertAlmostEqual(self.codel.drop_next, 280_710.7, delta=0.1)
        # At 345,000 two are due: at 280,710.7, and 100,000/sqrt(3) = 57,735.0 later at 338,445.7.
        self.assertEqual(self.dequeue(345_000), 2)
        self.assertEqual(self.codel.count, 4)
        self.assertAlmostEqual(self.codel.drop_next, 388_445.7, delta=0.1)

    def test_dropping_ends_below_the_target_and_begins_again_at_its_count(self) -> None:
        for now in (10_000, 110_000, 210_000, 281_000):
            self.dequeue(now)
        self.assertEqual(self.codel.count, 3)
        for one in self.queue.frames:
            one.came = 290_000
        self.assertEqual(self.dequeue(291_000), 0)
        self.assertFalse(self.codel.dropping)
        self.assertEqual(self.dequeue(300_000), 0)
        self.assertEqual(self.dequeue(400_000), 1)  # within 16 intervals: count is 3 less the 1 of the last time
        self.assertEqual(self.codel.count, 2)

    def test_a_last_packet_is_never_dropped(self) -> None:
        while len(self.queue.frames) > 1:
            self.queue.pop()
        self.assertEqual(self.dequeue(1_000_000), 0)
        self.assertFalse(self.queue.frames)


if __name__ == "__main__":
    unittest.main()
