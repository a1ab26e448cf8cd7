"""`fq_codel` and its flow queues against cases worked by hand from RFC 8290."""
from __future__ import annotations

import unittest

from sim.baselines.codel import Dropped
from sim.baselines.flow_queues import FlowQueues, Longest
from sim.baselines.fq_codel import FqCodel
from sim.baselines.fq_mac import FqMac

from .support import frame, scenario

THREE_FLOWS = """
seconds = 1
[[station]]
name = "a"
rate = "7 20 long"
[[flow]]
name = "heavy"
station = "a"
mbit = 10
size = 1500
[[flow]]
name = "other"
station = "a"
mbit = 10
size = 1500
[[flow]]
name = "sparse"
station = "a"
size = 100
mbit = 1
"""


class Rounds(unittest.TestCase):
    def setUp(self) -> None:
        self.scenario = scenario(THREE_FLOWS)
        self.heavy, self.other, self.sparse = self.scenario.flows
        self.queues = FlowQueues(1514, 5_000, 100_000)

    def order(self, now: int = 0) -> str:
        """The names of the flows in the order in which their frames come out."""
        dropped: Dropped = []
        names = []
        while (one := self.queues.pop(now, dropped)) is not None:
            names.append(one.flow.name[0])
        self.assertEqual(dropped, [])
        return "".join(names)

    def test_heavy_flows_in_turn(self) -> None:
        # Each has a deficit of 1514 and 14 left after its first frame, so the second goes too; then it is 1486 short.
        for flow in [self.heavy] * 4 + [self.other] * 4:
            self.queues.push(frame(flow))
        self.assertEqual(self.order(), "hhoohoho")

    def test_a_sparse_flow_goes_first(self) -> None:
        for flow in [self.heavy] * 4:
            self.queues.push(frame(flow))
        dropped: Dropped = []
        for _ in range(2):
            self.queues.pop(0, dropped)
        self.queues.push(frame(self.sparse))  # the heavy flow is still on the new list, with no deficit
        self.assertEqual(self.order(), "shh")

    def test_a_flow_that_ran_empty_is_old_before_it_is_gone(self) -> None:
        self.queues.push(frame(self.sparse))
        self.assertEqual(self.order(), "s")
        self.assertFalse(self.queues.new or self.queues.old)
        self.assertEqual(self.queues.count, 0)

    def test_half_of_the_longest_queue_is_dropped(self) -> None:
        path = FqCodel(self.scenario)
        path.buffered["be"] = 123  # the driver takes nothing
        path.join(self.scenario.stations[0])
        for _ in range(10_239):
            path.enqueue(frame(self.heavy))
        path.enqueue(frame(self.sparse))
        self.assertEqual(path.take_ended(), [])
        path.enqueue(frame(self.sparse))
        ended = path.take_ended()
        self.assertEqual({(one.flow.name, one.fate) for one in ended}, {("heavy", "overlimit")})
        self.assertEqual(len(ended), 64)


class InTheDriver(unittest.TestCase):
    def test_one_frame_of_the_longest_queue_is_dropped(self) -> None:
        chosen = scenario(THREE_FLOWS + "[machine]\nlimit = 3\n")
        path = FqMac(chosen)
        path.join(chosen.stations[0])
        path.set_rate(chosen.stations[0], chosen.stations[0].rate)
        heavy = [frame(chosen.flows[0]) for _ in range(3)]
        for one in [*heavy, frame(chosen.flows[2])]:
            path.enqueue(one)
        self.assertEqual([(one, one.fate) for one in path.take_ended()], [(heavy[0], "overlimit")])
        exchange = path.pull("be")
        assert exchange
        self.assertEqual([one.flow.name for one in exchange.frames], ["heavy", "sparse", "heavy"])
        self.assertEqual(path.count, 0)


class TheLongest(unittest.TestCase):
    def test_it_is_found_while_queues_grow_and_shrink(self) -> None:
        flows = scenario(THREE_FLOWS).flows
        queues, longest = FlowQueues(1514, 5_000, 100_000), Longest()
        dropped: Dropped = []
        for nth in range(200):
            longest.note(queues.push(frame(flows[nth * nth % 3])), queues)
            if nth % 3:
                queues.pop(0, dropped)
            if nth % 7 == 6:
                longest.tidy([queues], 5)
            found, _ = longest.find()
            self.assertEqual(found.octets, queues.longest().octets)


if __name__ == "__main__":
    unittest.main()
