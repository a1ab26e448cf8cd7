"""`fifo` against cases worked by hand."""
from __future__ import annotations

import unittest

from sim.baselines.fifo import Fifo
from sim.frames import Exchange, Frame
from sim.scenario import Flow, Scenario

from .support import frame, scenario

BUFFER, QUEUE = 123, 1000

TWO_STATIONS = """
seconds = 1
[[station]]
name = "a"
rate = "7 20 long"
[[station]]
name = "b"
rate = "0 20 long"
[[flow]]
station = "a"
mbit = 10
size = 1500
[[flow]]
station = "b"
mbit = 10
size = 1500
"""


class Queue(unittest.TestCase):
    def setUp(self) -> None:
        self.scenario = scenario(TWO_STATIONS)
        self.a, self.b = self.scenario.flows
        self.path = self.start(self.scenario)

    def start(self, chosen: Scenario) -> Fifo:
        path = Fifo(chosen)
        for station in chosen.stations:
            path.join(station)
            path.set_rate(station, station.rate)
        return path

    def put(self, *flows: Flow) -> list[Frame]:
        frames = [frame(flow) for flow in flows]
        for one in frames:
            self.path.enqueue(one)
        return frames

    def ended(self) -> list[tuple[Frame, str | None]]:
        return [(one, one.fate) for one in self.path.take_ended()]

    def pull(self) -> Exchange:
        exchange = self.path.pull("be")
        assert exchange
        for one in exchange.frames:
            one.sent += 1
        return exchange

    def test_stations_in_turn_with_what_the_buffer_holds(self) -> None:
        self.put(self.a, self.a, self.b, self.a)
        first, second = self.pull(), self.pull()
        self.assertEqual([(one.station, len(one.frames)) for one in (first, second)], [(0, 3), (1, 1)])
        self.assertIsNone(self.path.pull("be"))
        self.assertIsNone(self.path.pull("vo"))
        # 2*1536 + 1534 octets are 4606: 142 symbols of 260 bits, so 36 + 568 and 48.
        self.assertEqual([first.air, second.air], [652, 1976])

    def test_a_slow_frame_takes_the_place_of_a_fast_one_in_the_buffer(self) -> None:
        self.put(*[self.b] * BUFFER, self.a)
        exchange = self.pull()
        self.assertEqual((exchange.station, len(exchange.frames)), (1, 2))  # two of 1500 octets fit in 4 ms at 6.5 Mbit/s
        self.assertIsNone(self.path.buffers.get((0, 0)))
        self.path.finish(exchange, [True, True], True)  # two places are free again, and the fast frame comes into the buffer
        self.assertEqual(len(self.path.buffers[0, 0]), 1)

    def test_the_tail_is_dropped(self) -> None:
        frames = self.put(*[self.b] * (BUFFER + QUEUE), self.a)
        self.assertEqual(self.ended(), [(frames[-1], "overlimit")])

    def test_the_queue_and_the_buffer_have_the_sizes_that_a_scenario_gives(self) -> None:
        chosen = scenario(TWO_STATIONS + "[models]\nqueue = 5\nbuffer = 3\n")
        self.path = self.start(chosen)
        frames = self.put(*[self.b] * 9)
        self.assertEqual(self.ended(), [(frames[-1], "overlimit")])
        self.assertEqual(len(self.path.buffers[1, 0]), 3)

    def test_what_is_lost_is_sent_again_first_and_released_in_order(self) -> None:
        frames = self.put(self.a, self.a, self.a)
        self.assertEqual(self.path.finish(self.pull(), [True, False, True], True), frames[:1])
        self.assertEqual(self.ended(), [(frames[0], "acked"), (frames[2], "acked")])
        self.put(self.a)
        again = self.pull()
        self.assertEqual([one.number for one in again.frames], [1, 3])
        self.assertEqual(self.path.finish(again, [True, True], True), [frames[1], frames[2], again.frames[1]])

    def test_a_lost_block_ack(self) -> None:
        frames = self.put(self.a, self.a)
        self.assertEqual(self.path.finish(self.pull(), [True, True], False), frames)
        self.assertEqual(self.ended(), [])
        self.assertEqual(self.path.finish(self.pull(), [True, True], True), [])  # both came a second time
        self.assertEqual([fate for _, fate in self.ended()], ["acked", "acked"])

    def test_attempts_end_and_the_receiver_goes_on(self) -> None:
        self.scenario = scenario(TWO_STATIONS + "[machine]\nattempts = 2\n")
        self.path = self.start(self.scenario)
        frames = self.put(self.a, self.a)
        self.assertEqual(self.path.finish(self.pull(), [False, True], True), [])
        self.assertEqual(self.path.finish(self.pull(), [False], False), [frames[1]])
        self.assertEqual(self.ended(), [(frames[1], "acked"), (frames[0], "retries")])

    def test_the_window_stops_fresh_frames(self) -> None:
        self.scenario.stations[0].window = 2
        self.put(self.a, self.a, self.a)
        exchange = self.pull()
        self.assertEqual([one.number for one in exchange.frames], [0, 1])
        self.path.finish(exchange, [False, True], True)
        again = self.pull()
        self.assertEqual([one.number for one in again.frames], [0])
        self.path.finish(again, [True], True)
        self.assertEqual([one.number for one in self.pull().frames], [2])

    def test_a_station_that_leaves(self) -> None:
        frames = self.put(*[self.b] * BUFFER, self.b, self.a)
        exchange = self.pull()
        self.path.finish(exchange, [False, True], True)
        self.path.take_ended()
        self.path.leave(self.scenario.stations[1])
        self.assertEqual({fate for _, fate in self.ended()}, {"left"})
        self.assertEqual(self.pull().frames, [frames[-1]])


if __name__ == "__main__":
    unittest.main()
