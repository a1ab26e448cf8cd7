"""`fq_mac`: the flow queues of each TID inside the driver, without the airtime scheduler: stations in turn.

"Ending the Anomaly", section 3.1 and algorithms 1 and 2: the queues of all TIDs share one limit, and a frame that exceeds it drops the
head of the longest queue; CoDel's target and interval are 20 and 100 ms, and 50 and 300 ms for a slow station, as in the machine. The
settings `limit` and `flow_quantum` are the machine's.
"""
from __future__ import annotations

from ..frames import CLASS_OF_TID, Frame
from ..rates import SLOW_KBIT, Rate
from ..scenario import Flow, Scenario, Station
from .codel import Dropped
from .driver import Driver, Session
from .flow_queues import FlowQueues, Longest

FAST_CODEL = (20_000, 100_000)
SLOW_CODEL = (50_000, 300_000)
MOST_NOTES = 10_000  # entries that the search for the longest queue keeps


class FqMac(Driver):
    """Flow queues for each TID of each station."""

    def __init__(self, scenario: Scenario) -> None:
        super().__init__(scenario)
        self.limit = scenario.setting("limit")
        self.queues: dict[tuple[int, int], FlowQueues] = {}  # by station and TID
        self.count = 0  # frames in all of them
        self.longest = Longest()

    def join(self, station: Station) -> None:
        super().join(station)
        for tid in range(len(CLASS_OF_TID)):
            self.queues[station.number, tid] = FlowQueues(self.scenario.setting("flow_quantum"), *FAST_CODEL)

    def set_rate(self, station: Station, rate: Rate) -> None:
        super().set_rate(station, rate)
        for tid in range(len(CLASS_OF_TID)):
            queues = self.queues[station.number, tid]
            queues.target, queues.interval = SLOW_CODEL if rate.kbit < SLOW_KBIT else FAST_CODEL

    def has_room(self, flow: Flow) -> bool:
        return self.count < self.limit

    def enqueue(self, frame: Frame) -> None:
        if self.count >= self.limit:
            self.drop_longest()
        queues = self.queues[frame.station, frame.tid]
        self.longest.note(queues.push(frame), queues)
        self.count += 1

    def drop_longest(self) -> None:
        """Drops the head of the longest of all queues."""
        dropped: Dropped = []
        flow, queues = self.longest.find()
        queues.drop_head(flow, dropped)
        self.count -= 1
        self.end_all(dropped)
        self.longest.tidy(self.queues.values(), MOST_NOTES)

    def has_fresh(self, session: Session) -> bool:
        return self.queues[session.station.number, session.tid].count > 0

    def take(self, session: Session) -> Frame | None:
        queues = self.queues[session.station.number, session.tid]
        before = queues.count
        dropped: Dropped = []
        frame = queues.pop(self.now, dropped)
        self.count -= before - queues.count
        self.end_all(dropped)
        return frame

    def drop_fresh(self, session: Session) -> None:
        frames = self.queues.pop((session.station.number, session.tid)).drain()
        self.count -= len(frames)
        for frame in frames:
            self.end(frame, "left")
