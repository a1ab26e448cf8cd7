"""`fq_codel`: RFC 8290 above the buffer of `fifo`: flow queues with CoDel instead of the one queue, and the same driver below.

The parameters have the values of RFC 8290 section 5.2: interval 100 ms, target 5 ms, at most 10,240 packets, quantum 1,514 octets. When a
packet exceeds the limit, half of the longest queue is dropped from its head, 64 packets at most (section 4.1).
"""
from __future__ import annotations

from ..frames import CLASS_OF_TID, CLASSES, Frame
from ..scenario import Flow, Scenario
from .codel import Dropped
from .fifo import SPARE, Buffered
from .flow_queues import FlowQueues

TARGET = 5_000
INTERVAL = 100_000
QUANTUM = 1514
BATCH = 64


class FqCodel(Buffered):
    """Flow queues for each class."""

    def __init__(self, scenario: Scenario) -> None:
        super().__init__(scenario)
        self.limit = scenario.model("fq_limit")
        self.queues = {frame_class: FlowQueues(QUANTUM, TARGET, INTERVAL) for frame_class in CLASSES}

    def has_room(self, flow: Flow) -> bool:
        return self.queues[CLASS_OF_TID[flow.tid]].count < self.limit - SPARE

    def enqueue(self, frame: Frame) -> None:
        frame_class = CLASS_OF_TID[frame.tid]
        queues = self.queues[frame_class]
        queues.push(frame)
        if queues.count > self.limit:
            dropped: Dropped = []
            longest = queues.longest()
            for _ in range(min((len(longest.frames) + 1) // 2, BATCH)):
                queues.drop_head(longest, dropped)
            self.end_all(dropped)
        self.fill(frame_class)

    def from_queue(self, frame_class: str) -> Frame | None:
        dropped: Dropped = []
        frame = self.queues[frame_class].pop(self.now, dropped)
        self.end_all(dropped)
        return frame
