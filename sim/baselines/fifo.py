"""`fifo`: one queue above a driver's buffer, the baseline of "Ending the Anomaly", sections 2 and 4.

Each class has a queue, and a packet that finds it full is dropped. The queue fills a buffer that all stations share, and from that the
driver sends to stations in turn. The standard sizes are 1,000 packets, and 123 frames of a class, those on the air included: as many as
ath9k's (a quarter of its 512, less five).
"""
from __future__ import annotations

from collections import deque
from collections.abc import Sequence

from ..frames import CLASS_OF_TID, CLASSES, Exchange, Frame
from ..scenario import Flow, Scenario, Station
from .driver import Driver, Session

SPARE = 10  # places that flows with a backlog leave to other flows


class Buffered(Driver):
    """A driver with a buffer for each class, which a queue above it fills."""

    def __init__(self, scenario: Scenario) -> None:
        super().__init__(scenario)
        self.buffer = scenario.model("buffer")
        self.buffers: dict[tuple[int, int], deque[Frame]] = {}  # by station and TID: frames without a number
        self.buffered = dict.fromkeys(CLASSES, 0)  # the driver's frames of a class, those on the air too

    def from_queue(self, frame_class: str) -> Frame | None:
        """The next packet of the queue above, or None."""
        raise TypeError(f"{type(self).__name__} has no queue")

    def fill(self, frame_class: str) -> None:
        """Moves packets from the queue to the driver's buffer while that has room."""
        while self.buffered[frame_class] < self.buffer:
            frame = self.from_queue(frame_class)
            if frame is None:
                break
            if (frame.station, frame.tid) in self.sessions:
                self.buffers.setdefault((frame.station, frame.tid), deque()).append(frame)
                self.buffered[frame_class] += 1
            else:
                self.end(frame, "left")

    def has_fresh(self, session: Session) -> bool:
        return bool(self.buffers.get((session.station.number, session.tid)))

    def take(self, session: Session) -> Frame | None:
        return self.buffers[session.station.number, session.tid].popleft()

    def settle(self, session: Session, frame: Frame, fate: str) -> None:
        super().settle(session, frame, fate)
        self.buffered[CLASS_OF_TID[session.tid]] -= 1

    def finish(self, exchange: Exchange, arrived: Sequence[bool], heard: bool) -> list[Frame]:
        released = super().finish(exchange, arrived, heard)
        self.fill(CLASS_OF_TID[exchange.tid])
        return released

    def leave(self, station: Station) -> None:
        super().leave(station)
        for frame_class in CLASSES:
            self.fill(frame_class)

    def drop_fresh(self, session: Session) -> None:
        frames = self.buffers.pop((session.station.number, session.tid), deque())
        for frame in frames:
            self.end(frame, "left")
        self.buffered[CLASS_OF_TID[session.tid]] -= len(frames) + len(session.retries)


class Fifo(Buffered):
    """One queue for each class."""

    def __init__(self, scenario: Scenario) -> None:
        super().__init__(scenario)
        self.limit = scenario.model("queue")
        self.queues: dict[str, deque[Frame]] = {frame_class: deque() for frame_class in CLASSES}

    def has_room(self, flow: Flow) -> bool:
        return len(self.queues[CLASS_OF_TID[flow.tid]]) < self.limit - SPARE

    def enqueue(self, frame: Frame) -> None:
        frame_class = CLASS_OF_TID[frame.tid]
        if len(self.queues[frame_class]) < self.limit:
            self.queues[frame_class].append(frame)
            self.fill(frame_class)
        else:
            self.end(frame, "overlimit")

    def from_queue(self, frame_class: str) -> Frame | None:
        queue = self.queues[frame_class]
        return queue.popleft() if queue else None
