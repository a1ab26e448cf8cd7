"""CoDel, as in RFC 8289 section 5: the pseudocode of its dequeue, over a queue of frames."""
from __future__ import annotations

from collections import deque
from dataclasses import dataclass, field

from ..frames import Frame

MAXPACKET = 1514  # octets of the largest packet: Ethernet's
Dropped = list[tuple[Frame, str]]  # frames that a queue dropped, with the cause


@dataclass(eq=False)
class FrameQueue:
    """Frames in order, and their octets."""

    frames: deque[Frame] = field(default_factory=deque)
    octets: int = 0

    def push(self, frame: Frame) -> None:
        self.frames.append(frame)
        self.octets += frame.octets

    def pop(self) -> Frame:
        frame = self.frames.popleft()
        self.octets -= frame.octets
        return frame


@dataclass
class CoDel:
    """The state of one queue. Times are microseconds."""

    first_above: float = 0
    drop_next: float = 0
    count: int = 0
    last_count: int = 0
    dropping: bool = False

    def look(self, queue: FrameQueue, now: int, target: int, interval: int) -> tuple[Frame | None, bool]:
        """Pops a frame, and says whether it may be dropped: the queue was above the target for an interval."""
        if not queue.frames:
            self.first_above = 0
            return None, False
        frame = queue.pop()
        if now - frame.came < target or queue.octets <= MAXPACKET:
            self.first_above = 0
        elif self.first_above == 0:
            self.first_above = now + interval
        else:
            return frame, now >= self.first_above
        return frame, False

    def control_law(self, time: float, interval: int) -> float:
        return float(time + interval / self.count**0.5)

    def dequeue(self, queue: FrameQueue, now: int, target: int, interval: int, dropped: Dropped) -> Frame | None:
        """The next frame of a queue, or None. Frames that are dropped before it are added to a list."""
        frame, may_drop = self.look(queue, now, target, interval)
        if frame is None:
            self.dropping = False
        elif self.dropping:
            self.dropping = may_drop
            while self.dropping and frame is not None and now >= self.drop_next:
                dropped.append((frame, "codel"))
                self.count += 1
                frame, self.dropping = self.look(queue, now, target, interval)
                if self.dropping:
                    self.drop_next = self.control_law(self.drop_next, interval)
        elif may_drop:
            dropped.append((frame, "codel"))
            frame, _ = self.look(queue, now, target, interval)
            self.begin(now, interval)
        return frame

    def begin(self, now: int, interval: int) -> None:
        """Begins to drop."""
        self.dropping = True
        newer = self.count - self.last_count
        self.count = newer if newer > 1 and now - self.drop_next < 16 * interval else 1
        self.drop_next = self.control_law(now, interval)
        self.last_count = self.count
