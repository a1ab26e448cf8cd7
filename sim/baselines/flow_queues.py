"""Flow queues by RFC 8290 sections 4.1 and 4.2: deficit round robin over new and old queues, each with CoDel."""
from __future__ import annotations

import heapq
from collections import deque
from collections.abc import Iterable
from dataclasses import dataclass, field

from ..frames import Frame
from .codel import CoDel, Dropped, FrameQueue


@dataclass(eq=False)
class FlowQueue(FrameQueue):
    """The frames of one flow."""

    deficit: int = 0
    listed: bool = False
    noted: int = 0  # its octets as `Longest` has them: at least as many as there are
    codel: CoDel = field(default_factory=CoDel)


@dataclass(eq=False)
class FlowQueues:
    """The queues of several flows. Each flow has its own: no two share one by their hash. Times are microseconds."""

    quantum: int
    target: int
    interval: int
    flows: dict[int, FlowQueue] = field(default_factory=dict)
    new: deque[FlowQueue] = field(default_factory=deque)
    old: deque[FlowQueue] = field(default_factory=deque)
    count: int = 0  # frames in all queues

    def push(self, frame: Frame) -> FlowQueue:
        """Takes a frame. Returns its queue."""
        flow = self.flows.get(frame.flow.number)
        if flow is None:
            flow = self.flows[frame.flow.number] = FlowQueue()
        flow.push(frame)
        self.count += 1
        if not flow.listed:
            flow.listed = True
            flow.deficit = self.quantum
            self.new.append(flow)
        return flow

    def longest(self) -> FlowQueue:
        """The queue with the most octets. There is one."""
        return max(self.flows.values(), key=lambda flow: flow.octets)

    def drop_head(self, flow: FlowQueue, dropped: Dropped) -> None:
        """Drops the head of a queue because the queues are full."""
        dropped.append((flow.pop(), "overlimit"))
        self.count -= 1

    def pop(self, now: int, dropped: Dropped) -> Frame | None:
        """The next frame, or None. Frames that CoDel drops before it are added to a list."""
        while self.new or self.old:
            queue = self.new or self.old
            flow = queue[0]
            if flow.deficit <= 0:
                flow.deficit += self.quantum
                self.old.append(queue.popleft())
                continue
            before = len(dropped)
            frame = flow.codel.dequeue(flow, now, self.target, self.interval, dropped)
            self.count -= len(dropped) - before
            if frame is not None:
                self.count -= 1
                flow.deficit -= frame.octets
                return frame
            if queue is self.new:
                self.old.append(queue.popleft())
            else:
                queue.popleft().listed = False
        return None

    def drain(self) -> list[Frame]:
        """All frames, which are taken out."""
        frames = [frame for flow in self.flows.values() for frame in flow.frames]
        self.flows.clear()
        self.new.clear()
        self.old.clear()
        self.count = 0
        return frames


class Longest:
    """Finds the longest of many queues: a heap of queues by octets, whose entries are corrected when they reach its top."""

    def __init__(self) -> None:
        self.heap: list[tuple[int, int, FlowQueue, FlowQueues]] = []
        self.order = 0

    def note(self, flow: FlowQueue, queues: FlowQueues) -> None:
        """Notes that a queue has grown."""
        if flow.octets > flow.noted:
            flow.noted = flow.octets
            self.order += 1
            heapq.heappush(self.heap, (-flow.octets, self.order, flow, queues))

    def find(self) -> tuple[FlowQueue, FlowQueues]:
        """The queue with the most octets, and the queues that it belongs to. Some queue has frames."""
        while True:
            noted, order, flow, queues = self.heap[0]
            if -noted == flow.octets:
                return flow, queues
            if -noted == flow.noted and flow.octets:
                flow.noted = flow.octets
                heapq.heapreplace(self.heap, (-flow.octets, order, flow, queues))
            else:
                heapq.heappop(self.heap)
                flow.noted = 0 if -noted == flow.noted else flow.noted

    def tidy(self, everything: Iterable[FlowQueues], most: int) -> None:
        """Drops old entries if there are more than `most`."""
        if len(self.heap) > most:
            self.heap.clear()
            for queues in everything:
                for flow in queues.flows.values():
                    flow.noted = 0
                    self.note(flow, queues)
