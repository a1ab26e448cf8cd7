"""The time of a run, and the events that are still to happen."""
from __future__ import annotations

import heapq
import math
from collections.abc import Callable

Action = Callable[[], None]


class Clock:
    """The present, in microseconds, and actions by the time at which they happen; those of one time happen in the order of `at`."""

    def __init__(self) -> None:
        self.now = 0
        self.events: list[tuple[int, int, Action]] = []
        self.order = 0

    def at(self, time: int, action: Action) -> None:
        """Has an action happen at a time that is not before the present."""
        self.order += 1
        heapq.heappush(self.events, (time, self.order, action))

    def next_time(self) -> float:
        """When the next event happens; infinity if there is none."""
        return self.events[0][0] if self.events else math.inf

    def act(self) -> None:
        """Has all events of the present happen, and those that they add to it."""
        events = self.events
        while events and events[0][0] == self.now:
            heapq.heappop(events)[2]()
