"""The arrivals of all timed flows, merged in the order of time. They are drawn and sorted in blocks, which is faster than one by one."""
from __future__ import annotations

import itertools
import math
from bisect import bisect_left
from collections.abc import Sequence

from .traffic import Arrival, Timed


class Stock:
    """The arrivals of one flow that are drawn and not merged yet."""

    def __init__(self, source: Timed) -> None:
        self.blocks = source.blocks()
        self.arrivals: list[Arrival] = []
        self.has_ended = False

    def draw(self) -> None:
        """Draws one more block, or notes that the flow has no more."""
        block = next(self.blocks, None)
        if block is None:
            self.has_ended = True
        else:
            self.arrivals += block

    @property
    def known_until(self) -> float:
        """Every arrival before this time is drawn."""
        return math.inf if self.has_ended else self.arrivals[-1][0]

    def take_before(self, time: float) -> list[Arrival]:
        """Takes the arrivals before a time."""
        count = bisect_left(self.arrivals, (time,))
        taken, self.arrivals = self.arrivals[:count], self.arrivals[count:]
        return taken


class Arrivals:
    """The arrivals to come: those of one time in the order of their flows."""

    def __init__(self, sources: Sequence[Timed]) -> None:
        self.stocks = [Stock(source) for source in sources]
        self.merged: list[Arrival] = []
        self.place = 0  # of the next one in `merged`
        self.fill()

    def next_time(self) -> float:
        """When the next frame of a timed flow comes; infinity if none does."""
        return self.merged[self.place][0] if self.merged else math.inf

    def before(self, time: float) -> list[Arrival]:
        """Arrivals that come next and before a time: at least one if there is one."""
        return self.merged[self.place : bisect_left(self.merged, (time,), self.place)]

    def skip(self, count: int) -> None:
        """Takes the next arrivals out; `before` has shown at least as many."""
        self.place += count
        if self.place == len(self.merged):
            self.fill()

    def fill(self) -> None:
        """Merges more arrivals: those before the time until which the arrivals of every flow are drawn."""
        self.merged, self.place = [], 0
        while not self.merged and self.stocks:
            for stock in self.stocks:
                while not (stock.has_ended or stock.arrivals):
                    stock.draw()
            until = min(stock.known_until for stock in self.stocks)
            self.merged = sorted(itertools.chain.from_iterable(stock.take_before(until) for stock in self.stocks))
            if not self.merged:
                self.draw_past(until)
            self.stocks = [stock for stock in self.stocks if stock.arrivals or not stock.has_ended]

    def draw_past(self, time: float) -> None:
        """Draws more arrivals of the flows whose last drawn one comes at this time."""
        for stock in self.stocks:
            if stock.known_until == time:
                stock.draw()
