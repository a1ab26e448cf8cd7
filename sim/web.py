"""A browser that loads pages one after the other: many requests over several connections.

Each connection of a page is a new one. It is opened by a frame from the station and one octet from the server; then each request is a frame
from the station, and its answer is sent over TCP. The first request has the first connection alone.
"""
from __future__ import annotations

from collections.abc import Callable, Sequence

from .clock import Clock
from .scenario import Flow, Page
from .traffic import Tcp

OPENING = 60  # octets of the frame that opens a connection: as an acknowledgement
REQUEST = 400
AGAIN = 1_000_000  # microseconds until a frame is sent again that the station's queue did not take
Upward = Callable[[Flow, int, Callable[[int], None]], bool]


class Browser:
    """The pages of one flow. `send` gives a station a frame to send; `ask` has a connection asked whether it sends."""

    def __init__(self, clock: Clock, page: Page, connections: Sequence[Tcp], send: Upward, ask: Callable[[Tcp], None]) -> None:
        self.clock = clock
        self.page = page
        self.connections = connections
        self.send = send
        self.ask = ask
        self.loads: list[tuple[int, int]] = []  # of each page that was loaded, when it began and how long it took
        self.began = 0
        self.asked = 0  # requests of this page
        self.answered = 0
        clock.at(connections[0].start, self.begin)

    def begin(self) -> None:
        """Begins a page, unless the flow has stopped."""
        if self.clock.now >= self.connections[0].flow.stop:
            return
        self.began, self.asked, self.answered = self.clock.now, 0, 0
        for connection in self.connections:
            connection.restart()
        self.open(self.connections[0])

    def open(self, connection: Tcp) -> None:
        """Opens a connection, and then asks for something over it."""
        self.exchange(connection, OPENING, 1, lambda now: self.request(connection))

    def request(self, connection: Tcp) -> None:
        """Asks for the next part of the page, if there is one."""
        if self.asked >= self.page.requests:
            return
        self.asked += 1
        octets = self.page.octets // self.page.requests
        if self.asked == self.page.requests:
            octets = self.page.octets - octets * (self.asked - 1)
        self.exchange(connection, REQUEST, octets, lambda now: self.finish(connection))

    def exchange(self, connection: Tcp, up: int, down: int, finished: Callable[[int], None]) -> None:
        """Sends a frame to the server, and has that send octets. The rest of the round trip comes before these."""

        def reached(now: int) -> None:
            self.clock.at(now + connection.flow.delay, answer)

        def answer() -> None:
            connection.give(down, finished)
            self.ask(connection)

        if not self.send(connection.flow, up, reached):
            self.clock.at(self.clock.now + AGAIN, lambda: self.exchange(connection, up, down, finished))

    def finish(self, connection: Tcp) -> None:
        """Goes on after an answer: the first one opens the other connections, and the last one ends the page."""
        self.answered += 1
        now = self.clock.now
        if self.answered == self.page.requests:
            self.loads.append((self.began, now - self.began))
            self.clock.at(now + self.page.pause, self.begin)
            return
        if self.answered == 1:
            for other in self.connections[1:]:
                self.open(other)
        self.request(connection)
