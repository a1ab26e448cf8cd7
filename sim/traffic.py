"""The sources of frames: timed flows, flows with a backlog, and senders of TCP."""
from __future__ import annotations

import itertools
import math
import random
from abc import ABC, abstractmethod
from bisect import bisect_left
from collections import deque
from collections.abc import Callable, Iterable, Iterator

from .frames import CLASS_OF_TID, Frame
from .scenario import Flow
from .window import WINDOWS

SECOND = 1_000_000
HEADERS = 60  # octets of a frame of TCP before its data: LLC 8, IPv4 20, TCP with timestamps 32
LEAST_TIMEOUT = 200_000  # microseconds, as in Linux
MOST_TIMEOUT = 60_000_000
BLOCK = 256  # frames that are drawn at once
Arrival = tuple[int, int, int, int]  # of a frame: the microsecond, the number of its flow, its place in the flow, and its octets


class Source(ABC):
    """The maker of the frames of one flow. Its random numbers depend on the seed and on the flow alone."""

    def __init__(self, flow: Flow, seed: int) -> None:
        self.flow = flow
        self.frame_class = CLASS_OF_TID[flow.tid]
        self.random = random.Random(f"{seed} flow {flow.number} {flow.label}")
        self.start = flow.start + (self.random.randint(0, flow.offset) if flow.offset else 0)
        self.count = 0  # frames so far
        self.octets = [octets for octets, _ in flow.sizes]
        self.weights = [weight for _, weight in flow.sizes]

    def size(self) -> int:
        """The octets of the next frame."""
        return self.octets[0] if len(self.octets) == 1 else self.random.choices(self.octets, self.weights)[0]

    def frame(self, now: int) -> Frame:
        """The next frame."""
        self.count += 1
        return Frame(self.flow, now, self.size(), self.count)


class Timed(Source):
    """A flow of frames that come at their times, whatever happens to them: at equal distances, or at random (Poisson)."""

    def __init__(self, flow: Flow, seed: int) -> None:
        super().__init__(flow, seed)
        self.is_random = flow.kind in ("flood_mbit", "poisson_per_s")

    def blocks(self) -> Iterator[list[Arrival]]:
        """The arrivals until the flow's stop, in blocks: to draw many together is faster than one by one."""
        order, number, stop = 1, self.flow.number, self.flow.stop
        for times, sizes in self.random_blocks() if self.is_random else self.regular_blocks():
            count = bisect_left(times, stop)
            yield list(zip(map(int, times[:count]), itertools.repeat(number), itertools.count(order), sizes))
            if count < BLOCK:
                return
            order += BLOCK

    def random_blocks(self) -> Iterator[tuple[list[float], Iterable[int]]]:
        """The microseconds and the octets of frames at random times, without an end."""
        every, draw, log = self.flow.every, self.random.random, math.log
        following = self.start - log(1.0 - draw()) * every
        while True:
            sizes = self.block_of_sizes()
            times = list(itertools.accumulate((-log(1.0 - draw()) * every for _ in range(BLOCK)), initial=following))
            following = times.pop()
            yield times, sizes

    def regular_blocks(self) -> Iterator[tuple[list[float], Iterable[int]]]:
        """The microseconds and the octets of frames at equal distances after the burst, without an end."""
        start, every = self.start, self.flow.every
        for first in itertools.count(1 - self.flow.burst, BLOCK):
            yield [start + max(nth, 0) * every for nth in range(first, first + BLOCK)], self.block_of_sizes()

    def block_of_sizes(self) -> Iterable[int]:
        """The octets of a block of frames."""
        return itertools.repeat(self.octets[0]) if len(self.octets) == 1 else self.random.choices(self.octets, self.weights, k=BLOCK)


class Eager(Source):
    """A flow that sends whenever it may."""

    waits_for_room = False
    is_queued = False  # whether the bench is going to ask it

    @abstractmethod
    def may_send(self) -> bool:
        """Whether one more frame may be in flight."""

    def wants(self, now: int) -> bool:
        """Whether the flow sends a frame now."""
        return self.start <= now < self.flow.stop and self.may_send()


class Backlog(Eager):
    """A flow that keeps a number of frames in the path. It waits for room, as a socket does, so none is dropped for lack of it."""

    waits_for_room = True

    def __init__(self, flow: Flow, seed: int) -> None:
        super().__init__(flow, seed)
        self.inside = 0

    def may_send(self) -> bool:
        return self.inside < self.flow.backlog

    def frame(self, now: int) -> Frame:
        self.inside += 1
        return super().frame(now)

    def ended(self, frame: Frame) -> None:
        """Notes that a frame was acknowledged or dropped."""
        self.inside -= 1


class Tcp(Eager):
    """A sender of TCP: a congestion window, and data without an end or of a size.

    Its receiver acknowledges released frames (RFC 5681, section 4.2: every second frame, or a frame that waited). A frame is lost
    if a later one is acknowledged, or if nothing is acknowledged before a timeout (RFC 6298). Then its data is sent again in a new frame.
    """

    def __init__(self, flow: Flow, seed: int) -> None:
        super().__init__(flow, seed)
        self.outstanding: deque[Frame] = deque()  # sent and neither acknowledged nor lost, in order
        self.unacknowledged: list[Frame] = []  # the receiver's: released, and no acknowledgement was sent
        self.progress = 0  # when something was sent after nothing was outstanding, or acknowledged
        self.finished: Callable[[int], None] | None = None  # is called with the time when all data was released
        self.restart()
        if flow.kind == "tcp":
            self.give(math.inf if flow.octets is None else flow.octets)

    def restart(self) -> None:
        """Begins a new connection, with no data to send."""
        self.window = WINDOWS[self.flow.congestion]()
        self.outstanding.clear()
        self.unacknowledged.clear()
        self.given_up: set[int] = set()  # frames that count as lost, by order
        self.promised: float = 0  # octets of data in all, those that were sent and are not lost, and those that were released
        self.committed = 0
        self.delivered = 0
        self.recovery = self.count  # a loss of a frame up to this one belongs to a loss that the window has shrunk for
        self.round = self.count  # the last frame that was sent when this round began
        self.smoothed = 0.0  # the round trip, and its variation
        self.variation = 0.0

    def give(self, octets: float, finished: Callable[[int], None] | None = None) -> None:
        """Adds data to send. `finished` is called when all data was released."""
        self.promised += octets
        self.finished = finished

    def may_send(self) -> bool:
        return self.committed < self.promised and len(self.outstanding) + 1 <= self.window.frames

    def size(self) -> int:
        return int(min(super().size(), self.promised - self.committed + HEADERS))

    def frame(self, now: int) -> Frame:
        made = super().frame(now)
        if not self.outstanding:
            self.progress = now
        self.outstanding.append(made)
        self.committed += made.octets - HEADERS
        return made

    def received(self, frame: Frame, now: int) -> None:
        """Counts the data of a frame that was released. Data that was sent twice counts once."""
        octets = frame.octets - HEADERS
        if frame.order in self.given_up:
            self.given_up.discard(frame.order)
            if self.committed + octets > self.promised:
                return
            self.committed += octets
        self.delivered += octets
        if self.finished and self.delivered >= self.promised:
            finished, self.finished = self.finished, None
            finished(now)

    def give_up(self, frame: Frame) -> None:
        """Takes a frame as lost, so that its data is sent again."""
        if frame.released is None:
            self.given_up.add(frame.order)
            self.committed -= frame.octets - HEADERS

    def acknowledged(self, newest: Frame, now: int) -> None:
        """Takes the acknowledgement of all released frames up to one."""
        self.measure(now - newest.came)
        self.progress = now
        if newest.order > self.round:
            self.round = self.count
            self.window.begin_round()
        self.window.sample((now - newest.came) / SECOND)
        lost = 0
        while self.outstanding and self.outstanding[0].order <= newest.order:
            frame = self.outstanding.popleft()
            if frame.released is not None:
                self.window.acknowledged(now / SECOND, self.smoothed / SECOND)
            else:
                lost = frame.order
                self.give_up(frame)
        if lost > self.recovery:
            self.window.lost()
            self.recovery = self.count

    def measure(self, round_trip: int) -> None:
        """Takes a sample of the round trip (RFC 6298, section 2)."""
        if not self.smoothed:
            self.smoothed, self.variation = float(round_trip), round_trip / 2
        else:
            self.variation += (abs(self.smoothed - round_trip) - self.variation) / 4
            self.smoothed += (round_trip - self.smoothed) / 8

    @property
    def timeout(self) -> float:
        """Microseconds without an acknowledgement after which all outstanding frames are lost."""
        patience = self.smoothed + 4 * self.variation if self.smoothed else SECOND
        return min(max(patience, LEAST_TIMEOUT), MOST_TIMEOUT)

    def check(self, now: int) -> None:
        """Gives up outstanding frames after a timeout."""
        if self.outstanding and now - self.progress >= self.timeout:
            for frame in self.outstanding:
                self.give_up(frame)
            self.outstanding.clear()
            self.window.timed_out()
            self.recovery = self.count
            self.progress = now
