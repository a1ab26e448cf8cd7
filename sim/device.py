"""The device of offloaded stations: it numbers, aggregates and repeats the frames of the batches that the driver pulls.

The driver learns of each transmission later, and of each frame of a batch on its own: those that were acknowledged first, then the
others. A batch that its station cannot receive any more, because it sleeps or leaves, comes back if it was not on the air yet.
"""
from __future__ import annotations

from collections import deque
from collections.abc import Iterable, Iterator, Sequence
from dataclasses import dataclass, field

from .frames import Exchange, Frame
from .rates import Rate, charge, padded, subframe

REPORT = 500  # microseconds until the driver learns of a transmission
WINDOW = 256  # of the device's block acknowledgement sessions


@dataclass
class Batch:
    """A batch that the device holds."""

    exchange: Exchange
    left: list[int]  # indices of the frames that are still sent
    transmissions: int = 0
    used: int = 0  # microseconds of the transmissions so far


@dataclass
class Reordering:
    """A TID of a station's receiver: it passes up what arrived, in the order of the device's numbers."""

    frames: deque[Frame] = field(default_factory=deque)  # numbered and not passed up, in order
    arrived: set[Frame] = field(default_factory=set)
    given_up: set[Frame] = field(default_factory=set)

    def release(self) -> list[Frame]:
        """The frames that are passed up now: those that arrived, before the first that may still come."""
        released = []
        while self.frames and (self.frames[0] in self.arrived or self.frames[0] in self.given_up):
            frame = self.frames.popleft()
            if frame in self.arrived:
                released.append(frame)
            self.arrived.discard(frame)
            self.given_up.discard(frame)
        return released


def new(frames: Iterable[Frame]) -> Iterator[Frame]:
    """The frames that were not passed up before."""
    return (frame for frame in frames if frame.released is None)


class Device:
    """The batches of all offloaded stations. A frame has at most `attempts` transmissions."""

    def __init__(self, attempts: int) -> None:
        self.attempts = attempts
        self.batches: dict[int, Batch] = {}
        self.receivers: dict[tuple[int, int], Reordering] = {}

    def add(self, exchange: Exchange) -> None:
        """Takes a batch."""
        self.batches[exchange.number] = Batch(exchange, list(range(len(exchange.frames))))

    def left(self, exchange: Exchange) -> list[Frame]:
        """The frames of the next transmission of a batch."""
        return [exchange.frames[index] for index in self.batches[exchange.number].left]

    def sent(self, exchange: Exchange, arrived: Sequence[bool], heard: bool, used: int) -> tuple[list[int], list[Frame]]:
        """Notes a transmission. Returns the indices that were acknowledged, and the frames that the receiver passes up."""
        batch = self.batches[exchange.number]
        receiver = self.receivers.setdefault((exchange.station, exchange.tid), Reordering())
        if not batch.transmissions:
            receiver.frames.extend(exchange.frames)
        batch.transmissions += 1
        batch.used += used
        came = [index for index, has_arrived in zip(batch.left, arrived) if has_arrived]
        receiver.arrived.update(new(exchange.frames[index] for index in came))
        acked = came if heard else []
        batch.left = [index for index in batch.left if index not in acked]
        if batch.transmissions == self.attempts:
            receiver.given_up.update(new(exchange.frames[index] for index in batch.left))
            batch.left = []
        return acked, receiver.release()

    def repeats(self, exchange: Exchange, rate: Rate) -> bool:
        """Whether a batch is sent again. Then `air` of its exchange is the time of that transmission."""
        bodies = [frame.octets for frame in self.left(exchange)]
        if not bodies:
            return False
        exchange.air = charge(rate, sum(map(padded, bodies[:-1])) + subframe(bodies[-1]), WINDOW)
        return True

    def untried(self, station: int) -> list[Exchange]:
        """The batches of a station that were not on the air yet."""
        held = [batch for batch in self.batches.values() if batch.exchange.station == station]
        return [batch.exchange for batch in held if not batch.transmissions]

    def forget(self, station: int) -> None:
        """Forgets the receiver of a station that leaves."""
        self.receivers = {key: receiver for key, receiver in self.receivers.items() if key[0] != station}

    def end(self, exchange: Exchange) -> int:
        """Forgets a batch. Returns the microseconds of its transmissions, at least 1."""
        return max(self.batches.pop(exchange.number).used, 1)
