"""The medium: one exchange at a time, and who has the next one.

The access point and each station that has something to send contend as by the distributed coordination function: each draws a backoff
of 0 to `cw` slots, the least wins, and the others keep the rest of theirs. Collisions are not modelled: a tie is drawn.
"""
from __future__ import annotations

import random
from collections.abc import Callable, Sequence
from dataclasses import dataclass

from .frames import CLASS_OF_TID, CLASSES, Exchange
from .rates import Rate, charge, padded, subframe
from .scenario import Air, Station

MOST_UPLINK_OCTETS = 65_535
MOST_UPLINK_FRAMES = 64
UPLINK_QUEUE = 1000  # frames that a station holds


class Contender:
    """One that contends for the medium."""

    count = 0  # exchanges or frames that it has to send
    backoff: int | None = None  # slots that are left
    turn = 0  # when it sent last; a fixed time of access gives turns


class AccessPoint(Contender):
    """The exchanges that the driver holds: first those of service periods, in the order of their pulls, then the most urgent class."""

    def __init__(self) -> None:
        self.served: list[Exchange] = []
        self.waiting: dict[str, list[Exchange]] = {frame_class: [] for frame_class in CLASSES}

    def queue(self, exchange: Exchange) -> list[Exchange]:
        """The queue of an exchange."""
        return self.served if exchange.is_served else self.waiting[CLASS_OF_TID[exchange.tid]]

    def add(self, exchange: Exchange) -> None:
        self.queue(exchange).append(exchange)
        self.count += 1

    def add_again(self, exchange: Exchange) -> None:
        """Takes a batch that the device repeats, or an ADDBA request, before the others of its queue."""
        self.queue(exchange).insert(0, exchange)
        self.count += 1

    def remove(self, exchange: Exchange) -> bool:
        """Takes an exchange back. Returns whether it waited."""
        waiting = self.queue(exchange)
        if exchange not in waiting:
            return False
        waiting.remove(exchange)
        self.count -= 1
        return True

    def take(self) -> Exchange:
        """The exchange that goes on the air next."""
        self.count -= 1
        return next(waiting for waiting in (self.served, *self.waiting.values()) if waiting).pop(0)


@dataclass(slots=True)
class UplinkFrame:
    """A frame that a station sends: data, a reply or an acknowledgement, and what to do when it arrives."""

    octets: int
    tid: int
    arrived: Callable[[int], None]


@dataclass(slots=True)
class UplinkExchange:
    """An aggregate that a station sends."""

    station: Station
    frame_class: str
    air: int
    frames: list[UplinkFrame]


class Uplink(Contender):
    """The frames that one station has to send, by class."""

    def __init__(self, station: Station, cap: int) -> None:
        self.station = station
        self.cap = cap
        self.rate: Rate = station.rate
        self.waiting: dict[str, list[UplinkFrame]] = {frame_class: [] for frame_class in CLASSES}
        self.is_here = True

    def add(self, frame: UplinkFrame) -> bool:
        """Takes a frame, unless the station has left or its queue is full. Returns whether it does."""
        if not self.is_here or self.count >= UPLINK_QUEUE:
            return False
        self.waiting[CLASS_OF_TID[frame.tid]].append(frame)
        self.count += 1
        return True

    def take(self) -> UplinkExchange:
        """An aggregate of the most urgent class with frames. They stay in the queue until they arrive."""
        frame_class, waiting = next(item for item in self.waiting.items() if item[1])
        most = min(self.rate.octets_within(self.cap), self.rate.most_octets, MOST_UPLINK_OCTETS)
        octets, taken = 0, 0
        for frame in waiting[:MOST_UPLINK_FRAMES]:
            if taken and octets + subframe(frame.octets) > most:
                break
            octets += padded(frame.octets)
            taken += 1
        frames = waiting[:taken]
        total = octets - padded(frames[-1].octets) + subframe(frames[-1].octets)
        return UplinkExchange(self.station, frame_class, charge(self.rate, total, self.station.window), frames)

    def finish(self, exchange: UplinkExchange, arrived: Sequence[bool]) -> list[UplinkFrame]:
        """Takes the frames that arrived out of the queue."""
        taken = [frame for frame, has_arrived in zip(exchange.frames, arrived) if has_arrived]
        kept = [frame for frame, has_arrived in zip(exchange.frames, arrived) if not has_arrived]
        waiting = self.waiting[exchange.frame_class]
        if waiting:
            waiting[: len(exchange.frames)] = kept
            self.count -= len(taken)
        return taken

    def leave(self) -> None:
        """Drops everything, because the station leaves."""
        self.is_here = False
        for waiting in self.waiting.values():
            waiting.clear()
        self.count = 0


class Medium:
    """Decides which contender sends next, and after how long."""

    def __init__(self, air: Air, seed: int) -> None:
        self.air = air
        self.random = random.Random(f"{seed} backoff")
        self.turns = 0
        self.is_busy = False

    def next(self, contenders: Sequence[Contender]) -> tuple[Contender, int]:
        """The contender that sends next, and the microseconds until it does."""
        self.is_busy = True
        if self.air.access is not None:
            winner = min(contenders, key=lambda one: one.turn)
            self.turns += 1
            winner.turn = self.turns
            return winner, self.air.access
        winner, slots = self.contend(contenders)
        return winner, self.air.difs + self.air.slot * slots

    def contend(self, contenders: Sequence[Contender]) -> tuple[Contender, int]:
        """The contender with the least backoff, and that backoff in slots."""
        for one in contenders:
            if one.backoff is None:
                one.backoff = self.random.randint(0, self.air.cw)
        least = min(one.backoff or 0 for one in contenders)
        first = [one for one in contenders if one.backoff == least]
        winner = first[0] if len(first) == 1 else self.random.choice(first)
        for one in contenders:
            one.backoff = None if one is winner else (one.backoff or 0) - least
        return winner, least
