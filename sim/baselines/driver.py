"""The part below the queues of every model, as the machine has it: numbers, a window, retries, aggregates, and release in order.

The rules are in docs/MACHINE.md ("Windows and numbers", "Pull"), with one simplification: the receiver gives up a failed number
at once and at no cost, where the machine sends a BlockAckReq.
"""
from __future__ import annotations

from abc import abstractmethod
from collections import deque
from collections.abc import Sequence

from ..frames import CLASS_OF_TID, CLASSES, Exchange, Frame, Path
from ..rates import Rate, charge, padded, subframe
from ..scenario import Scenario, Station
from .codel import Dropped


class Session:
    """One TID of one station: the window of its sender, and its receiver, which puts frames in order."""

    def __init__(self, station: Station, tid: int) -> None:
        self.station = station
        self.tid = tid
        self.next_number = 0
        self.unsettled: dict[int, Frame] = {}  # frames neither acknowledged nor failed by number, the lowest first
        self.retries: list[Frame] = []  # frames that wait to be sent again, the lowest number first
        self.expected = 0  # the receiver's: the least number that it waits for
        self.arrived: dict[int, Frame | None] = {}  # the receiver's: frames after a missing one; None for a number given up

    def window_is_open(self) -> bool:
        first = next(iter(self.unsettled), self.next_number)
        return self.next_number < first + self.station.window

    def number(self, frame: Frame) -> None:
        """Gives a fresh frame the next number."""
        frame.number = self.next_number
        self.unsettled[frame.number] = frame
        self.next_number += 1

    def receive(self, number: int, frame: Frame | None) -> list[Frame]:
        """The frames released in order after a number arrived, or was given up if the frame is None."""
        if number >= self.expected:
            self.arrived.setdefault(number, frame)
        released = []
        while self.expected in self.arrived:
            next_frame = self.arrived.pop(self.expected)
            self.expected += 1
            if next_frame is not None:
                released.append(next_frame)
        return released


class Driver(Path):
    """The sessions of all stations, and exchanges of them, the sessions of a class in turn."""

    def __init__(self, scenario: Scenario) -> None:
        super().__init__()
        self.scenario = scenario
        self.most = scenario.setting("agg")
        self.attempts = scenario.setting("attempts")
        self.rates: dict[int, Rate] = {}
        self.octets: dict[int, int] = {}  # by station: the most octets of an aggregate
        self.sessions: dict[tuple[int, int], Session] = {}
        self.turns: dict[str, deque[Session]] = {frame_class: deque() for frame_class in CLASSES}

    @abstractmethod
    def has_fresh(self, session: Session) -> bool:
        """Whether a frame waits that has no number yet."""

    @abstractmethod
    def take(self, session: Session) -> Frame | None:
        """The next fresh frame, or None if there is none after all."""

    @abstractmethod
    def drop_fresh(self, session: Session) -> None:
        """Drops the fresh frames of a station that leaves."""

    def put_back(self, session: Session, frame: Frame) -> None:
        """Takes back a fresh frame that did not fit. It keeps its number and is the next to be sent."""
        session.retries.append(frame)

    def end_all(self, dropped: Dropped) -> None:
        """Notes frames that a queue dropped."""
        for frame, cause in dropped:
            self.end(frame, cause)

    def join(self, station: Station) -> None:
        for tid, frame_class in enumerate(CLASS_OF_TID):
            session = Session(station, tid)
            self.sessions[station.number, tid] = session
            self.turns[frame_class].append(session)

    def leave(self, station: Station) -> None:
        for tid, frame_class in enumerate(CLASS_OF_TID):
            session = self.sessions.pop((station.number, tid))
            self.turns[frame_class].remove(session)
            for frame in session.retries:
                self.end(frame, "left")
            self.drop_fresh(session)

    def set_rate(self, station: Station, rate: Rate) -> None:
        self.rates[station.number] = rate
        self.octets[station.number] = min(rate.octets_within(self.scenario.setting("cap")), rate.most_octets)

    def can_send(self, session: Session) -> bool:
        return bool(session.retries) or (self.has_fresh(session) and session.window_is_open())

    def pull(self, frame_class: str) -> Exchange | None:
        """The next exchange: of the first session in turn that can send, which then goes last."""
        turns = self.turns[frame_class]
        for _ in range(len(turns)):
            session = turns[0]
            turns.rotate(-1)
            if self.can_send(session):
                exchange = self.aggregate(session)
                if exchange:
                    return exchange
        return None

    def aggregate(self, session: Session) -> Exchange | None:
        """An exchange of frames to send again, then of fresh ones, while they fit."""
        frames: list[Frame] = []
        octets = 0  # of these, all padded
        limit = self.octets[session.station.number]
        while session.retries and self.fits(frames, octets, session.retries[0], limit):
            frames.append(session.retries.pop(0))
            octets += padded(frames[-1].octets)
        while not session.retries and len(frames) < self.most and session.window_is_open() and self.has_fresh(session):
            frame = self.take(session)
            if frame is None:
                break
            session.number(frame)
            if not self.fits(frames, octets, frame, limit):
                self.put_back(session, frame)
                break
            frames.append(frame)
            octets += padded(frame.octets)
        if not frames:
            return None
        last = frames[-1].octets
        air = charge(self.rates[session.station.number], octets - padded(last) + subframe(last), session.station.window)
        return Exchange(0, session.station.number, session.tid, air, frames)

    def fits(self, frames: Sequence[Frame], octets: int, frame: Frame, limit: int) -> bool:
        """Whether an aggregate takes one frame more. A frame alone always goes."""
        return not frames or (len(frames) < self.most and octets + subframe(frame.octets) <= limit)

    def finish(self, exchange: Exchange, arrived: Sequence[bool], heard: bool) -> list[Frame]:
        session = self.sessions[exchange.station, exchange.tid]
        released: list[Frame] = []
        for frame, has_arrived in zip(exchange.frames, arrived):
            if has_arrived:
                released += session.receive(frame.number, frame)
        again = []
        for frame, has_arrived in zip(exchange.frames, arrived):
            if heard and (has_arrived or frame.number < session.expected or frame.number in session.arrived):
                self.settle(session, frame, "acked")
            elif frame.sent >= self.attempts:
                self.settle(session, frame, "retries")
                released += session.receive(frame.number, None)
            else:
                again.append(frame)
        if again:
            session.retries = sorted(session.retries + again, key=lambda frame: frame.number)
        return released

    def settle(self, session: Session, frame: Frame, fate: str) -> None:
        """Ends a frame that was acknowledged, or that failed."""
        del session.unsettled[frame.number]
        self.end(frame, fate)
