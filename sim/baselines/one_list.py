"""`one_list`: `fq_mac` with the airtime scheduler, but without the sparse station optimisation: a station that comes joins the old list.

"Ending the Anomaly", algorithm 3 without its new list. Deficits, quanta and weights are the machine's (docs/MACHINE.md, "The pick").
"""
from __future__ import annotations

from collections import deque
from collections.abc import Sequence
from dataclasses import dataclass, field

from ..frames import CLASS_OF_TID, CLASSES, Exchange, Frame
from ..scenario import Scenario, Station
from .driver import Session
from .fq_mac import FqMac


@dataclass(eq=False)
class Place:
    """A station in one class: its deficit, and its two sessions, of which the first has the next turn."""

    quantum: int
    deficit: int
    sessions: deque[Session] = field(default_factory=deque)
    listed: bool = False


class OneList(FqMac):
    """One list of stations for each class."""

    def __init__(self, scenario: Scenario) -> None:
        super().__init__(scenario)
        self.places: dict[tuple[int, str], Place] = {}  # by station and class
        self.lists: dict[str, deque[Place]] = {frame_class: deque() for frame_class in CLASSES}

    def join(self, station: Station) -> None:
        super().join(station)
        quantum = self.scenario.setting("quantum") * station.weight
        for frame_class in CLASSES:
            self.places[station.number, frame_class] = Place(quantum, quantum)
        for tid, frame_class in enumerate(CLASS_OF_TID):
            self.places[station.number, frame_class].sessions.append(self.sessions[station.number, tid])

    def leave(self, station: Station) -> None:
        super().leave(station)
        for frame_class in CLASSES:
            place = self.places.pop((station.number, frame_class))
            if place.listed:
                self.lists[frame_class].remove(place)

    def enqueue(self, frame: Frame) -> None:
        super().enqueue(frame)
        self.put_on_list(frame.station, CLASS_OF_TID[frame.tid])

    def put_on_list(self, station: int, frame_class: str) -> None:
        """Puts a station that can send last on its class's list, if it is not there."""
        place = self.places[station, frame_class]
        if not place.listed and any(map(self.can_send, place.sessions)):
            place.listed = True
            self.lists[frame_class].append(place)

    def pull(self, frame_class: str) -> Exchange | None:
        """An exchange of the first station with a deficit above 0 that can send; each that is passed over gets its quantum."""
        places = self.lists[frame_class]
        while places:
            place = places[0]
            if place.deficit <= 0:
                place.deficit += place.quantum
                places.rotate(-1)
            elif any(map(self.can_send, place.sessions)):
                return self.of_station(place.sessions)
            else:
                places.popleft().listed = False
        return None

    def of_station(self, sessions: deque[Session]) -> Exchange | None:
        """An exchange of the TID whose turn it is if it can send, else of the other; the turn goes to the one that did not send."""
        if not self.can_send(sessions[0]):
            sessions.rotate(1)
        session = sessions[0]
        sessions.rotate(1)
        return self.aggregate(session)

    def received(self, station: Station, frame_class: str, air: int) -> None:
        self.places[station.number, frame_class].deficit -= air

    def finish(self, exchange: Exchange, arrived: Sequence[bool], heard: bool) -> list[Frame]:
        released = super().finish(exchange, arrived, heard)
        frame_class = CLASS_OF_TID[exchange.tid]
        self.places[exchange.station, frame_class].deficit -= exchange.charged
        self.put_on_list(exchange.station, frame_class)
        return released
