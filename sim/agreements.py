"""Agreements that begin at the first frame of a TID: what the driver does, and the ADDBA exchange on the air.

The driver holds a TID when its first frame goes. When this frame has ended, it sends an ADDBA request, and the agreement begins with
the response. If the station falls asleep or leaves before, the TID is freed, and the next frame to the awake station begins again.
"""
from __future__ import annotations

import random

from .frames import Exchange, Path
from .medium import AccessPoint
from .rates import SIFS
from .scenario import Scenario, Station

ACTION = 76  # microseconds of an ADDBA request or response: 37 octets at 6 Mbit/s
ACK = 44  # microseconds of 14 octets at 6 Mbit/s
BETWEEN = 34  # microseconds between the request's Ack and the response
ADDBA = 2 * (ACTION + SIFS + ACK) + BETWEEN
NO_NUMBER = -1  # the number of an exchange that the path does not know


class Agreements:
    """The TIDs that are held: each with its ADDBA exchange, or None until that is sent."""

    def __init__(self, scenario: Scenario, path: Path, access_point: AccessPoint) -> None:
        self.stations = scenario.stations
        self.path = path
        self.access_point = access_point
        self.held: dict[tuple[int, int], Exchange | None] = {}
        self.asleep: set[int] = set()
        plain = [station for station in scenario.stations if station.plain]
        self.losses = {one.number: random.Random(f"{scenario.seed} addba {one.number} {one.name}") for one in plain}

    def opened(self, exchange: Exchange) -> None:
        """Holds the TID of an exchange without an agreement that was pulled, unless it is held, its station sleeps, or it gets none."""
        key, station = (exchange.station, exchange.tid), self.stations[exchange.station]
        if station.plain and key not in self.held and exchange.station not in self.asleep:
            self.path.hold(station, exchange.tid)
            self.held[key] = None

    def ended(self, exchange: Exchange) -> None:
        """Sends the ADDBA request of a held TID, if the frame of this exchange does not wait to be sent again."""
        key = (exchange.station, exchange.tid)
        if self.held.get(key, exchange) is None and exchange.frames[0].fate is not None:
            request = Exchange(NO_NUMBER, exchange.station, exchange.tid, ADDBA, [], is_addba=True)
            self.held[key] = request
            self.access_point.add_again(request)

    def answered(self, request: Exchange) -> bool:
        """An ADDBA exchange ends. Returns whether the agreement begins; if a frame was lost, the request is sent again."""
        key = (request.station, request.tid)
        if self.held.get(key) is not request:
            return False
        station, numbers = self.stations[request.station], self.losses[request.station]
        if any([numbers.random() < station.loss for _ in range(2)]):
            self.access_point.add_again(request)
            return False
        del self.held[key]
        self.path.begin(station, request.tid)
        return True

    def cancel(self, station: Station) -> None:
        """Frees the held TIDs of a station that falls asleep or leaves."""
        for key in [key for key in self.held if key[0] == station.number]:
            request = self.held.pop(key)
            if request is not None:
                self.access_point.remove(request)
            self.path.free(station, key[1])

    def sleep(self, station: Station) -> None:
        """Notes that a station sleeps."""
        self.asleep.add(station.number)
        self.cancel(station)

    def wake(self, station: Station) -> None:
        """Notes that a station is awake."""
        self.asleep.discard(station.number)
