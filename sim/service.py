"""Service periods of stations that sleep (U-APSD): what opens them, which exchanges are part of them, and how they end.

A frame of a delivery-enabled class that a sleeping station sends is a trigger. If the path has nothing for it, or if what was left
of a service period went away or cannot go, the device sends a QoS Null frame with the EOSP bit. Such a frame always arrives.
"""
from __future__ import annotations

from dataclasses import dataclass

from .agreements import ACK, NO_NUMBER
from .clock import Clock
from .frames import CLASS_OF_TID, Exchange, Path
from .medium import AccessPoint
from .rates import SIFS, Legacy
from .scenario import Scenario, Station

NULL_OCTETS = 30  # of a QoS Null frame: its header and its check sequence
NULL = Legacy("ofdm", 6).data_time(NULL_OCTETS) + SIFS + ACK  # microseconds


@dataclass
class Service:
    """The service periods of a station after the warm-up."""

    triggers: int = 0  # frames that would open a service period if none was open
    periods: int = 0
    frames: int = 0  # transmissions of frames in them
    nulls: int = 0  # QoS Null frames


class ServicePeriods:
    """The service periods that are open. The path ends one by the answer to a pull."""

    def __init__(self, scenario: Scenario, clock: Clock, path: Path, access_point: AccessPoint) -> None:
        self.stations = scenario.stations
        self.warmup = round(scenario.warmup * 1e6)
        self.clock = clock
        self.path = path
        self.access_point = access_point
        self.counts = [Service() for _ in scenario.stations]
        self.asleep: set[int] = set()
        self.open: set[int] = set()

    @property
    def is_counted(self) -> bool:
        """Whether the warm-up is over."""
        return self.clock.now > self.warmup

    def sleep(self, station: Station) -> None:
        """Notes that a station sleeps."""
        self.asleep.add(station.number)

    def wake(self, station: Station) -> None:
        """Notes that a station is awake, or has left, which ends its service period."""
        self.asleep.discard(station.number)
        self.open.discard(station.number)

    def heard(self, station: Station, frame_class: str) -> bool:
        """A frame of a station arrived at the access point. Returns whether it opens a service period."""
        number = station.number
        if number not in self.asleep or frame_class not in station.apsd:
            return False
        self.counts[number].triggers += self.is_counted
        if number in self.open:
            return False
        if not self.path.trigger(station):
            self.send_null(station)
            return False
        self.open.add(number)
        self.counts[number].periods += self.is_counted
        return True

    def opened(self, exchange: Exchange) -> None:
        """Notes an exchange that was pulled. If it is part of a service period, those of its station keep their order on the air."""
        number = exchange.station
        if number not in self.open or CLASS_OF_TID[exchange.tid] not in self.stations[number].apsd:
            return
        exchange.is_served = True
        self.counts[number].frames += len(exchange.frames) if self.is_counted else 0
        if exchange.eosp:
            self.open.discard(number)

    def end(self, station: Station) -> None:
        """Ends the service period of a station to which nothing can go."""
        self.path.end_service(station)
        self.open.discard(station.number)
        self.send_null(station)

    def send_null(self, station: Station) -> None:
        """Sends a QoS Null frame with the EOSP bit."""
        self.counts[station.number].nulls += self.is_counted
        tid = max(tid for tid, frame_class in enumerate(CLASS_OF_TID) if frame_class in station.apsd)
        self.access_point.add(Exchange(NO_NUMBER, station.number, tid, NULL, [], is_served=True, is_null=True))
