"""Beacons and group frames of each BSS: when they go on the air, and which stations hear them.

Each station hears each beacon of its BSS. A sleeping station also hears the group frames that a DTIM beacon announced, until one
without More Data or until the next beacon. A group frame is sent once.
"""
from __future__ import annotations

import functools
import math
import random
from collections.abc import Callable
from dataclasses import dataclass, field

from .arrivals import Arrivals
from .clock import Clock
from .frames import Path
from .medium import Medium
from .rates import Legacy
from .scenario import Bss, Scenario, Station
from .traffic import Timed

SLOW = Legacy("ofdm", 6)
BEACON_OCTETS = 58  # with a TIM of 6 octets, and the check sequence


@dataclass
class Heard:
    """The frames of one flow at one station: the delays of those that it received, in microseconds, and the others."""

    delays: list[int] = field(default_factory=list)
    lost: int = 0  # on the air
    missed: int = 0  # because it slept and did not listen


@dataclass
class Sending:
    """A multicast flow after the warm-up."""

    offered: int = 0
    refused: int = 0


@dataclass(slots=True)
class GroupFrame:
    """A group frame: the place of its flow, and when it came."""

    flow: int
    came: int


@dataclass
class Network:
    """The beacons and group frames of a BSS, by its number."""

    number: int
    frames: list[GroupFrame] = field(default_factory=list)  # those that were accepted: a frame's id is its place
    listening: set[int] = field(default_factory=set)  # stations that hear group frames also while they sleep
    is_used: bool = False  # whether a multicast flow is to its stations
    is_beacon_due: bool = False
    may_send: bool = False  # whether a pull of a group frame might find one


class Multicast:
    """The beacons of the access point and the frames of multicast flows."""

    def __init__(self, scenario: Scenario, clock: Clock, path: Path, medium: Medium, here: list[bool]) -> None:
        self.clock, self.path, self.medium = clock, path, medium
        self.stations, self.here = scenario.stations, here
        self.warmup = round(scenario.warmup * 1e6)
        self.every = scenario.air.beacon or 0  # microseconds between beacons
        self.access = scenario.air.difs if scenario.air.access is None else scenario.air.access  # without a backoff
        self.arrivals = Arrivals([Timed(flow, scenario.seed) for flow in scenario.multicast])
        self.flows = scenario.multicast
        self.networks = [Network(number) for number in range(len(scenario.bsses))]
        self.sending = [Sending() for _ in scenario.multicast]
        self.heard = [[Heard() for _ in scenario.stations] for _ in scenario.multicast]
        self.losses = [random.Random(f"{scenario.seed} multicast {one.number} {one.name}") for one in scenario.stations]
        self.asleep: set[int] = set()
        self.used = 0  # microseconds of beacons and group frames after the warm-up, with the access before them
        for flow in scenario.multicast:
            self.networks[flow.station.bss].is_used = True
        self.plan_beacons(scenario.bsses)
        self.plan_arrivals()

    # Arrivals, beacons and sleep

    def plan_beacons(self, bsses: list[Bss]) -> None:
        """Schedules the first beacon of each BSS."""
        for network, bss in zip(self.networks, bsses) if self.every else ():
            self.clock.at(self.every + bss.offset, functools.partial(self.note_beacon, network))

    def plan_arrivals(self) -> None:
        """Schedules the arrival of the next frames."""
        following = self.arrivals.next_time()
        if following < math.inf:
            self.clock.at(int(following), self.come)

    def come(self) -> None:
        """Handles the frames that arrive at this time."""
        arrivals = self.arrivals.before(self.clock.now + 1)
        for came, number, _, octets in arrivals:
            self.offer(number - 1, came, octets)
        self.arrivals.skip(len(arrivals))
        self.plan_arrivals()

    def offer(self, flow: int, came: int, octets: int) -> None:
        """Gives a frame of a flow to the path."""
        counted, network = came >= self.warmup, self.networks[self.flows[flow].station.bss]
        self.sending[flow].offered += counted
        if self.path.group(octets, network.number):
            network.frames.append(GroupFrame(flow, came))
            network.may_send = True
        else:
            self.sending[flow].refused += counted

    def note_beacon(self, network: Network) -> None:
        """The time of a beacon of a BSS has come."""
        network.is_beacon_due = True
        self.clock.at(self.clock.now + self.every, functools.partial(self.note_beacon, network))

    def sleep(self, station: Station) -> None:
        """Notes that a station sleeps. If the latest beacon announced group frames, the station still hears them."""
        self.asleep.add(station.number)

    def wake(self, station: Station) -> None:
        """Notes that a station is awake, or has left."""
        self.asleep.discard(station.number)
        network = self.networks[station.bss]
        network.may_send = network.is_used

    # The air

    def send(self) -> bool:
        """Begins a beacon that is due, or else a group frame that may go now. Returns whether it began one of them."""
        for network in self.networks:
            if network.is_beacon_due:
                self.send_beacon(network)
                return True
        return any(network.may_send and self.send_frame(network) for network in self.networks)

    def present(self, network: Network) -> list[Station]:
        """The stations of a BSS that have joined and not left."""
        return [one for one in self.stations if one.bss == network.number and self.here[one.number]]

    def send_beacon(self, network: Network) -> None:
        """Begins a beacon of a BSS."""
        network.is_beacon_due = False
        follows = self.path.beacon(network.number)
        network.listening = {one.number for one in self.present(network)} if follows else set()
        network.may_send = network.is_used
        self.begin(SLOW.data_time(BEACON_OCTETS), lambda: None)

    def send_frame(self, network: Network) -> bool:
        """Begins the next group frame of a BSS, if one may go, and returns whether it did. Its stations that sleep now and do not
        listen will miss it."""
        sent = self.path.group_pull(network.number)
        if sent is None:
            network.may_send = False
            return False
        deaf = self.asleep - network.listening
        if not sent.more:
            network.listening -= self.asleep
        self.begin(sent.air, functools.partial(self.finish, network, network.frames[sent.number], self.present(network), deaf))
        return True

    def begin(self, air: int, ended: Callable[[], None]) -> None:
        """Takes the medium for the access and for this airtime."""
        self.medium.is_busy = True
        self.clock.at(self.clock.now + self.access + air, lambda: self.end(air, ended))

    def end(self, air: int, ended: Callable[[], None]) -> None:
        """Releases the medium."""
        self.medium.is_busy = False
        if self.clock.now > self.warmup:
            self.used += self.access + air
        ended()

    def finish(self, network: Network, frame: GroupFrame, present: list[Station], deaf: set[int]) -> None:
        """A group frame has ended: draws which stations of its BSS receive it."""
        self.path.group_done(network.number)
        network.may_send = True
        for station in present:
            heard = self.heard[frame.flow][station.number]
            is_lost = station.number not in deaf and self.losses[station.number].random() < station.loss
            if frame.came < self.warmup:
                continue
            if station.number in deaf:
                heard.missed += 1
            elif is_lost:
                heard.lost += 1
            else:
                heard.delays.append(self.clock.now - frame.came)
