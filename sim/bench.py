"""The loop in time: frames come, the path is asked what to send, the air takes its time, and transmissions arrive or are lost.

The same scenario makes the same arrivals and losses for each path, because each flow and each station has its own random numbers.
"""
from __future__ import annotations

import functools
import itertools
import random
from collections import deque
from collections.abc import Callable, Mapping, Sequence
from dataclasses import dataclass

from .agreements import Agreements
from .arrivals import Arrivals
from .clock import Clock
from .device import REPORT, Device
from .frames import CLASS_OF_TID, CLASSES, Exchange, Frame, Path
from .medium import AccessPoint, Contender, Medium, Uplink, UplinkExchange
from .multicast import Multicast
from .program import OutOfCalls
from .rates import Rate
from .receivers import Receivers
from .scenario import Flow, Scenario, Station
from .service import ServicePeriods
from .traffic import Arrival, Backlog, Eager, Source, Tcp, Timed
from .web import Browser

TIMER = 50_000  # microseconds between looks at timeouts
Progress = Callable[[int], None]


@dataclass
class Served:
    """The airtime and the frames of a station, after the warm-up."""

    airtime: int = 0  # microseconds that exchanges to it were charged
    uplink: int = 0  # microseconds of what it sent
    access: int = 0  # microseconds of access before either, and of ADDBA exchanges and QoS Null frames
    aggregates: int = 0
    transmissions: int = 0
    retries: int = 0


class Bench:
    """One run of a scenario over one path."""

    def __init__(self, scenario: Scenario, path: Path, progress: Progress | None = None) -> None:
        self.scenario = scenario
        self.path = path
        self.progress = progress
        self.clock = Clock()
        self.warmup = round(scenario.warmup * 1e6)
        self.medium = Medium(scenario.air, scenario.seed)
        self.access_point = AccessPoint()
        self.agreements = Agreements(scenario, path, self.access_point)
        self.services = ServicePeriods(scenario, self.clock, path, self.access_point)
        self.device = Device(scenario.setting("attempts"))
        self.uplinks = [Uplink(station, scenario.setting("cap")) for station in scenario.stations]
        self.open = dict.fromkeys(CLASSES, 0)
        self.may_send = dict.fromkeys(CLASSES, False)  # whether a pull of the class might find something
        self.is_idle = dict.fromkeys(CLASSES, False)  # whether the latest pull of the class found no station
        self.shares_limit = scenario.setting("aql_total") > 0  # whether the end of an exchange may let any class send
        self.here = [False] * len(scenario.stations)
        self.open_of = [0] * len(scenario.stations)
        self.leaving: set[int] = set()
        self.frames: list[list[Frame]] = [[] for _ in scenario.flows]
        self.served = [Served() for _ in scenario.stations]
        self.losses = [random.Random(f"{scenario.seed} losses {one.number} {one.name}") for one in scenario.stations]
        self.meters = [random.Random(f"{scenario.seed} meter {one.number} {one.name}") for one in scenario.stations]
        self.uplink_losses = [random.Random(f"{scenario.seed} uplink {one.number} {one.name}") for one in scenario.stations]
        self.eager: deque[Eager] = deque()  # flows that might send now
        self.blocked: list[Eager] = []  # flows that wait for room
        for station in scenario.stations:  # before the flows, so that a frame of the same time finds its station
            self.plan(station)
        self.sources = [self.source(flow) for flow in scenario.flows]
        self.arrivals = Arrivals([source for source in self.sources if isinstance(source, Timed)])
        self.timed_classes = {source.frame_class for source in self.sources if isinstance(source, Timed) and not source.flow.is_up}
        self.has_eager = any(isinstance(source, Eager) for source in self.sources)
        self.backlogs = {source.flow.number: source for source in self.sources if isinstance(source, Backlog)}
        self.until = 0  # when the run ends
        self.receivers = Receivers(self.clock, self.sources, self.uplinks, self.enqueue_control, self.ask)
        self.loads: list[list[tuple[int, int]]] = [[] for _ in scenario.flows]  # when each transfer began, and how long it took
        self.multicast = Multicast(scenario, self.clock, path, self.medium, self.here)
        self.plan_transfers()

    # Time

    def run(self, until: int) -> int:
        """Runs to a time, or until the program takes no more calls. Returns the time that was reached."""
        self.until = until
        try:
            while (now := min(self.clock.next_time(), self.arrivals.next_time())) <= until:
                self.step(int(now))
            self.clock.now = until
            self.path.advance(until)
        except OutOfCalls:
            self.end_at(self.path.now)
        self.path.close()
        self.note_ended()
        return self.clock.now

    def end_at(self, now: int) -> None:
        """Ends the run at a time. Frames that came together with earlier ones, and later than this, do not count."""
        self.clock.now = now
        for frames in self.frames:
            while frames and frames[-1].came > now:
                frames.pop()

    def step(self, now: int) -> None:
        """All that happens at one time: the events, then what flows send, then what the path sends."""
        self.advance(now)
        self.clock.act()
        while arrivals := self.arrivals.before(now + 1):
            self.come(arrivals)
        if self.path.ended:
            self.note_ended()
        if self.eager:
            self.refill()
        self.pull()
        if self.path.ended:
            self.note_ended()
        if self.medium.is_busy:
            self.arrive_while_busy()
        if self.progress:
            self.progress(now)

    def advance(self, now: int) -> None:
        """Moves the clocks on."""
        self.clock.now = now
        self.path.advance(now)

    def arrive_while_busy(self) -> None:
        """Lets frames of timed flows come before the next event, as long as nothing else can happen because of them."""
        limit, inflight = min(self.clock.next_time(), self.until + 1), self.scenario.air.inflight
        is_full = {frame_class: self.open[frame_class] >= inflight for frame_class in self.timed_classes}
        while arrivals := self.arrivals.before(limit):
            if self.has_eager:
                arrivals = arrivals[:1]  # a frame that ends because of it may let another flow send
            if not all(is_full.values()):
                arrivals = list(itertools.takewhile(lambda one: self.waits(one, is_full), arrivals))
            self.come(arrivals)
            if not arrivals or (self.has_eager and self.path.ended):
                break

    def waits(self, arrival: Arrival, is_full: Mapping[str, bool]) -> bool:
        """Whether nothing is sent because of an arrival, if these classes have as many open exchanges as they may."""
        source = self.sources[arrival[1] - 1]
        return source.flow.is_up or is_full[source.frame_class]

    # Stations

    def plan(self, station: Station) -> None:
        """The events of a station."""
        self.clock.at(station.join, lambda: self.join(station))
        for time, rate in station.rates:
            self.clock.at(time, functools.partial(self.change_rate, station, rate))
        for start, stop in station.sleeps:
            self.clock.at(start, lambda: self.sleep(station))
            for time in range(start + station.poll, stop, station.poll) if station.poll else ():
                self.clock.at(time, lambda: self.poll(station))
            self.clock.at(stop, lambda: self.wake(station))
        if station.leave < self.scenario.seconds * 1e6:
            self.clock.at(round(station.leave), lambda: self.leave(station))

    def join(self, station: Station) -> None:
        self.path.join(station)
        self.path.set_rate(station, station.rate)
        if station.bss:
            self.path.set_bss(station)
        if station.apsd:
            self.path.apsd(station)
        self.here[station.number] = True

    def leave(self, station: Station) -> None:
        """A station leaves when its last open exchange has ended; nothing more comes in for it."""
        self.here[station.number] = False
        self.uplinks[station.number].leave()
        self.agreements.cancel(station)
        self.cancel(station)
        if self.open_of[station.number]:
            self.leaving.add(station.number)
        else:
            self.remove(station)

    def remove(self, station: Station) -> None:
        self.leaving.discard(station.number)
        self.device.forget(station.number)
        self.path.leave(station)
        self.multicast.wake(station)
        self.services.wake(station)

    def change_rate(self, station: Station, rate: Rate) -> None:
        self.path.set_rate(station, rate)
        self.uplinks[station.number].rate = rate

    def sleep(self, station: Station) -> None:
        self.path.sleep(station)
        self.multicast.sleep(station)
        self.services.sleep(station)
        self.agreements.sleep(station)
        self.cancel(station)

    def wake(self, station: Station) -> None:
        self.path.wake(station)
        self.multicast.wake(station)
        self.services.wake(station)
        self.agreements.wake(station)
        self.may_send = dict.fromkeys(CLASSES, True)
        self.unblock()

    def poll(self, station: Station) -> None:
        frame_class = self.path.poll(station)
        if frame_class:
            self.may_send[frame_class] = True

    # Flows

    def source(self, flow: Flow) -> Source:
        """The source of a flow, with its first event."""
        if flow.kind == "backlog":
            return self.eager_source(Backlog(flow, self.scenario.seed))
        if flow.kind in ("tcp", "web"):
            tcp = Tcp(flow, self.scenario.seed)
            self.clock.at(tcp.start + TIMER, lambda: self.check(tcp))
            return self.eager_source(tcp)
        return Timed(flow, self.scenario.seed)

    def plan_transfers(self) -> None:
        """Has the ends of transfers noted: flows of TCP that have a size, and pages."""
        for source in self.sources:
            if not isinstance(source, Tcp):
                continue
            flow = source.flow
            loads = self.loads[flow.number - 1]
            if flow.octets is not None:
                source.finished = functools.partial(self.note_load, loads, source.start)
            elif flow.page is not None and flow.connection == 1:
                own = self.sources[flow.number - 1 : flow.number - 1 + flow.page.connections]
                connections = [one for one in own if isinstance(one, Tcp)]
                self.loads[flow.number - 1] = Browser(self.clock, flow.page, connections, self.receivers.send, self.ask).loads

    def note_load(self, loads: list[tuple[int, int]], began: int, now: int) -> None:
        """Notes that a transfer has ended."""
        loads.append((began, now - began))

    def check(self, source: Tcp) -> None:
        """Looks at the timeout of a sender of TCP, now and again."""
        source.check(self.clock.now)
        self.ask(source)
        if self.clock.now < source.flow.stop:
            self.clock.at(self.clock.now + TIMER, lambda: self.check(source))

    def eager_source(self, source: Eager) -> Eager:
        self.clock.at(source.start, lambda: self.ask(source))
        return source

    def come(self, arrivals: Sequence[Arrival]) -> None:
        """Lets the next frames of timed flows come. While a station is absent its frames are not counted."""
        self.arrivals.skip(len(arrivals))
        sources, here, noted, may_send, down = self.sources, self.here, self.frames, self.may_send, []
        for now, number, order, octets in arrivals:
            source = sources[number - 1]
            frame = Frame(source.flow, now, octets, order)
            if not here[frame.station]:
                continue
            noted[number - 1].append(frame)
            if source.flow.is_up:
                self.clock.now = now
                self.receivers.send_up(frame)
            else:
                may_send[source.frame_class] = True
                down.append(frame)
        self.path.enqueue_all(down)
        if arrivals:
            self.advance(arrivals[-1][0])

    def enqueue(self, frame: Frame) -> None:
        """Puts a frame of a flow into the path, or into the queue of the station that sends it."""
        self.frames[frame.flow.number - 1].append(frame)
        if frame.flow.is_up:
            self.receivers.send_up(frame)
        else:
            self.may_send[CLASS_OF_TID[frame.tid]] = True
            self.path.enqueue(frame)

    def enqueue_control(self, frame: Frame) -> None:
        """Puts a frame into the path that is no data of its flow. It does not count as offered."""
        if self.here[frame.station]:
            self.may_send[CLASS_OF_TID[frame.tid]] = True
            self.path.enqueue(frame)

    def ask(self, source: Eager) -> None:
        """Has a flow asked whether it sends."""
        if not source.is_queued:
            source.is_queued = True
            self.eager.append(source)

    def unblock(self) -> None:
        """Has flows asked that waited for room."""
        for source in self.blocked:
            self.ask(source)
        self.blocked.clear()

    def refill(self) -> None:
        """Lets flows that send when they may put frames in, one each in turn."""
        while self.eager:
            source = self.eager.popleft()
            source.is_queued = False
            if not self.here[source.flow.station.number] or not source.wants(self.clock.now):
                continue
            if source.waits_for_room and not self.path.has_room(source.flow):
                self.blocked.append(source)
            else:
                self.enqueue(source.frame(self.clock.now))
                self.ask(source)

    def note_ended(self) -> None:
        """Asks flows that wait for frames to end, or for room."""
        for frame in self.path.take_ended() if self.backlogs else ():
            source = self.backlogs.get(frame.flow.number)
            if source:
                source.ended(frame)
                self.ask(source)
        self.path.ended.clear()
        self.unblock()

    # Exchanges

    def pull(self) -> None:
        """Takes exchanges from the path while the driver has room for them, and starts the air. None while a station is leaving."""
        for frame_class, may_send in self.may_send.items():
            if may_send and self.open[frame_class] < self.scenario.air.inflight and not self.leaving:
                self.pull_class(frame_class)
        if self.services.open:
            self.end_services()
        if not self.medium.is_busy:
            self.start_air()

    def pull_class(self, frame_class: str) -> None:
        """Takes exchanges of one class."""
        while self.open[frame_class] < self.scenario.air.inflight:
            exchange = self.path.pull(frame_class)
            if exchange is None:
                self.may_send[frame_class] = False
                self.is_idle[frame_class] = not self.path.is_ahead
                break
            self.open[frame_class] += 1
            self.open_of[exchange.station] += 1
            self.services.opened(exchange)
            self.access_point.add(exchange)
            if exchange.is_batch:
                self.device.add(exchange)
            if exchange.is_plain:
                self.agreements.opened(exchange)

    def end_services(self) -> None:
        """Ends the service periods of stations that have no open exchange, and for which pulls found nothing."""
        for number in sorted(self.services.open):
            station = self.scenario.stations[number]
            is_done = all(self.is_idle[one] and not self.may_send[one] for one in station.apsd)
            if is_done and not self.open_of[number]:
                self.services.end(station)

    def start_air(self) -> None:
        """Begins the next transmission, if there is one: a beacon, else a group frame, else an exchange."""
        if self.multicast.send():
            return
        contenders: list[Contender] = [one for one in self.uplinks if one.count]
        if self.access_point.count:
            contenders.insert(0, self.access_point)
        if not contenders:
            return
        winner, access = self.medium.next(contenders)
        if isinstance(winner, Uplink):
            upward = winner.take()
            self.clock.at(self.clock.now + access + upward.air, lambda: self.finish_uplink(upward, access))
        else:
            exchange = self.access_point.take()
            finish = self.finish_of(exchange)
            self.clock.at(self.clock.now + access + exchange.air, lambda: finish(exchange, access))

    def finish_of(self, exchange: Exchange) -> Callable[[Exchange, int], None]:
        """What ends a transmission of an exchange."""
        if exchange.is_batch:
            return self.finish_batch
        if exchange.is_addba:
            return self.finish_addba
        return self.finish_uncharged if exchange.is_null else self.finish

    def draw(self, station: Station, numbers: random.Random, count: int) -> list[bool]:
        """Which of this many transmissions arrive."""
        if not station.loss:
            return [True] * count
        loss, draw = station.loss, numbers.random
        return [draw() >= loss for _ in range(count)]

    def finish(self, exchange: Exchange, access: int) -> None:
        """The access point's exchange ends: draws what arrived and whether the BlockAck was heard."""
        station = self.scenario.stations[exchange.station]
        arrived, heard = self.outcome(station, max(len(exchange.frames), 1))
        self.medium.is_busy = False
        self.note_closed(exchange)
        used = self.used(exchange, access)
        if used != exchange.air or station.is_measured:
            exchange.charge = self.measured(station, used)
        self.count(exchange, access, used, exchange.frames)
        self.receivers.receive_all(self.path.finish(exchange, arrived, heard))
        if exchange.is_plain:
            self.agreements.ended(exchange)
        self.remove_if_leaving(station)

    def finish_addba(self, exchange: Exchange, access: int) -> None:
        """An ADDBA request and its response end."""
        if self.agreements.answered(exchange):
            self.may_send[CLASS_OF_TID[exchange.tid]] = True
        self.finish_uncharged(exchange, access)

    def finish_uncharged(self, exchange: Exchange, access: int) -> None:
        """A transmission ends that the path does not know. It is charged to no station."""
        self.medium.is_busy = False
        if self.clock.now > self.warmup:
            self.served[exchange.station].access += exchange.air + access

    def outcome(self, station: Station, count: int) -> tuple[list[bool], bool]:
        """Draws which of this many transmissions arrived, and whether the BlockAck was heard."""
        numbers = self.losses[station.number]
        arrived = self.draw(station, numbers, count)
        return arrived, any(arrived) and (not station.ack_loss or numbers.random() >= station.ack_loss)

    def used(self, exchange: Exchange, access: int) -> int:
        """The airtime that an exchange used, with the access before it if that is charged."""
        return exchange.air + (access if self.scenario.air.charge_access else 0)

    def note_closed(self, exchange: Exchange) -> None:
        """Notes that an exchange is no longer open."""
        frame_class = CLASS_OF_TID[exchange.tid]
        self.open[frame_class] -= 1
        self.open_of[exchange.station] -= 1
        self.may_send[frame_class] = True
        if self.shares_limit:
            self.may_send = dict.fromkeys(CLASSES, True)

    def remove_if_leaving(self, station: Station) -> None:
        """Removes a station that leaves, if its last open exchange has ended."""
        if station.number in self.leaving and not self.open_of[station.number]:
            self.remove(station)

    def finish_batch(self, exchange: Exchange, access: int) -> None:
        """A transmission of a batch ends. The device repeats the frames that were not acknowledged, and reports the others."""
        station = self.scenario.stations[exchange.station]
        frames = self.device.left(exchange)
        arrived, heard = self.outcome(station, len(frames))
        self.medium.is_busy = False
        used = self.used(exchange, access)
        self.count(exchange, access, used, frames)
        acked, released = self.device.sent(exchange, arrived, heard, used)
        self.receivers.receive_all(released)
        repeats = self.device.repeats(exchange, self.uplinks[station.number].rate)
        if repeats:
            self.access_point.add_again(exchange)
        if acked or not repeats:
            self.clock.at(self.clock.now + REPORT, lambda: self.report(exchange, acked, [], not repeats))

    def cancel(self, station: Station) -> None:
        """Takes the batches of a station back that wait for their first transmission."""
        for exchange in self.device.untried(station.number):
            if self.access_point.remove(exchange):
                self.report(exchange, [], range(len(exchange.frames)), True)

    def report(self, exchange: Exchange, acked: Sequence[int], unsent: Sequence[int], is_over: bool) -> None:
        """The driver learns which frames of a batch were acknowledged and which come back, and whether the batch ends."""
        station = self.scenario.stations[exchange.station]
        if is_over:
            self.note_closed(exchange)
            used, most = self.device.end(exchange), self.scenario.setting("charge")
            exchange.charge = self.measured(station, min(used, most)) if most else None
        self.path.report(exchange, acked, unsent, is_over)
        if is_over:
            self.remove_if_leaving(station)

    def measured(self, station: Station, used: int) -> int:
        """The airtime that the driver measures for an exchange that used this much."""
        if not station.is_measured:
            return used
        share = 1 + station.charge_bias + self.meters[station.number].gauss(0, station.charge_error)
        return min(max(round(used * share), 1), self.scenario.setting("charge"))

    def count(self, exchange: Exchange, access: int, used: int, frames: Sequence[Frame]) -> None:
        """Counts a transmission of these frames, if it ended after the warm-up: the airtime that it used, whatever was measured."""
        again = 0
        for frame in frames:
            if frame.sent:
                again += 1
            frame.sent += 1
        if self.clock.now > self.warmup:
            served = self.served[exchange.station]
            served.airtime += used
            served.access += exchange.air + access - used
            served.aggregates += 1 if frames else 0
            served.transmissions += len(frames)
            served.retries += again

    def finish_uplink(self, exchange: UplinkExchange, access: int) -> None:
        """A station's exchange ends. Frames that arrived are passed on; the others are sent again."""
        station = exchange.station
        self.medium.is_busy = False
        arrived = self.draw(station, self.uplink_losses[station.number], len(exchange.frames))
        for frame in self.uplinks[station.number].finish(exchange, arrived):
            frame.arrived(self.clock.now)
        if any(arrived) and self.here[station.number] and self.services.heard(station, exchange.frame_class):
            self.may_send.update(dict.fromkeys(station.apsd, True))
        if self.here[station.number] and self.scenario.air.charge_uplink:
            self.path.received(station, exchange.frame_class, exchange.air)
        if self.clock.now > self.warmup:
            self.served[station.number].uplink += exchange.air
            self.served[station.number].access += access
