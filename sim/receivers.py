"""Receivers: they ignore a frame, reply to it or acknowledge it. Stations also send the frames of uplink flows."""
from __future__ import annotations

from collections.abc import Callable, Sequence

from .clock import Clock
from .frames import Frame
from .medium import Uplink, UplinkFrame
from .scenario import Flow
from .traffic import HEADERS, Eager, Source, Tcp

FRAMES_AN_ACKNOWLEDGEMENT = 2
DELAYED_ACKNOWLEDGEMENT = 40_000  # microseconds until a frame alone is acknowledged, as in Linux


class Receivers:
    """The receivers of all flows.

    Stations send through their uplinks. `down` puts a frame into the path, and `ask` asks a flow that learns of something.
    """

    def __init__(
        self,
        clock: Clock,
        sources: Sequence[Source],
        uplinks: Sequence[Uplink],
        down: Callable[[Frame], None],
        ask: Callable[[Eager], None],
    ) -> None:
        self.clock = clock
        self.sources = sources
        self.uplinks = uplinks
        self.down = down
        self.ask = ask
        self.is_plain = [not (isinstance(one, Tcp) or one.flow.echo) for one in sources]  # nobody answers frames of these flows

    def receive_all(self, frames: Sequence[Frame]) -> None:
        """Takes frames that were released now."""
        now, is_plain = self.clock.now, self.is_plain
        for frame in frames:
            if is_plain[frame.flow.number - 1] and frame.action is None:
                frame.released = now
            else:
                self.receive(frame)

    def receive(self, frame: Frame) -> None:
        """Takes a frame that was released now, by a station or above the access point."""
        frame.released = self.clock.now
        if frame.action is not None:
            frame.action()
            return
        source = self.sources[frame.flow.number - 1]
        if isinstance(source, Tcp):
            source.received(frame, self.clock.now)
            self.receive_data(source, frame)
        elif frame.flow.echo:
            self.send(frame.flow, frame.octets, lambda now: self.answered(frame, now))

    def send(self, flow: Flow, octets: int, arrived: Callable[[int], None]) -> bool:
        """Gives the station of a flow a frame to send. Returns whether its queue has room."""
        return self.uplinks[flow.station.number].add(UplinkFrame(octets, flow.tid, arrived))

    def send_up(self, frame: Frame) -> None:
        """Gives a station a frame of an uplink flow."""
        if not self.send(frame.flow, frame.octets, lambda now: self.arrived(frame, now)):
            frame.ended, frame.fate = self.clock.now, "overlimit"

    def arrived(self, frame: Frame, now: int) -> None:
        """Takes a frame that a station sent."""
        frame.ended, frame.fate = now, "acked"
        self.receive(frame)

    def answered(self, frame: Frame, now: int) -> None:
        frame.answered = now

    def receive_data(self, source: Tcp, frame: Frame) -> None:
        """Acknowledges every second frame of TCP, or a frame that has waited."""
        source.unacknowledged.append(frame)
        if len(source.unacknowledged) >= FRAMES_AN_ACKNOWLEDGEMENT:
            self.acknowledge(source)
        else:
            self.clock.at(self.clock.now + DELAYED_ACKNOWLEDGEMENT, lambda: self.acknowledge_late(source, frame))

    def acknowledge(self, source: Tcp) -> None:
        """Acknowledges the frames that were released. The acknowledgement crosses the air before or after the flow's delay."""
        flow, newest = source.flow, source.unacknowledged[-1]
        source.unacknowledged.clear()
        if flow.is_up:
            made = Frame(flow, self.clock.now + flow.delay, HEADERS)
            made.action = lambda: self.learn(source, newest)
            self.clock.at(made.came, lambda: self.down(made))
        else:
            self.send(flow, HEADERS, lambda now: self.clock.at(now + flow.delay, lambda: self.learn(source, newest)))

    def acknowledge_late(self, source: Tcp, frame: Frame) -> None:
        """Acknowledges a frame that waited for a second one in vain."""
        if source.unacknowledged and source.unacknowledged[0] is frame:
            self.acknowledge(source)

    def learn(self, source: Tcp, newest: Frame) -> None:
        source.acknowledged(newest, self.clock.now)
        self.ask(source)
