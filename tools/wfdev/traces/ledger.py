"""The facts about stations, frames and exchanges that follow from the calls and answers of a trace.

Three things are not in the answers, and so not here: which frames CoDel dropped before they are reaped; whether
the end of an agreement dropped a frame with a number that was never sent, before it is reaped; and the order of
the rotation. """
from __future__ import annotations

import collections
import dataclasses

from .calls import Call
from .replies import Reply

# The standard settings that explanations name.
STANDARD = {
    "stations": 16,
    "limit": 8192,
    "room": 65536,
    "quantum": 300,
    "inflight": 2,
    "attempts": 10,
    "sleeping": 64,
    "calls": 1048576,
    "charge": 0,
    "pending": 0,
    "buffered": 0,
    "bsses": 0,
}
CLASSES = ("be", "bk", "bk", "be", "vi", "vi", "vo", "vo")
NUMBERED = ("bk", "be", "vi", "vo")
NUMBERS = 4096


@dataclasses.dataclass
class Frame:
    """An accepted frame: `sent` counts its transmissions, `is_numbered` says whether a pull sent it,
    `is_given_up` whether the device will not try it again, and `fate` is empty while it is held."""

    id: int
    station: int
    tid: int
    length: int
    sent: int = 0
    is_numbered: bool = False
    is_given_up: bool = False
    fate: str = ""


@dataclasses.dataclass
class Exchange:
    """An exchange: what the pull answered, what arrived, the BlockAck or the Ack, which transmissions never
    went on the air or were given up, and how it ended."""

    number: int
    station: int
    tid: int
    air: int
    began: int
    frames: list[tuple[int, int]]
    start: int | None
    more: bool
    eosp: bool
    again: int = 0
    arrived: set[int] = dataclasses.field(default_factory=set)
    block: tuple[int, int] | None = None
    unsent: set[int] = dataclasses.field(default_factory=set)
    given_up: set[int] = dataclasses.field(default_factory=set)
    heard: bool | None = None
    is_batch: bool = False
    is_plain: bool = False
    is_served: bool = False
    has_ack: bool = False

    @property
    def class_(self) -> str:
        """The class of its TID."""
        return CLASSES[self.tid]

    @property
    def sent(self) -> int:
        """How many transmissions it has."""
        return 1 if self.start is not None else len(self.frames)

    @property
    def lost(self) -> int:
        """How many transmissions went on the air and did not arrive."""
        return self.sent - len(self.unsent) - len(self.arrived)

    def shows(self, number: int) -> bool:
        """Returns whether the BlockAck shows this sequence number, or the Ack acknowledges it."""
        if self.block is None:
            return self.has_ack
        start, bits = self.block
        return bool(bits >> ((number - start) % NUMBERS) & 1)


@dataclasses.dataclass
class Station:
    """A live station: `used` is the airtime of each class that left its deficit since its join; `quanta`
    counts those of the rotation. After a change of its weight (`is_weighed`) its deficit is not known. `held`
    has the TIDs that are held, `delivery` the delivery-enabled classes, and `is_served` says that a service
    period is open."""

    number: int
    weight: int
    is_weighed: bool = False
    is_asleep: bool = False
    is_stopped: bool = False
    credit: str = ""
    delivery: frozenset[str] = frozenset()
    is_served: bool = False
    used: dict[str, int] = dataclasses.field(default_factory=dict)
    quanta: dict[str, int] = dataclasses.field(default_factory=dict)
    held: set[int] = dataclasses.field(default_factory=set)

    def is_reached(self, class_: str) -> bool:
        """Returns whether it is awake, or has a credit for a class or a service period in which it is served."""
        return not self.is_asleep or self.credit == class_ or (self.is_served and class_ in self.delivery)


class Ledger:
    """All of it, call by call."""

    def __init__(self, settings: dict[str, int]) -> None:
        self.settings = {**STANDARD, **settings}
        self.now = 0
        self.stations: dict[int, Station] = {}
        self.frames: dict[int, Frame] = {}
        self.open: dict[int, Exchange] = {}
        self._held: collections.Counter[tuple[int, str]] = collections.Counter()

    def quantum(self, station: Station) -> int:
        """Returns what one visit of the rotation adds to a station's deficit."""
        return self.settings["quantum"] * station.weight

    def deficit_when_picked(self, station: Station, class_: str) -> int:
        """Returns the deficit with which the rotation picks a station.

        It begins with one quantum, charges only lower it, and a quantum is added only to one that is 0 or
        less. So it never exceeds a quantum, and the pick has the only number from 1 to a quantum that differs
        from it by whole quanta. With `pending` none of this holds. """
        quantum = self.quantum(station)
        return (-station.used.get(class_, 0) - 1) % quantum + 1

    def quanta_when_picked(self, station: Station, class_: str) -> int:
        """Returns how many quanta the rotation has added since the station's join when it picks it."""
        quantum = self.quantum(station)
        return (self.deficit_when_picked(station, class_) - quantum + station.used.get(class_, 0)) // quantum

    def held(self, station: int, class_: str) -> int:
        """Returns how many frames of a station and class are not finished, by the answers up to now."""
        return self._held[station, class_]

    def _finish(self, frame: Frame, fate: str) -> None:
        """Notes the fate of a frame."""
        if not frame.fate:
            self._held[frame.station, CLASSES[frame.tid]] -= 1
        frame.fate = fate

    def exchanges_of(self, station: int) -> list[Exchange]:
        """Returns a station's open exchanges."""
        return [one for one in self.open.values() if one.station == station]

    def in_flight(self, station: int, class_: str, before: int | None = None) -> int:
        """Returns the computed airtime of a station's open exchanges of a class; with `before`, of those with
        a lower number. """
        own = [one for one in self.exchanges_of(station) if one.class_ == class_]
        return sum(one.air for one in own if before is None or one.number < before)

    def take(self, call: Call, reply: Reply) -> Exchange | None:
        """Notes a call and its answer. Returns the exchange that the call began or ended, or that it
        concerns."""
        if reply.refusal:
            return None
        noter = getattr(self, f"_{call.kind}", None)
        found: Exchange | None = noter(call, reply) if noter else None
        return found

    def _join(self, call: Call, _: Reply) -> None:
        number = call.number("station")
        self.stations[number] = Station(number, call.number("weight"))

    def _offload(self, call: Call, reply: Reply) -> None:
        self._join(call, reply)

    def _plain(self, call: Call, reply: Reply) -> None:
        self._join(call, reply)

    def _hold(self, call: Call, _: Reply) -> None:
        self.stations[call.number("station")].held.add(call.number("tid"))

    def _begin(self, call: Call, _: Reply) -> None:
        self.stations[call.number("station")].held.remove(call.number("tid"))

    def _free(self, call: Call, reply: Reply) -> None:
        self._begin(call, reply)

    def _cease(self, call: Call, reply: Reply) -> None:
        number, tid = call.number("station"), call.number("tid")
        for frame in self.frames.values():
            if (frame.station, frame.tid) == (number, tid) and frame.is_numbered and not frame.fate:
                self._finish(frame, "ended")
        self._hold(call, reply)

    def _weight(self, call: Call, _: Reply) -> None:
        station = self.stations[call.number("station")]
        station.weight, station.is_weighed = call.number("weight"), True

    def _leave(self, call: Call, _: Reply) -> None:
        number = call.number("station")
        del self.stations[number]
        for frame in self.frames.values():
            if frame.station == number and not frame.fate:
                self._finish(frame, "left")

    def _flush(self, call: Call, _: Reply) -> None:
        number, tid = call.number("station"), call.number("tid")
        on_air = {id_ for one in self.exchanges_of(number) for id_, _ in one.frames}
        for frame in self.frames.values():
            if (frame.station, frame.tid) == (number, tid) and not frame.fate and frame.id not in on_air:
                self._finish(frame, "flushed")

    def _tick(self, _: Call, reply: Reply) -> None:
        self.now = reply.number("now")

    def _enq(self, call: Call, reply: Reply) -> None:
        number = reply.number("id")
        frame = Frame(number, call.number("station"), call.number("tid"), call.number("length"))
        self.frames[number] = frame
        self._held[frame.station, CLASSES[frame.tid]] += 1
        if reply.fields["has_dropped"]:
            self._finish(self.frames[reply.number("dropped")], "overlimit")

    def _pull(self, _: Call, reply: Reply) -> Exchange:
        start = reply.number("start") if reply.fields["request"] else None
        numbers = (
            reply.number("exchange"), reply.number("station"), reply.number("tid"), reply.number("air")
        )
        exchange = Exchange(*numbers, self.now, reply.frames, start, bool(reply.fields["more"]), bool(reply.fields["eosp"]))
        exchange.is_batch, exchange.is_plain = "batch" in reply.fields, "plain" in reply.fields
        for id_, _number in exchange.frames:
            frame = self.frames[id_]
            exchange.again += frame.sent > 0
            frame.sent, frame.is_numbered = frame.sent + 1, True
        self.open[exchange.number] = exchange
        station = self.stations[exchange.station]
        station.quanta[exchange.class_] = self.quanta_when_picked(station, exchange.class_)
        exchange.is_served = station.is_served and exchange.class_ in station.delivery
        station.is_served = station.is_served and not exchange.eosp
        if not exchange.is_served or station.credit == exchange.class_:
            station.credit = ""
        return exchange

    def _arrive(self, call: Call, _: Reply) -> Exchange:
        exchange = self.open[call.number("exchange")]
        exchange.arrived.add(call.number("index"))
        return exchange

    def _answer(self, call: Call, reply: Reply) -> Exchange:
        exchange = self.open[call.number("exchange")]
        if exchange.is_plain:
            exchange.has_ack = True
        else:
            block = reply.fields["block"]
            exchange.block = block["start"], int("".join(block["bits"][::-1]), 16)
        return exchange

    def _unsent(self, call: Call, _: Reply) -> Exchange:
        exchange = self.open[call.number("exchange")]
        exchange.unsent.add(call.number("index"))
        return exchange

    def _giveup(self, call: Call, _: Reply) -> Exchange:
        exchange = self.open[call.number("exchange")]
        exchange.given_up.add(call.number("index"))
        return exchange

    def _done(self, call: Call, reply: Reply) -> Exchange:
        exchange = self.open.pop(call.number("exchange"))
        exchange.heard = bool(call.fields["heard"])
        exchange.air = call.number("air") or exchange.air
        self._charge(exchange.station, exchange.class_, exchange.air)
        for index, (id_, number) in enumerate(exchange.frames):
            frame = self.frames[id_]
            if index in exchange.unsent:
                frame.sent -= 1
                continue
            has_failed = exchange.is_plain and reply.number("failed") > 0
            frame.is_given_up = exchange.is_batch or has_failed or index in exchange.given_up
            is_shown = exchange.heard and exchange.shows(number)
            self._settle(frame, index in exchange.arrived if exchange.is_batch else is_shown)
        return exchange

    def _settle(self, frame: Frame, is_shown: bool) -> None:
        if is_shown:
            self._finish(frame, "acked")
        elif frame.is_given_up or frame.sent >= self.settings["attempts"]:
            self._finish(frame, "retries")

    def _charge(self, station: int, class_: str, air: int) -> None:
        used = self.stations[station].used
        used[class_] = used.get(class_, 0) + air

    def _sleep(self, call: Call, _: Reply) -> None:
        self.stations[call.number("station")].is_asleep = True

    def _wake(self, call: Call, _: Reply) -> None:
        station = self.stations[call.number("station")]
        station.is_asleep, station.credit, station.is_served = False, "", False

    def _apsd(self, call: Call, _: Reply) -> None:
        classes = frozenset(one for place, one in enumerate(NUMBERED) if call.number("classes") >> place & 1)
        self.stations[call.number("station")].delivery = classes

    def _trigger(self, call: Call, _: Reply) -> None:
        self.stations[call.number("station")].is_served = True

    def _eosp(self, call: Call, _: Reply) -> None:
        self.stations[call.number("station")].is_served = False

    def _poll(self, call: Call, reply: Reply) -> None:
        self.stations[call.number("station")].credit = str(reply.fields["class_"])

    def _stop(self, call: Call, _: Reply) -> None:
        self.stations[call.number("station")].is_stopped = True

    def _start(self, call: Call, _: Reply) -> None:
        self.stations[call.number("station")].is_stopped = False

    def _rx(self, call: Call, _: Reply) -> None:
        self._charge(call.number("station"), call.word("class_"), call.number("air"))

    def _reap(self, _: Call, reply: Reply) -> None:
        self._finish(self.frames.pop(reply.number("id")), str(reply.fields["fate"]))
