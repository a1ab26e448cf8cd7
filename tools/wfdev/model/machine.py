"""The thirty-five calls: MACHINE.md, from the table of calls to Several BSSs.

The method of a call begins with its refusals in the order of the table. A refused call raises `Refused`. It
changes nothing, except if it is `idle`.
"""
from collections import deque
from collections.abc import Collection
from dataclasses import dataclass, field

from wfdev.model.answers import (
    Accepted,
    Answer,
    Ba,
    Beacon,
    Ceased,
    Done,
    GroupSend,
    Number,
    Polled,
    Reaped,
    Refused,
    Released,
    Send,
    Triggered,
    Word,
    refuse,
)
from wfdev.model.codel import SLOW, USUAL
from wfdev.model.frames import CLASS_OF, CLASS_TIDS, NUMBERS, TIDS, Class, Fate, Frame
from wfdev.model.grammar import Call
from wfdev.model.group import Group
from wfdev.model.queues import Queues
from wfdev.model.rates import (
    Bounds,
    Control,
    Rate,
    control_mbps,
    is_single,
    is_slow,
    longest_computed,
    octets_alone,
    octets_of,
    octets_taken,
)
from wfdev.model.rotation import Rotation
from wfdev.model.session import End, Ended
from wfdev.model.settings import Settings
from wfdev.model.stations import Exchange, Mode, Station

MOST_TICK = 10_000_000
PLAIN_WINDOW, MOST_WINDOW, MOST_EXPONENT, MOST_WEIGHT, MOST_AIR = 1, 256, 3, 16, 65_535
AMPDUS = range(4096, 6_500_632)
MOST_CLASSES = 15
POLL_ORDER = (Class.VO, Class.VI, Class.BE, Class.BK)
# The methods whose names are not the words of their calls.
METHODS = {"group": "accept_group", "bss": "set_bss"}


@dataclass
class Machine:
    """The whole machine: the clock, stations, queues, rotations, exchanges and frames."""

    settings: Settings
    now: int = 0
    calls: int = 0
    stations: dict[int, Station] = field(default_factory=dict)
    queues: Queues = field(init=False)
    groups: list[Group] = field(init=False)
    rotations: dict[Class, Rotation] = field(default_factory=lambda: {one: Rotation() for one in Class})
    exchanges: dict[int, Exchange] = field(default_factory=dict)
    pulled: int = 0
    frames: list[Frame] = field(default_factory=list)
    finished: deque[Frame] = field(default_factory=deque)
    reaped: int = 0
    batches: dict[int, list[int]] = field(default_factory=dict)  # the numbers of each batch, which no answer has

    def __post_init__(self) -> None:
        self.queues = Queues(self.settings)
        self.groups = [Group(self.settings) for _ in range(max(1, self.settings.bsses))]

    def step(self, call: Call) -> Answer:
        """Makes a call. Refused or not, it is one entry of the history."""
        self.calls += 1
        try:
            answer: Answer = getattr(self, METHODS.get(call.name, call.name))(*call.values)
        except Refused as refused:
            return refused
        return answer

    # Refusals that several calls have.

    def numbered(self, station: int) -> None:
        """Refuses a station number that is too high."""
        refuse("bad-station", station >= self.settings.stations)

    def live(self, station: int) -> Station:
        """Returns a live station, or refuses the call."""
        refuse("no-station", station not in self.stations)
        return self.stations[station]

    def in_bss(self, bss: int) -> Group:
        """Returns the group frames of a BSS, or refuses the call."""
        refuse("bad-bss", bss >= len(self.groups))
        return self.groups[bss]

    def opened(self, exchange: int) -> Exchange:
        """Returns an open exchange, or refuses the call."""
        refuse("no-exchange", exchange not in self.exchanges)
        return self.exchanges[exchange]

    # Stations and clock.

    def join(self, station: int, window: int, start: int, exponent: int, weight: int = 1) -> Answer:
        """A station joins."""
        self.numbered(station)
        refuse("bad-window", not 1 <= window <= MOST_WINDOW)
        refuse("bad-start", start >= NUMBERS)
        refuse("bad-exponent", exponent > MOST_EXPONENT)
        refuse("bad-weight", not 1 <= weight <= MOST_WEIGHT)
        refuse("live", station in self.stations)
        return self.admit(Station(station, window, start, exponent, weight))

    def offload(self, station: int, exponent: int, weight: int = 1) -> Answer:
        """A station joins whose device numbers, aggregates and repeats its frames."""
        self.numbered(station)
        refuse("bad-exponent", exponent > MOST_EXPONENT)
        refuse("bad-weight", not 1 <= weight <= MOST_WEIGHT)
        refuse("live", station in self.stations)
        return self.admit(Station(station, MOST_WINDOW, 0, exponent, weight, mode=Mode.PLAIN, offloaded=True))

    def plain(self, station: int, start: int, exponent: int, weight: int = 1) -> Answer:
        """A station joins without agreements."""
        self.numbered(station)
        refuse("bad-start", start >= NUMBERS)
        refuse("bad-exponent", exponent > MOST_EXPONENT)
        refuse("bad-weight", not 1 <= weight <= MOST_WEIGHT)
        refuse("live", station in self.stations)
        return self.admit(Station(station, PLAIN_WINDOW, start, exponent, weight, mode=Mode.PLAIN))

    def admit(self, held: Station) -> Answer:
        """Makes a station live."""
        self.stations[held.number] = held
        for rotation in self.rotations.values():
            rotation.deficits[held.number] = self.quantum(held.number)
        self.list_ready(held.number)
        return Word("joined")

    def weight(self, station: int, weight: int) -> Answer:
        """A station has this weight from now on, and each of its deficits is at most what its quantum allows."""
        self.numbered(station)
        refuse("bad-weight", not 1 <= weight <= MOST_WEIGHT)
        self.live(station).weight = weight
        for access, rotation in self.rotations.items():
            longest = longest_computed(self.cap(access), self.settings.answers, self.settings.legacy)
            covered = (self.settings.inflight - 1) * longest
            most = self.quantum(station) + min(self.pending(station, access), covered)
            rotation.deficits[station] = min(rotation.deficits[station], most)
        self.list_ready(station)
        return Word("set")

    def leave(self, station: int) -> Answer:
        """A station leaves."""
        self.numbered(station)
        held = self.live(station)
        count = sum(one.station == station for one in self.exchanges.values())
        refuse("open", count > 0, count)
        frames: list[Frame] = []
        for tid, session in enumerate(held.sessions):
            frames += [session.slots[number].frame for number in session.waiting()]
            frames += self.queues.purge((station, tid))
        self.finish(frames, Fate.LEFT)
        for rotation in self.rotations.values():
            rotation.remove(station)
        del self.stations[station]
        return Number("left", len(frames))

    def flush(self, station: int, tid: int) -> Answer:
        """The frames of a TID that are not on the air are dropped."""
        self.numbered(station)
        refuse("bad-tid", tid >= TIDS)
        session = self.live(station).sessions[tid]
        frames = [session.fail(number) for number in session.waiting()]
        frames += self.queues.flush((station, tid))
        self.finish(frames, Fate.FLUSHED)
        self.stations[station].catch_up_if_plain(tid)
        self.list_ready(station)
        return Number("flushed", len(frames))

    # Agreements.

    def refuse_open(self, station: int, tid: int) -> None:
        """Refuses a call on a TID with open exchanges."""
        count = sum((one.station, one.tid) == (station, tid) for one in self.exchanges.values())
        refuse("open", count > 0, count)

    def hold(self, station: int, tid: int) -> Answer:
        """No frame of a TID gets a number from now on."""
        self.numbered(station)
        refuse("bad-tid", tid >= TIDS)
        held = self.live(station)
        refuse("offloaded", held.offloaded)
        refuse("agreed", held.modes[tid] is Mode.AGREED)
        refuse("held", held.modes[tid] is Mode.HELD)
        refuse("legacy", is_single(held.rate))
        held.modes[tid] = Mode.HELD
        self.list_ready(station)
        return Number("held", held.sessions[tid].next % NUMBERS)

    def begin(self, station: int, tid: int, window: int) -> Answer:
        """A held TID has an agreement with this window from now on."""
        self.numbered(station)
        refuse("bad-tid", tid >= TIDS)
        refuse("bad-window", not 1 <= window <= MOST_WINDOW)
        held = self.live(station)
        refuse("not-held", held.modes[tid] is not Mode.HELD)
        self.refuse_open(station, tid)
        waiting = len(held.sessions[tid].waiting())
        refuse("waits", waiting > 0, waiting)
        held.catch_up(tid)
        held.resize(tid, window)
        held.modes[tid] = Mode.AGREED
        self.list_ready(station)
        return Word("begun")

    def free(self, station: int, tid: int) -> Answer:
        """A held TID sends its frames one at a time from now on."""
        self.numbered(station)
        refuse("bad-tid", tid >= TIDS)
        held = self.live(station)
        refuse("not-held", held.modes[tid] is not Mode.HELD)
        held.modes[tid] = Mode.PLAIN
        self.list_ready(station)
        return Word("freed")

    def cease(self, station: int, tid: int) -> Answer:
        """The agreement of a TID ends, and the TID is held."""
        self.numbered(station)
        refuse("bad-tid", tid >= TIDS)
        held = self.live(station)
        refuse("not-agreed", held.modes[tid] is not Mode.AGREED)
        self.refuse_open(station, tid)
        session = held.sessions[tid]
        frames = [session.fail(number) for number in session.waiting()]
        self.finish(frames, Fate.ENDED)
        passed = held.catch_up(tid)
        held.resize(tid, PLAIN_WINDOW)
        held.modes[tid] = Mode.HELD
        self.list_ready(station)
        return Ceased(len(frames), tuple(passed))

    def rate(self, station: int, rate: Rate) -> Answer:
        """A station is sent to at this rate from now on."""
        self.numbered(station)
        refuse("bad-rate", not rate.exists() or rate.legacy > self.settings.legacy)
        held = self.live(station)
        refuse("agreed", is_single(rate) and any(mode is not Mode.PLAIN for mode in held.modes))
        held.rate = rate
        self.list_ready(station)
        return Word("set")

    def ampdu(self, station: int, octets: int) -> Answer:
        """A station takes VHT and HE aggregates of at most this many octets from now on."""
        self.numbered(station)
        refuse("bad-ampdu", octets not in AMPDUS)
        self.live(station).ampdu = octets
        self.list_ready(station)
        return Word("set")

    def stop(self, station: int) -> Answer:
        """No pull picks a station from now on."""
        self.numbered(station)
        held = self.live(station)
        refuse("stopped", held.stopped)
        held.stopped = True
        self.list_ready(station)
        return Word("stopped")

    def start(self, station: int) -> Answer:
        """Pulls may pick a station again."""
        self.numbered(station)
        held = self.live(station)
        refuse("started", not held.stopped)
        held.stopped = False
        self.list_ready(station)
        return Word("started")

    def tick(self, by: int) -> Answer:
        """The clock moves on."""
        refuse("bad-tick", by > MOST_TICK)
        self.now += by
        return Number("now", self.now)

    # Enqueueing a frame.

    def enq(self, station: int, tid: int, flow: int, length: int) -> Answer:
        """A frame comes for a station."""
        self.numbered(station)
        refuse("bad-tid", tid >= TIDS)
        held = self.live(station)
        inside = len(self.frames) - self.reaped
        refuse("room", inside >= self.settings.room, inside)
        queued = sum(self.queues.frames((station, one)) for one in CLASS_TIDS[CLASS_OF[tid]])
        refuse("sleeping", held.asleep and queued >= self.settings.sleeping, queued)
        frame = Frame(len(self.frames), length, self.now, flow)
        self.frames.append(frame)
        dropped = self.queues.put((station, tid), frame)
        if dropped is not None:
            self.finish([dropped], Fate.OVERLIMIT)
        self.list_ready(station)
        return Accepted(frame.id, None if dropped is None else dropped.id)

    def finish(self, frames: list[Frame], fate: Fate) -> None:
        """Gives frames their fate, and puts them last on the finished list."""
        for frame in frames:
            frame.fate = fate
            self.finished.append(frame)

    # The pick, and who is ready.

    def quantum(self, station: int) -> int:
        """Returns the quantum of a station."""
        return self.settings.quantum * self.stations[station].weight

    def can_send(self, station: int, tid: int) -> bool:
        """Returns whether a TID can send."""
        held = self.stations[station]
        session = held.sessions[tid]
        if session.request_is_due():
            of_tid = [one for one in self.exchanges.values() if (one.station, one.tid) == (station, tid)]
            return all(one.request is None for one in of_tid)
        return bool(session.waiting()) or self.can_give(held, tid)

    def can_give(self, held: Station, tid: int) -> bool:
        """Returns whether a queued frame of a TID can get a number."""
        has_place = held.modes[tid] is not Mode.HELD and held.sessions[tid].has_room()
        return has_place and self.queues.frames((held.number, tid)) > 0

    def is_ready(self, station: int, access: Class) -> bool:
        """Returns whether a station is ready in a class."""
        held = self.stations.get(station)
        if held is None or held.stopped:
            return False
        if held.asleep and held.credit is not access and not held.is_served(access):
            return False
        if 0 < self.settings.aql <= self.in_flight(station, access):
            return False
        return self.can_send_in(station, access)

    def can_send_in(self, station: int, access: Class) -> bool:
        """Returns whether a TID of a class can send."""
        return any(self.can_send(station, tid) for tid in CLASS_TIDS[access])

    def in_flight(self, station: int, access: Class) -> int:
        """Returns the computed airtime of the open exchanges of a station in a class."""
        own = [one for one in self.exchanges.values() if one.station == station]
        return sum(one.charge for one in own if CLASS_OF[one.tid] is access)

    def pending(self, station: int, access: Class) -> int:
        """Returns the airtime in flight that counts against the deficit of a station in a class."""
        return self.in_flight(station, access) if self.settings.pending else 0

    def is_debtor(self, station: int, access: Class) -> bool:
        """Returns whether a station has nothing left to use in a class, with the setting `pending`."""
        if not self.settings.pending or station not in self.stations:
            return False
        return self.rotations[access].deficits[station] <= self.pending(station, access)

    def list_ready(self, station: int) -> None:
        """Lists the station that a call concerned in each class in which it is unlisted and is ready or a debtor."""
        for access, rotation in self.rotations.items():
            is_ready = self.is_ready(station, access)
            if not rotation.lists(station) and (is_ready or self.is_debtor(station, access)):
                rotation.add(station, old=not is_ready)

    # Pull.

    def pull(self, access: str, frames: int | None = None, air: int | None = None) -> Answer:
        """The driver asks for the next exchange of a class, with at most these frames and this airtime."""
        one = Class(access)
        count = sum(CLASS_OF[exchange.tid] is one for exchange in self.exchanges.values())
        refuse("full", count >= self.settings.inflight, count)
        owed = sum(exchange.charge for exchange in self.exchanges.values())
        refuse("ahead", 0 < self.settings.aql_total <= owed, owed)
        winner = self.picked(one)
        if winner is None:
            raise Refused("idle")
        held = self.stations[winner]
        tid = held.turns[one]
        other = next(other for other in CLASS_TIDS[one] if other != tid)
        if not self.can_send(winner, tid):
            tid, other = other, tid
        held.turns[one] = other
        agg, cap = self.settings.agg, self.cap(one)
        most = min(agg, agg if frames is None else frames)
        return self.send(held, tid, most, min(cap, cap if air is None else air))

    def cap(self, access: Class) -> int:
        """Returns the setting for the airtime of an aggregate of a class."""
        of_class = {Class.VI: self.settings.cap_vi, Class.VO: self.settings.cap_vo}
        return of_class.get(access, 0) or self.settings.cap

    def picked(self, access: Class) -> int | None:
        """Returns the station that is picked in a class, if any. With `pending`, nothing changes if none is ready."""
        rotation = self.rotations[access]
        is_any_ready = any(self.is_ready(station, access) for station in rotation.keys())
        if self.settings.pending and not is_any_ready:
            return None
        return rotation.pick(
            self.quantum,
            lambda station: self.is_ready(station, access),
            lambda station: self.pending(station, access),
        )

    def send(self, held: Station, tid: int, most: int, cap: int) -> Answer:
        """Makes the exchange of a TID that can send, an aggregate within these bounds."""
        session, overhead = held.sessions[tid], self.settings.overhead
        control = Control(control_mbps(held.rate, self.settings.answers), session.is_wide)
        number, self.pulled = self.pulled, self.pulled + 1
        if session.request_is_due():
            exchange = Exchange(held.number, tid, control.request_charge, [], session.start)
        else:
            octets = octets_taken(held.rate, held.exponent, held.ampdu)
            agg = self.most_frames(held, CLASS_OF[tid], most)
            numbers = self.aggregate(held, tid, Bounds(agg, octets, held.rate, cap, overhead))
            lengths = [session.length(one) for one in numbers]
            if held.is_plain(tid) or is_single(held.rate):
                charge = held.rate.time(octets_alone(held.rate, lengths[0], overhead)) + control.ack_time
            else:
                charge = held.rate.time(octets_of(lengths, overhead)) + control.answer_time
            exchange = Exchange(held.number, tid, charge, numbers, plain=held.is_plain(tid))
        exchange.batch = held.offloaded
        if exchange.batch:
            self.batches[number] = exchange.numbers
        self.exchanges[number] = exchange
        pairs = tuple((session.slots[one].frame.id, one) for one in exchange.numbers)
        more, eosp = self.told(held, CLASS_OF[tid], exchange)
        self.spend(held, CLASS_OF[tid], len(exchange.numbers), eosp)
        self.list_ready(held.number)
        return Send(
            number,
            held.number,
            tid,
            exchange.charge,
            pairs,
            exchange.request,
            exchange.batch,
            exchange.plain,
            more,
            eosp,
        )

    def most_frames(self, held: Station, access: Class, most: int) -> int:
        """Returns the most frames of an exchange of a class to a station: one by a poll, and what is left by a trigger."""
        is_served = held.is_served(access)
        if is_single(held.rate) or (held.asleep and not is_served):
            return 1
        return min(most, held.service) if is_served and held.service else most

    def told(self, held: Station, access: Class, exchange: Exchange) -> tuple[bool, bool]:
        """Returns the More Data bit and the EOSP bit of an exchange."""
        if not held.asleep or exchange.request is not None:
            return False, False
        is_served = held.is_served(access)
        more = self.holds_more(held, held.delivery if is_served else held.polled)
        return more, is_served and (held.is_used_up(len(exchange.numbers)) or not more)

    def spend(self, held: Station, access: Class, frames: int, eosp: bool) -> None:
        """An exchange of a class spends the credit of a poll, or frames of the service period."""
        is_served = held.is_served(access)
        if is_served and eosp:
            held.service = None
        elif is_served and held.service:
            held.service -= frames
        if not is_served or held.credit is access:
            held.credit = None

    def aggregate(self, held: Station, tid: int, bounds: Bounds) -> list[int]:
        """Makes an aggregate of waiting numbers and fresh frames, and returns its numbers."""
        session = held.sessions[tid]
        numbers: list[int] = []
        all_fit = True
        for number in session.waiting():
            all_fit = all_fit and bounds.fits([session.length(one) for one in [*numbers, number]])
            if all_fit:
                numbers.append(number)
        while all_fit and len(numbers) < bounds.agg and self.can_give(held, tid):
            number = session.add(self.take(held, tid))
            all_fit = bounds.fits([session.length(one) for one in [*numbers, number]])
            if all_fit:
                numbers.append(number)
        for number in numbers:
            session.fly(number)
        return numbers

    def take(self, held: Station, tid: int) -> Frame:
        """Takes the next frame of a TID."""
        parameters = SLOW if is_slow(held.rate) else USUAL
        frame, dropped = self.queues.take((held.number, tid), self.now, parameters)
        self.finish(dropped, Fate.CODEL)
        return frame

    # Exchanges.

    def arrive(self, exchange: int, index: int) -> Answer:
        """One transmission of an exchange reached its station."""
        one = self.opened(exchange)
        refuse("bad-index", index >= one.transmissions)
        refuse("answered", one.answer is not None)
        refuse("arrived", index in one.arrived)
        refuse("marked", index in one.unsent)
        one.arrived.add(index)
        held = self.stations[one.station]
        receiver = held.receivers[one.tid]
        if one.request is not None:
            passed = receiver.request(one.request)
        else:
            number = one.numbers[index]
            passed = receiver.data(number, held.sessions[one.tid].slots[number].frame.id)
        self.list_ready(one.station)
        return Released(() if one.batch else tuple(passed))

    def answer(self, exchange: int) -> Answer:
        """The station answers an exchange with a BlockAck, or an Ack."""
        one = self.opened(exchange)
        refuse("answered", one.answer is not None)
        refuse("nothing", one.batch or not one.arrived)
        held = self.stations[one.station]
        one.answer = held.receivers[one.tid].answer()
        self.list_ready(one.station)
        return Word("ack") if one.plain else Ba(one.answer, held.sessions[one.tid].is_wide)

    def unsent(self, exchange: int, index: int) -> Answer:
        """One transmission of an exchange never went on the air."""
        one = self.opened(exchange)
        refuse("bad-index", index >= one.transmissions)
        refuse("answered", one.answer is not None)
        refuse("arrived", index in one.arrived)
        refuse("marked", one.has_mark(index))
        one.unsent.add(index)
        self.list_ready(one.station)
        return Word("marked")

    def giveup(self, exchange: int, index: int) -> Answer:
        """The device will not try one transmission of an exchange again."""
        one = self.opened(exchange)
        refuse("bad-index", index >= one.transmissions)
        refuse("marked", one.has_mark(index))
        one.given_up.add(index)
        self.list_ready(one.station)
        return Word("marked")

    def done(self, exchange: int, heard: str, air: int | None = None) -> Answer:
        """An exchange ends, with its answer heard or lost."""
        one = self.opened(exchange)
        refuse("no-answer", heard == "heard" and not one.batch and one.answer is None)
        refuse("bad-air", air is not None and not 1 <= air <= self.settings.charge)
        del self.exchanges[exchange]
        self.charge(one, one.charge if air is None else air)
        session = self.stations[one.station].sessions[one.tid]
        answer = one.answer if heard == "heard" else None
        if one.request is not None and answer is not None:
            session.hear_request(one.request)
        ended = {Ended.ACKED: 0, Ended.WAITING: 0, Ended.FAILED: 0}
        for index, number in enumerate(one.numbers):
            frame = session.slots[number].frame
            end = one.end_of(index, answer)
            if one.plain and end is End.MISSED and session.is_far(number):
                end = End.GIVEN_UP
            how = session.end(number, end, self.settings.attempts)
            ended[how] += 1
            if how is not Ended.WAITING:
                self.finish([frame], Fate.ACKED if how is Ended.ACKED else Fate.RETRIES)
        self.stations[one.station].catch_up_if_plain(one.tid)
        self.list_ready(one.station)
        return Done(ended[Ended.ACKED], ended[Ended.WAITING], ended[Ended.FAILED])

    def charge(self, one: Exchange, air: int) -> None:
        """Charges the airtime of an exchange."""
        access = CLASS_OF[one.tid]
        self.rotations[access].deficits[one.station] -= air
        self.stations[one.station].charged[access] += air

    # Receive charges.

    def rx(self, station: int, access: str, air: int) -> Answer:
        """A station used airtime to send in a class."""
        self.numbered(station)
        refuse("bad-air", not 1 <= air <= MOST_AIR)
        held = self.live(station)
        one = Class(access)
        deficits = self.rotations[one].deficits
        refuse("debt", deficits[station] - air < -self.settings.debt, deficits[station])
        deficits[station] -= air
        held.received[one] += air
        self.list_ready(station)
        return Number("charged", deficits[station])

    # Power save.

    def sleep(self, station: int) -> Answer:
        """A station goes to sleep."""
        self.numbered(station)
        held = self.live(station)
        refuse("asleep", held.asleep)
        held.asleep = True
        self.list_ready(station)
        return Word("slept")

    def wake(self, station: int) -> Answer:
        """A station wakes."""
        self.numbered(station)
        held = self.live(station)
        refuse("awake", not held.asleep)
        held.asleep, held.credit, held.service = False, None, None
        self.list_ready(station)
        return Word("woken")

    def poll(self, station: int) -> Answer:
        """A sleeping station asks for one frame."""
        self.numbered(station)
        held = self.live(station)
        refuse("awake", not held.asleep)
        is_spent = self.settings.credits == 1 and held.credit is not None and not self.can_send_in(station, held.credit)
        refuse("polled", held.credit is not None and not is_spent)
        can = [one for one in POLL_ORDER if one in held.polled and self.can_send_in(station, one)]
        refuse("nothing", not can)
        held.credit = can[0]
        self.list_ready(station)
        return Polled(can[0])

    def apsd(self, station: int, classes: int, most: int) -> Answer:
        """A station has these delivery-enabled classes, and this most of frames of a service period, from now on."""
        self.numbered(station)
        refuse("bad-classes", classes > MOST_CLASSES)
        held = self.live(station)
        refuse("asleep", held.asleep)
        held.delivery = frozenset(one for place, one in enumerate(Class.__members__.values()) if classes >> place & 1)
        held.most = most
        self.list_ready(station)
        return Word("set")

    def trigger(self, station: int) -> Answer:
        """A sleeping station asks for a service period."""
        self.numbered(station)
        held = self.live(station)
        refuse("awake", not held.asleep)
        refuse("polled", held.service is not None)
        can = [one for one in POLL_ORDER if one in held.delivery and self.can_send_in(station, one)]
        refuse("nothing", not can)
        held.service = held.most
        self.list_ready(station)
        return Triggered(can[0])

    def eosp(self, station: int) -> Answer:
        """The device ended a service period by a frame without data."""
        self.numbered(station)
        held = self.live(station)
        refuse("nothing", held.service is None)
        held.service = None
        self.list_ready(station)
        return Word("ended")

    def holds_more(self, held: Station, classes: Collection[Class]) -> bool:
        """Returns whether a station has a waiting number or a queued frame on some TID of these classes."""
        tids = [tid for one in classes for tid in CLASS_TIDS[one]]
        return any(held.sessions[tid].waiting() or self.queues.frames((held.number, tid)) for tid in tids)

    def announced(self, bss: int) -> list[int]:
        """Returns the AIDs whose bits the TIM of a BSS has set."""
        asleep = [held for held in self.stations.values() if held.asleep and held.bss == bss]
        return [held.number + 1 for held in asleep if self.holds_more(held, held.polled)]

    def reap(self) -> Answer:
        """The caller takes the next finished frame."""
        refuse("nothing", not self.finished)
        frame = self.finished.popleft()
        self.reaped += 1
        return Reaped(frame.id, frame.fate)

    # Group frames, each of a BSS.

    def set_bss(self, station: int, bss: int) -> Answer:
        """A station is of this BSS from now on."""
        self.numbered(station)
        self.in_bss(bss)
        held = self.live(station)
        refuse("asleep", held.asleep)
        held.bss = bss
        self.list_ready(station)
        return Word("set")

    def sleeps(self, bss: int) -> bool:
        """Returns whether a station of a BSS sleeps."""
        return any(held.asleep and held.bss == bss for held in self.stations.values())

    def accept_group(self, length: int, bss: int = 0) -> Answer:
        """A group frame comes."""
        group = self.in_bss(bss)
        queued = len(group.queued)
        refuse("buffered", queued >= self.settings.buffered, queued)
        return Number("queued", group.accept(length))

    def beacon(self, bss: int = 0) -> Answer:
        """A beacon goes out."""
        group = self.in_bss(bss)
        group.beacon()
        return Beacon(group.count, group.announced)

    def gpull(self, bss: int = 0) -> Answer:
        """The driver asks for the next group frame."""
        group, sleeps = self.in_bss(bss), self.sleeps(bss)
        refuse("flying", group.flying is not None)
        refuse("idle", not group.may_go(sleeps))
        frame = group.pull()
        assert frame.number is not None
        more = sleeps and group.may_go(sleeps)
        return GroupSend(frame.id, frame.number, group.time(frame), more)

    def gdone(self, bss: int = 0) -> Answer:
        """The transmission of the group frame on the air ended."""
        group = self.in_bss(bss)
        refuse("nothing", group.flying is None)
        return Number("gdone", group.done())
