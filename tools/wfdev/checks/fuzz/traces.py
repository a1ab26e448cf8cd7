"""Draws valid traces of all calls, with settings and arguments at their edges. Most calls are not refused."""
import itertools
import random
from collections.abc import Iterator, Mapping, Sequence
from dataclasses import dataclass, field

from wfdev.model.calls import FORMS
from wfdev.model.codel import SLOW, USUAL
from wfdev.model.frames import CLASS_OF, NUMBERS, Class
from wfdev.model.grammar import LONGEST_LINE, Argument, NumberIn, OneOf
from wfdev.model.machine import MOST_AIR, MOST_TICK, Machine
from wfdev.model.rates import CARRIERS, DSSS_RATES, MOST_MCS, OFDM_RATES, SYMBOL, Format
from wfdev.model.settings import RANGES
from wfdev.model.session import FAR
from wfdev.model.stations import Exchange, Mode
from wfdev.model.text import Player

GUARDS = {800: "long", 400: "short"}
# Values of a setting that are drawn often, besides its least, its most, and any.
LIKELY = {
    "stations": (2, 4, 17),
    "flows": (1, 2, 3, 8),
    "limit": (1, 2, 5, 20, 60),
    "room": (1, 3, 20, 100),
    "inflight": (2, 3, 8),
    "attempts": (1, 2, 3),
    "agg": (1, 2, 4, 64),
    "sleeping": (1, 2, 3),
    "charge": (1, 3000, 65_535),
    "debt": (0, 1, 300, 20_000, 65_535),
    "aql": (1, 80, 2000, 4000),
    "pending": (1,),
    "overhead": (8, 16, 32),
    "cap_vi": (1, 300, 2000),
    "cap_vo": (1, 300, 1000),
    "answers": (1,),
    "credits": (1,),
    "legacy": (1, 2, 2),
    "period": (1, 2, 3),
    "buffered": (1, 2, 8, 128),
    "bsses": (1, 2, 2, 3),
}
# How often a setting is in a head, if not three times in ten. With little room most calls do nothing.
CHANCE = {"stations": 0.6, "room": 0.06, "limit": 0.25, "calls": 0.0, "pending": 0.6, "buffered": 0.5}
WAITING = {"stations": 0.6, "room": 0.0, "limit": 0.0, "calls": 0.0, "agg": 0.8, "pending": 0.6}
# Settings with which numbers go far in few calls.
FAR_OFF = {**dict.fromkeys(RANGES, 0.0), "stations": 0.6, "attempts": 0.9, "overhead": 0.3, "answers": 0.3, "pending": 0.3}
ROUND = 32  # numbers of an aggregate with the standard settings
WINDOWS = (1, 2, 3, 8, 63, 64, 65, 100, 255, 256)
BAD_WINDOWS = (0, 257, 65_535)
STARTS = (0, 1, 100, 4000, 4090, 4094, 4095)
TICKS = (0, 1, 1000, 5000, 19_999, 20_000, 20_001, 50_000, 99_999, 100_000, 300_000, 1_600_000, 10_000_000)
SOME = (*range(10), 16, 17, 20, 40, 64, 80, 160, 256, 257, 800, 1600, 4095, 4096, 10_000_000, 10_000_001)
LENGTHS = (1, 2, 64, 100, 700, 1500, 1500, 2303, 2304)
AIRS = (1, 100, 5000, 65_535)
OCTETS = (4095, 4096, 8192, 20_000, 65_535, 1_048_575, 6_500_631, 6_500_632)
FRAMES = (1, 1, 2, 3, 8, 64, 65_535)
LIMITS = (1, 40, 100, 300, 1000, 3000, 3001, 2**32 - 1)
KINDS = (
    "join leave rate ampdu weight tick burst pull arrive answer done unsent giveup flush play back sleep wake poll stop start "
    "rx reap agree hold begin free cease far group beacon bss apsd trigger eosp wild"
).split()


def head(draw: random.Random, chances: Mapping[str, float]) -> str:
    """Returns a head with some settings, by the chance of each."""
    line = "cell"
    for name, values in draw.sample(list(RANGES.items()), len(RANGES)):
        if draw.random() < chances.get(name, 0.3):
            edge = draw.choice((values[0], values[-1], draw.choice(values)))
            value = draw.choice((*LIKELY.get(name, ()), edge))
            if len(f"{line} {name}={value}") <= LONGEST_LINE:
                line += f" {name}={value}"
    return line


def rate_words(draw: random.Random) -> str:
    """Returns the words of a rate, or of numbers that are none."""
    if draw.random() < 0.3:
        name, speeds = draw.choice((("ofdm", OFDM_RATES), ("dsss", DSSS_RATES)))
        return f"{name} {draw.choice(speeds) if draw.random() < 0.9 else draw.choice((0, 1, 7, 255))}"
    form = draw.choice(list(Format))
    is_good = draw.random() < 0.9
    mcs = draw.choice((0, 0, 7, draw.randint(0, MOST_MCS[form]), MOST_MCS[form] + (not is_good)))
    width = draw.choice((20, 20, *CARRIERS[form]) if is_good else (0, 20, 30, 80, 160, 255))
    guard = draw.choice(list(SYMBOL[form] if is_good else SYMBOL[Format.VHT]))
    streams = draw.choice((1, 1, 2, draw.randint(1, 8)) if is_good else (0, 1, 9, 255))
    if form is Format.HT:
        return f"{mcs} {width} {GUARDS[guard]}"
    return f"{form.value} {mcs} {width} {guard if form is Format.HE else GUARDS[guard]} {streams}"


def word_for(draw: random.Random, argument: Argument, usual: Sequence[int]) -> str:
    """Returns a word that the grammar takes for an argument: often a usual one, or one at an edge."""
    if isinstance(argument, OneOf):
        return draw.choice(argument.words)
    assert isinstance(argument, NumberIn)
    least, most = argument.values[0], argument.values[-1]
    taken = [number for number in usual if number in argument.values]
    return str(draw.choice((*taken, *taken, least, least + 1, most, draw.randint(least, most))))


def wild(draw: random.Random, usual: Sequence[int]) -> str:
    """Returns any call with any words that its grammar takes."""
    name, forms = draw.choice(list(FORMS.items()))
    form = draw.choice(list(forms))
    count = len(form.arguments) - draw.randint(0, form.optional)
    return " ".join([name, *(word_for(draw, argument, usual) for argument in form.arguments[:count])])


@dataclass
class Maker:
    """Makes a trace. It plays the trace on the model, so that it knows which calls are of use."""

    draw: random.Random
    goes_far: bool = False  # whether numbers go far above the last acknowledged one, which takes some thousand calls
    player: Player = field(default_factory=Player)
    lines: list[str] = field(default_factory=list)
    weights: list[float] = field(init=False)

    def __post_init__(self) -> None:
        draw = self.draw
        does_wait = not self.goes_far and draw.random() < 0.35
        self.write(head(draw, FAR_OFF if self.goes_far else WAITING if does_wait else CHANCE))
        self.weights = [draw.choice((0.05, 0.3, 1, 1, 3)) for _ in KINDS]
        self.set_weights(join=0.1, leave=0.05, rate=0.2, sleep=0.15, wake=0.3, poll=0.4)
        self.set_weights(play=3.0, answer=0.4, rx=0.1, reap=0.3, wild=0.05, ampdu=0.1, stop=0.1, start=0.3)
        self.set_weights(unsent=0.2, giveup=0.2, flush=0.15, weight=0.3, back=2.0)
        self.set_weights(group=0.3, beacon=0.3, bss=0.2)
        self.set_weights(apsd=draw.choice((0.0, 0.3, 2.0)), trigger=0.6, eosp=0.05)
        self.set_weights(agree=draw.choice((0.0, 0.3, 3.0)), hold=0.05, begin=0.05, free=0.05, cease=0.05, far=0.0)
        count = self.machine.settings.stations
        drawn = [draw.randrange(count) for _ in range(draw.choice((1, 2, 3, 6)))]
        self.stations = sorted({*drawn, count - 1})
        self.flows = draw.choice((1, 3, 20))
        self.tids = draw.choice(([0], [0, 3], [0, 1, 2], list(range(8))))
        self.lengths = draw.choice(((1500,), LENGTHS, (1, 60), (2304,)))
        self.ticks = draw.choice((TICKS, TICKS[:4], TICKS[2:9]))
        self.arrives, self.hears = draw.choice((1.0, 0.9, 0.5, 0.1)), draw.choice((1.0, 0.9, 0.5, 0.1))
        self.windows = draw.choice((WINDOWS, (64,), (1, 2, 3), (256, 65)))
        self.exponent = draw.choice((None, 3))
        self.marks = draw.choice((0.0, 0.05, 0.2, 0.5))
        self.offloads = draw.choice((0.0, 0.3, 1.0))
        self.plains = draw.choice((0.0, 0.5, 1.0))
        self.bursts: Sequence[int] = (1, 1, 2, 5, 20)
        self.most_queued = 10_000
        if does_wait:
            self.wait_long()
        if self.goes_far:
            self.go_far()

    def go_far(self) -> None:
        """Has numbers of few stations fail until they are far above the last acknowledged one."""
        self.offloads, self.plains, self.windows, self.lengths = 0.0, 0.2, (256,), (1,)
        self.weights[KINDS.index("far")] = 1.0
        self.set_weights(burst=5, play=10, agree=2)

    def wait_long(self) -> None:
        """Has frames of few flows wait so long that CoDel drops some."""
        self.weights = [0.05] * len(KINDS)
        self.set_weights(tick=40, burst=20, play=60, leave=4, sleep=0.1, wild=0.2, far=0.0)
        self.stations = self.stations[: self.draw.randint(1, 2)]
        self.bursts, self.most_queued = (1, 2, 5, 20), self.draw.choice((4, 10, 40))
        self.flows, self.tids = self.draw.choice((1, 2)), self.draw.choice(([0], [0, 3]))
        self.lengths = self.draw.choice(((1500,), (1152,), (2304, 1), (768, 1536)))
        self.ticks = self.draw.choice(((1, 1000, 5000), (5000, 20_000, 50_000), (50_000, 100_000)))
        self.arrives = self.hears = 1.0
        self.marks = 0.0

    def set_weights(self, **factors: float) -> None:
        """Multiplies the weights of some kinds."""
        for kind, factor in factors.items():
            self.weights[KINDS.index(kind)] *= factor

    @property
    def machine(self) -> Machine:
        """The model's machine."""
        assert self.player.machine is not None
        return self.player.machine

    def write(self, line: str) -> str:
        """Adds a line, and returns the model's answer."""
        self.lines.append(line)
        return self.player.play(line.encode())

    def station(self) -> int:
        """Returns mostly a station that is live."""
        live = list(self.machine.stations)
        return self.draw.choice(live if live and self.draw.random() < 0.97 else self.stations)

    def exchange(self) -> int:
        """Returns mostly an open exchange."""
        opened = list(self.machine.exchanges)
        is_open = bool(opened) and self.draw.random() < 0.97
        return self.draw.choice(opened) if is_open else max(0, self.machine.pulled - 1)

    def access(self) -> Class:
        """Returns a class, mostly one that lists a station."""
        listed = [one for one, rotation in self.machine.rotations.items() if rotation.keys()]
        return self.draw.choice(listed if listed and self.draw.random() < 0.9 else list(Class))

    def event(self) -> Iterator[str]:
        """Yields the lines of the next event."""
        (kind,) = self.draw.choices(KINDS, self.weights)
        if not self.machine.stations and self.draw.random() < 0.7:
            kind = "join"
        yield from getattr(self, f"make_{kind}")()

    def make_join(self) -> Iterator[str]:
        """Yields a join, mostly of a station that is not live."""
        out = [one for one in self.stations if one not in self.machine.stations]
        station = self.draw.choice(out if out and self.draw.random() < 0.95 else self.stations)
        exponent = self.draw.randint(0, 3) if self.exponent is None else self.exponent
        weight = self.draw.choice(("", "", " 1", " 2", " 3", " 16"))
        if self.draw.random() < self.offloads:
            yield f"offload {station} {exponent}{weight}"
            return
        if self.draw.random() < self.plains:
            yield f"plain {station} {self.draw.choice(STARTS)} {exponent}{weight}"
            return
        yield f"join {station} {self.window()} {self.draw.choice(STARTS)} {exponent}{weight}"

    def window(self) -> int:
        """Returns a window, mostly a good one."""
        return self.draw.choice(self.windows if self.draw.random() < 0.97 else BAD_WINDOWS)

    def make_agree(self) -> Iterator[str]:
        """Yields the next step of an agreement of a TID, often after the exchanges that are in its way are over."""
        station, tid = self.station(), self.draw.choice(self.tids)
        held = self.machine.stations.get(station)
        if held is None or (held.offloaded and self.draw.random() < 0.9):
            return
        if held.modes[tid] is Mode.PLAIN:
            yield f"hold {station} {tid}"
        elif self.draw.random() < 0.8:
            yield from self.over(station, tid)
        if held.modes[tid] is Mode.AGREED:
            yield f"cease {station} {tid}"
        elif self.draw.random() < 0.8:
            if held.sessions[tid].waiting() and self.draw.random() < 0.5:
                yield f"flush {station} {tid}"
            yield f"begin {station} {tid} {self.window()}"
        else:
            yield f"free {station} {tid}"

    def over(self, station: int, tid: int) -> Iterator[str]:
        """Yields the ends of the open exchanges of a TID."""
        for number, one in list(self.machine.exchanges.items()):
            if (one.station, one.tid) == (station, tid):
                yield f"done {number} {'lost' if one.answer is None else 'heard'}"

    def make_hold(self) -> Iterator[str]:
        """Yields a hold."""
        yield f"hold {self.station()} {self.draw.choice(self.tids)}"

    def make_begin(self) -> Iterator[str]:
        """Yields the begin of an agreement."""
        yield f"begin {self.station()} {self.draw.choice(self.tids)} {self.window()}"

    def make_free(self) -> Iterator[str]:
        """Yields a free."""
        yield f"free {self.station()} {self.draw.choice(self.tids)}"

    def make_cease(self) -> Iterator[str]:
        """Yields the end of an agreement."""
        yield f"cease {self.station()} {self.draw.choice(self.tids)}"

    def make_far(self) -> Iterator[str]:
        """Yields calls after which the numbers of a TID are about 2,048 or 4,096 above the last acknowledged one."""
        station, tid = self.station(), self.draw.choice(self.tids)
        held = self.machine.stations.get(station)
        if held is None or held.offloaded or held.modes[tid] is not Mode.AGREED:
            return
        session, least = held.sessions[tid], self.draw.choice((FAR, FAR, NUMBERS)) - self.draw.choice((1, 2, 3, 4))
        for _ in range(NUMBERS // ROUND):
            left = least - (session.next - session.acked)
            if left <= 0:
                break
            yield from [f"enq {station} {tid} 0 1"] * min(left, ROUND)
            yield f"pull {CLASS_OF[tid]} frames {min(left, ROUND)}"
            for number in list(self.machine.exchanges):
                yield f"done {number} lost"
            yield from (f"cease {station} {tid}", f"begin {station} {tid} 256")
        yield from (f"cease {station} {tid}", f"free {station} {tid}")
        for _ in range(8):
            yield from (f"enq {station} {tid} 0 1", f"pull {CLASS_OF[tid]}")
            for number in list(self.machine.exchanges):
                if self.draw.random() < 0.5:
                    yield f"arrive {number} 0"
                yield f"done {number} lost"

    def make_weight(self) -> Iterator[str]:
        """Yields a weight, often of a station with an open exchange."""
        opened = [one.station for one in self.machine.exchanges.values()]
        station = self.draw.choice(opened) if opened and self.draw.random() < 0.5 else self.station()
        yield f"weight {station} {self.draw.choice((1, 1, 2, 3, 16, 17))}"

    def make_leave(self) -> Iterator[str]:
        """Yields a leave, often after the open exchanges are over."""
        station = self.station()
        if self.draw.random() < 0.8:
            for number, one in list(self.machine.exchanges.items()):
                if one.station == station:
                    yield f"done {number} lost"
        yield f"leave {station}"

    def make_rate(self) -> Iterator[str]:
        """Yields a rate."""
        yield f"rate {self.station()} {rate_words(self.draw)}"

    def make_tick(self) -> Iterator[str]:
        """Yields a tick: often one after which CoDel decides otherwise, or one less."""
        ends = [end - before - self.machine.now for end in self.codel_ends() for before in (0, 1)]
        good = [by for by in ends if 0 <= by <= MOST_TICK]
        yield f"tick {self.draw.choice(good if good and self.draw.random() < 0.5 else self.ticks)}"

    def codel_ends(self) -> Iterator[int]:
        """Yields the times at which CoDel's tests of a queue change."""
        for queue in self.machine.queues.queues.values():
            for frame in itertools.islice(queue.frames, 2):
                yield from (frame.stamp + one.target for one in (USUAL, SLOW))
            state = queue.codel
            if queue.frames and state.first_above:
                yield state.first_above
            if queue.frames and state.dropping:
                yield state.drop_next
            if state.first_above and not state.dropping and state.count > state.last_count + 1:
                # (the only ends that matter now; several, so that one of them is likely)
                ends = [state.drop_next + 16 * one.interval for one in (USUAL, SLOW)]
                yield from [end for end in ends if end >= state.first_above] * 3

    def make_burst(self) -> Iterator[str]:
        """Yields frames of one station, and often of one flow, if not too many are queued."""
        if self.machine.queues.held > self.most_queued:
            return
        station, tid, flow = self.station(), self.draw.choice(self.tids), self.draw.randrange(self.flows)
        for _ in range(self.draw.choice(self.bursts)):
            if self.draw.random() < 0.2:
                tid, flow = self.draw.choice(self.tids), self.draw.randrange(self.flows)
            yield f"enq {station} {tid} {flow} {self.draw.choice(self.lengths)}"

    def make_ampdu(self) -> Iterator[str]:
        """Yields the greatest aggregate of a station."""
        yield f"ampdu {self.station()} {self.draw.choice(OCTETS)}"

    def limits(self) -> str:
        """Returns the words of a pull's limits, mostly none."""
        frames = f" frames {self.draw.choice(FRAMES)}" if self.draw.random() < 0.15 else ""
        air = f" air {self.draw.choice(LIMITS)}" if self.draw.random() < 0.15 else ""
        return frames + air

    def make_pull(self) -> Iterator[str]:
        """Yields a pull."""
        yield f"pull {self.access()}{self.limits()}"

    def make_arrive(self) -> Iterator[str]:
        """Yields an arrival."""
        yield f"arrive {self.transmission()}"

    def transmission(self) -> str:
        """Returns an exchange and mostly one of its transmissions."""
        number = self.exchange()
        opened = self.machine.exchanges.get(number)
        count = opened.transmissions if opened else 0
        return f"{number} {self.draw.randrange(max(1, count + (self.draw.random() < 0.1)))}"

    def make_unsent(self) -> Iterator[str]:
        """Yields a transmission that never went on the air, mostly of an open exchange."""
        if self.machine.exchanges or self.draw.random() < 0.1:
            yield f"unsent {self.transmission()}"

    def make_giveup(self) -> Iterator[str]:
        """Yields a transmission that the device will not try again, mostly of an open exchange."""
        if self.machine.exchanges or self.draw.random() < 0.1:
            yield f"giveup {self.transmission()}"

    def make_flush(self) -> Iterator[str]:
        """Yields a flush, mostly of a TID that is in use."""
        yield f"flush {self.station()} {self.draw.choice(self.tids)}"

    def make_answer(self) -> Iterator[str]:
        """Yields an answer."""
        yield f"answer {self.exchange()}"

    def make_done(self) -> Iterator[str]:
        """Yields the end of an exchange, sometimes with an airtime."""
        number = self.exchange()
        opened = self.machine.exchanges.get(number)
        is_heard = opened is not None and opened.answer is not None and self.draw.random() < self.hears
        most = self.machine.settings.charge
        has_air = self.draw.random() < (0.5 if most else 0.02)
        air = f" air {self.draw.choice((1, most, most + 1, 1 + most // 2))}" if has_air else ""
        yield f"done {number} {'heard' if is_heard or self.draw.random() < 0.02 else 'lost'}{air}"

    def make_play(self) -> Iterator[str]:
        """Yields a pull, and mostly the whole exchange."""
        before = self.machine.pulled
        yield f"pull {self.access()}{self.limits()}"
        for number in list(self.machine.exchanges) if self.machine.pulled > before else ():
            if self.draw.random() < 0.8:
                opened = self.machine.exchanges[number]
                for index in range(opened.transmissions):
                    if self.draw.random() < self.marks:
                        yield f"{self.draw.choice(('unsent', 'giveup'))} {number} {index}"
                    if self.draw.random() < self.arrives and index not in opened.unsent:
                        yield f"arrive {number} {index}"
                if not opened.batch or self.draw.random() < 0.1:
                    yield f"answer {number}"
                for index in range(opened.transmissions):
                    if self.draw.random() < self.marks and not opened.has_mark(index):
                        yield f"giveup {number} {index}"
                is_heard = opened.answer is not None and self.draw.random() < self.hears
                yield f"done {number} {'heard' if is_heard else 'lost'}"

    def make_back(self) -> Iterator[str]:
        """Yields an exchange with marks in any order, of which frames come back, and calls that meet it and them."""
        before = self.machine.pulled
        yield f"pull {self.access()}{self.limits()}"
        if self.machine.pulled == before:
            return
        opened = self.machine.exchanges[before]
        for index in self.draw.sample(range(opened.transmissions), opened.transmissions):
            for kind in self.draw.choices(("unsent", "giveup", "arrive"), k=self.draw.choice((0, 1, 1, 1, 2))):
                yield f"{kind} {before} {index}"
        if self.draw.random() < 0.3:
            yield self.draw.choice(self.meeting(opened))
        if opened.answer is None and opened.arrived and self.draw.random() < 0.7:
            yield f"answer {before}"
        is_heard = opened.answer is not None or (opened.batch and self.draw.random() < 0.5)
        yield f"done {before} {'heard' if is_heard else 'lost'}"
        if self.draw.random() < 0.5:
            yield self.draw.choice(self.meeting(opened))

    def meeting(self, opened: Exchange) -> Sequence[str]:
        """Returns the calls that meet the station of an exchange and its frames."""
        station, tid, weight = opened.station, opened.tid, self.draw.choice((1, 2, 3, 16))
        alone = [f"{kind} {station}" for kind in ("leave", "stop", "start", "sleep", "wake", "poll")]
        of_tid = [f"{kind} {station} {tid}" for kind in ("flush", "hold", "free", "cease")]
        more = [f"begin {station} {tid} {self.window()}", f"weight {station} {weight}", f"pull {CLASS_OF[tid]}{self.limits()}"]
        return [*alone, *of_tid, *more]

    def make_sleep(self) -> Iterator[str]:
        """Yields a sleep."""
        yield f"sleep {self.station()}"

    def make_wake(self) -> Iterator[str]:
        """Yields a wake, mostly of a station that sleeps."""
        asleep = [held.number for held in self.machine.stations.values() if held.asleep]
        yield f"wake {self.draw.choice(asleep) if asleep and self.draw.random() < 0.9 else self.station()}"

    def make_poll(self) -> Iterator[str]:
        """Yields a poll, mostly of a station that sleeps, and often the pull that it is for."""
        asleep = [held.number for held in self.machine.stations.values() if held.asleep]
        station = self.draw.choice(asleep) if asleep and self.draw.random() < 0.9 else self.station()
        yield f"poll {station}"
        held = self.machine.stations.get(station)
        if held is not None and held.credit is not None:
            kind = self.draw.random()
            if kind < 0.5:
                yield f"pull {held.credit}{self.limits()}"
            elif kind < 0.75:
                yield from (f"wake {station}", f"sleep {station}", f"poll {station}")

    def make_apsd(self) -> Iterator[str]:
        """Yields delivery-enabled classes, mostly of a station that is awake, and often frames, its sleep and a trigger."""
        awake = [held.number for held in self.machine.stations.values() if not held.asleep]
        station = self.draw.choice(awake) if awake and self.draw.random() < 0.9 else self.station()
        of_tid = 1 << list(Class).index(CLASS_OF[self.draw.choice(self.tids)])
        classes = self.draw.choice((15, 15, of_tid, of_tid, of_tid, 15 - of_tid, self.draw.randrange(16)))
        bad = self.draw.choice((16, 255)) if self.draw.random() < 0.05 else classes
        yield f"apsd {station} {bad} {self.draw.choice((0, 0, 1, 2, 2, 4, 6, 255))}"
        if self.draw.random() < 0.6:
            yield from (f"enq {station} {self.draw.choice(self.tids)} 0 100" for _ in range(self.draw.choice((1, 2, 3, 9))))
            yield f"sleep {station}"
            yield from self.served(station)

    def make_trigger(self) -> Iterator[str]:
        """Yields a trigger, mostly of a station that sleeps, and often the pulls that it is for."""
        asleep = [held.number for held in self.machine.stations.values() if held.asleep and held.delivery]
        if asleep or self.draw.random() < 0.1:
            yield from self.served(self.draw.choice(asleep) if asleep and self.draw.random() < 0.9 else self.station())

    def served(self, station: int) -> Iterator[str]:
        """Yields a trigger of a station, and often pulls and ends of exchanges of its service period."""
        yield f"trigger {station}"
        held = self.machine.stations.get(station)
        if held is None or held.service is None or self.draw.random() < 0.3:
            return
        for access in self.draw.choices(sorted(held.delivery), k=self.draw.randint(1, 6)):
            before = self.machine.pulled
            yield f"pull {access}{self.limits()}"
            if self.machine.pulled > before and self.draw.random() < 0.6:
                yield f"done {before} lost"
        if held.service is not None and self.draw.random() < 0.3:
            yield self.draw.choice((f"eosp {station}", f"poll {station}", f"trigger {station}", f"wake {station}"))

    def make_eosp(self) -> Iterator[str]:
        """Yields the end of a service period, mostly of one that is open."""
        served = [held.number for held in self.machine.stations.values() if held.service is not None]
        if served or self.draw.random() < 0.1:
            yield f"eosp {self.draw.choice(served) if served and self.draw.random() < 0.9 else self.station()}"

    def make_stop(self) -> Iterator[str]:
        """Yields a stop."""
        yield f"stop {self.station()}"

    def make_start(self) -> Iterator[str]:
        """Yields a start, mostly of a station that is stopped."""
        stopped = [held.number for held in self.machine.stations.values() if held.stopped]
        yield f"start {self.draw.choice(stopped) if stopped and self.draw.random() < 0.9 else self.station()}"

    def make_rx(self) -> Iterator[str]:
        """Yields a receive charge, or charges down to the greatest debt."""
        station = self.station()
        access = self.draw.choice(tuple(Class.__members__.values()))
        yield f"rx {station} {access} {self.draw.choice(AIRS)}"
        if self.draw.random() < 0.1 and station in self.machine.stations:
            deficits = self.machine.rotations[access].deficits
            while (left := deficits[station] + self.machine.settings.debt) >= MOST_AIR:
                yield f"rx {station} {access} {MOST_AIR}"
            yield from (f"rx {station} {access} {air}" for air in (left + 1, left, 1) if air > 0)

    def make_reap(self) -> Iterator[str]:
        """Yields a few reaps."""
        yield from ["reap"] * self.draw.choice((1, 3, 10))

    def bss(self) -> int:
        """Returns mostly a BSS that exists."""
        count = len(self.machine.groups)
        return self.draw.randrange(count) if self.draw.random() < 0.97 else self.draw.choice((count, 255))

    def which(self, bss: int) -> str:
        """Returns the last word of a call about a BSS, which may be left out if the BSS is 0."""
        return "" if bss == 0 and self.draw.random() < 0.8 else f" {bss}"

    def make_bss(self) -> Iterator[str]:
        """Yields a change of a BSS, mostly of a station that is awake, and often its sleep."""
        if len(self.machine.groups) == 1 and self.draw.random() < 0.8:
            return
        awake = [held.number for held in self.machine.stations.values() if not held.asleep]
        station = self.draw.choice(awake) if awake and self.draw.random() < 0.9 else self.station()
        yield f"bss {station} {self.bss()}"
        if self.draw.random() < 0.4:
            yield f"sleep {station}"

    def make_group(self) -> Iterator[str]:
        """Yields group frames, often more than have room, or the transmission of one."""
        bss = self.bss()
        if self.machine.settings.buffered == 0 and self.draw.random() < 0.9:
            return
        if self.draw.random() < 0.5:
            yield from [f"group {self.draw.choice(self.lengths)}{self.which(bss)}"] * self.draw.choice((1, 2, 3, 9))
            return
        yield f"gpull{self.which(bss)}"
        if self.draw.random() < 0.9 and any(group.flying is not None for group in self.machine.groups[bss : bss + 1]):
            yield f"gdone{self.which(bss)}"

    def make_beacon(self) -> Iterator[str]:
        """Yields a beacon, and often all group frames that may follow it."""
        bss = self.bss()
        yield f"beacon{self.which(bss)}"
        for group in self.machine.groups[bss : bss + 1]:
            while group.may_go(self.machine.sleeps(bss)) and self.draw.random() < 0.8:
                yield f"gpull{self.which(bss)}"
                if self.draw.random() < 0.9:
                    yield f"gdone{self.which(bss)}"

    def make_wild(self) -> Iterator[str]:
        """Yields any call."""
        yield wild(self.draw, (*self.stations, *SOME))


def made(draw: random.Random, size: int) -> bytes:
    """Returns a trace of at least this many calls."""
    maker = Maker(draw, goes_far=size >= FAR // 2 and draw.random() < 0.3)
    while maker.machine.calls < size:
        for line in maker.event():
            maker.write(f"@{draw.randint(0, 65_535)} {line}" if draw.random() < 0.02 else line)
    maker.write("end")
    return ("\n".join(maker.lines) + "\n").encode()
