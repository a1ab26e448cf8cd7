"""Random calls of a path and of a cell, with the lines of their trace and of the answers."""
from __future__ import annotations

import random
from collections.abc import Callable
from typing import Any

from wfpath import (
    GREATEST_BODY,
    RANGES,
    AccessClass,
    CallKind,
    Cell,
    Exchange,
    Fate,
    GroupSend,
    Outcome,
    Path,
    Rate,
    Refused,
    errors,
    trace,
)
from wfpath import _tables as tables
from wfpath._library import error
from wfpath._tables import Kind
from wfpath.raw import Call

STATIONS, CHARGE, TICK = 6, 5000, 10_000_000
# The class of each TID.
CLASS_OF = [AccessClass(class_) for class_ in (1, 0, 0, 1, 2, 2, 3, 3)]
SETTINGS = {"stations": STATIONS, "flows": 32, "limit": 40, "room": 400, "attempts": 4, "sleeping": 8}
SETTINGS["charge"] = CHARGE
# Whether calls on agreements have rates of OFDM and DSSS too. Their seeds leave out `codel_reset`, `cap_vi` and `cap_vo`, and the others
# `answers`.
HAS_LEGACY = "legacy" in RANGES
# Rules that are off in the standard settings, if the library has them: these for every second seed, and
# OTHERS for the seeds between. A head has no room for all.
RULES = {"aql_total": 1500, "debt": 20000, "keep_order": 1, "codel_reset": 1, "aql": 1200, "pending": 1}
OTHERS = {"overhead": 8, "cap_vi": 2000, "cap_vo": 1000, "answers": 1, "credits": 1}
# Calls about group frames, for the seeds of OTHERS, and several BSSs for a path and for a cell.
GROUPS = {"period": 2, "buffered": 5}
BSSES = {"bsses": 3}
BROADCAST = bytes([255] * 6)
WORDS = {"join": "joined", "set_rate": "set", "sleep": "slept", "wake": "woken"}
WORDS |= {"set_ampdu": "set", "stop": "stopped", "start": "started", "unsent": "marked", "give_up": "marked"}
WORDS |= {"join_offload": "joined", "set_weight": "set", "plain": "joined", "begin": "begun", "free": "freed"}
WORDS |= {"apsd": "set", "end_service": "ended", "set_bss": "set"}
GROUP_KINDS = (CallKind.GROUP, CallKind.GROUP, CallKind.BEACON, CallKind.GPULL, CallKind.GDONE, CallKind.BSS)
SERVICE_KINDS = (CallKind.APSD, CallKind.TRIGGER, CallKind.TRIGGER, CallKind.EOSP)
# The words of calls about service periods, and their methods.
SERVICES = [(name, name) for name in ("apsd", "apsd", "sleep", "trigger", "trigger", "trigger")] + [("eosp", "end_service")]
# Numbers with the words before them, by method. A path does not know what a station passed up when its agreement ended.
COUNTS = {"leave": "left", "flush": "flushed", "tick": "now", "rx": "charged", "hold": "held", "group": "queued"}


def settings_of(seed: int, agreements: bool) -> dict[str, int]:
    """Returns the settings for a seed."""
    groups = {**GROUPS, **(BSSES if seed % 8 in (3, 5) else {})}
    rules = {name: value for name, value in ({**OTHERS, **groups} if seed % 2 else RULES).items() if name in RANGES}
    if agreements and HAS_LEGACY:
        rules["legacy"] = 2
    for name in ("codel_reset", "cap_vi", "cap_vo") if agreements else ("answers",):
        rules.pop(name, None)
    return {**SETTINGS, **rules}


def answer_of(name: str, value: Any) -> str:
    """Returns the line of an answer, for a method and what it returned."""
    if name in WORDS:
        return WORDS[name]
    if name in COUNTS:
        return f"{COUNTS[name]} {value}"
    if name == "group_done" and isinstance(value, int):
        return f"gdone {value}"
    if name == "cease" and isinstance(value, int):
        return f"ceased {value}"
    if name in ("poll", "trigger"):
        return f"{'polled' if name == 'poll' else 'triggered'} {AccessClass(value).word}"
    if name == "arrive":
        return " ".join(["released", *map(str, value)])
    return str(value)


def reply_line(reply: tables.ReplyStruct) -> str:
    """Returns the line of the answer to a call of a burst."""
    said = {
        Kind.LEFT: f"left {reply.count}",
        Kind.FLUSHED: f"flushed {reply.count}",
        Kind.NOW: f"now {reply.now}",
        Kind.ACCEPTED: f"accepted {reply.id}" + (f" dropped {reply.dropped}" if reply.has_dropped else ""),
        Kind.POLLED: f"polled {AccessClass(reply.class_ % 4).word}",
        Kind.TRIGGERED: f"triggered {AccessClass(reply.class_ % 4).word}",
        Kind.CHARGED: f"charged {reply.deficit}",
        Kind.REAPED: f"reaped {reply.id} {Fate(reply.fate).word}",
        Kind.HELD: f"held {reply.start}",
        Kind.QUEUED: f"queued {reply.id}",
        Kind.BEACON: f"beacon {reply.count} {reply.more}",
        Kind.GSEND: str(GroupSend(reply.id, reply.start, reply.air, reply.more != 0)),
        Kind.GDONE: f"gdone {reply.id}",
    }
    kind = Kind(reply.kind)
    if kind == Kind.REFUSED:
        return str(getattr(error(reply.refusal, reply), "line"))
    return said.get(kind, kind.word)


class Draw:
    """Random numbers, and the lines so far. The line of an answer is None if only receivers know it.

    With `agreements` some stations join without agreements, and some calls hold, begin, free or cease one.
    """

    def __init__(self, seed: int, handle: Any, agreements: bool) -> None:
        self.random = random.Random(seed)
        self.handle = handle
        self.agreements = agreements
        self.has_groups = handle.settings.buffered > 0
        self.bsses = max(1, handle.settings.bsses)
        self.lines: list[str] = [trace.head(handle.settings)]
        self.answers: list[str | None] = []

    def below(self, count: int) -> int:
        """A number below another."""
        return self.random.randrange(count)

    def call(self, line: str, name: str, *given: Any, **named: Any) -> Any:
        """Makes a call, and notes its line and its answer. Returns None if it was refused."""
        value = None
        try:
            value = getattr(self.handle, name)(*given, **named)
            answer = answer_of(name, value)
        except Refused as refusal:
            answer = refusal.line
        self.lines.append(line)
        self.answers.append(answer)
        return value

    def station(self) -> int:
        """A station number, seldom one that does not exist."""
        return self.below(STATIONS if self.below(100) else STATIONS + 1)

    def join(self, station: int) -> None:
        """A join."""
        window = 1 + self.below(64 if self.below(4) else 257)
        start, exponent, weight = self.below(4100), self.below(5), self.below(18)
        if self.agreements and self.below(2):
            self.call(f"plain {station} {start} {exponent} {weight}", "plain", station, start, exponent, weight)
            return
        if self.below(3) == 0:
            self.call(f"offload {station} {exponent} {weight}", "join_offload", station, exponent, weight)
            return
        given = (station, window, start, exponent, weight)
        self.call(" ".join(map(str, ("join", *given))), "join", *given)

    def rate(self, station: int) -> None:
        """A rate of one of the formats, sometimes one that does not exist."""
        if self.agreements and HAS_LEGACY and self.below(2):
            self.legacy_rate(station)
            return
        mhz = self.random.choice((20, 40, 80, 160, 30))
        rate = self.random.choice(
            (
                Rate.ht(self.below(17), mhz, self.below(2) == 1),
                Rate.vht(self.below(11), mhz, self.below(10), self.below(2) == 1),
                Rate.he(self.below(13), mhz, self.below(10), self.random.choice((800, 1600, 3200, 400))),
            )
        )
        self.call(f"rate {station} {rate}", "set_rate", station, rate)

    def legacy_rate(self, station: int) -> None:
        """A rate of OFDM or DSSS, seldom one that does not exist."""
        ofdm, dsss = self.random.choice((6, 9, 12, 18, 24, 36, 48, 54)), self.random.choice((2, 4, 11, 22))
        other = self.below(256)
        rates = (Rate.ofdm(ofdm), Rate.dsss(dsss), Rate.ofdm(other) if self.below(8) == 0 else Rate.ofdm(ofdm))
        rate = self.random.choice(rates)
        self.call(f"rate {station} {rate}", "set_rate", station, rate)

    def enqueue(self, station: int) -> None:
        """An enqueue."""
        tid = self.below(8 if self.below(50) else 10)
        flow, length = self.below(20), 1 + self.below(200 if self.below(4) else 2304)
        body = bytes((flow + place) % 256 for place in range(length)) if length < 50 else length
        tag = station << 48 | tid << 40 | flow << 16 | length
        line = f"enq {station} {tid} {flow} {length}"
        if self.below(3) == 0:
            self.call(line, "enqueue_bare", station, length, tid, flow, tag)
        else:
            self.call(line, "enqueue", station, body, tid, flow, tag)

    def reap(self) -> None:
        """A reap, and a look at the frame."""
        has_body = self.below(2) == 1
        frame = self.call("reap", "reap", has_body)
        if frame is not None:
            assert frame.tag in (0, frame.station << 48 | frame.tid << 40 | frame.flow << 16 | frame.length)
            assert frame.body is None or (has_body and len(frame.body) == frame.length)
            assert frame.body is None or frame.length >= 50 or frame.body[0] == frame.flow

    def burst(self, most: int) -> None:
        """A burst of at most `most` calls. Its frames have the tag 0."""
        drawn = [self.drawn(self.station()) for _ in range(1 + self.below(most))]
        made = self.handle.burst([call for call, _ in drawn])
        assert made.error is None and len(made.replies) == len(drawn)
        self.lines += [line for _, line in drawn]
        self.answers += map(reply_line, made.replies)

    def drawn(self, station: int) -> tuple[Call, str]:
        """A call of a burst, and its line."""
        if self.agreements and self.below(3) == 0:
            return self.drawn_agreement(station)
        kinds = (CallKind.ENQUEUE, CallKind.REAP, CallKind.TICK, CallKind.RX, CallKind.POLL, CallKind.FLUSH, *SERVICE_KINDS)
        kind = self.random.choice(kinds + GROUP_KINDS if self.has_groups else kinds)
        call, class_ = Call(kind), AccessClass(self.below(4))
        made = call.struct
        made.station, made.tid, made.flow, made.length = station, self.below(9), self.below(20), 1 + self.below(300)
        made.by, made.air, made.class_ = self.below(2000), self.below(2000), class_
        made.classes, made.most, made.bss = self.below(17), self.below(6), self.bss()
        of_bss = f" {made.bss}" if made.bss else ""
        lines = {
            CallKind.ENQUEUE: f"enq {station} {made.tid} {made.flow} {made.length}",
            CallKind.TICK: f"tick {made.by}",
            CallKind.RX: f"rx {station} {class_.word} {made.air}",
            CallKind.POLL: f"poll {station}",
            CallKind.FLUSH: f"flush {station} {made.tid}",
            CallKind.APSD: f"apsd {station} {made.classes} {made.most}",
            CallKind.TRIGGER: f"trigger {station}",
            CallKind.EOSP: f"eosp {station}",
            CallKind.GROUP: f"group {made.length}{of_bss}",
            CallKind.BSS: f"bss {station} {made.bss}",
            **{one: one.word + of_bss for one in (CallKind.BEACON, CallKind.GPULL, CallKind.GDONE)},
        }
        return call, lines.get(kind, kind.word)

    def drawn_agreement(self, station: int) -> tuple[Call, str]:
        """A call of a burst on an agreement, and its line."""
        call = Call(self.random.choice((CallKind.PLAIN, CallKind.HOLD, CallKind.BEGIN, CallKind.FREE)))
        made = call.struct
        made.station, made.tid, made.window, made.start = station, self.tid(), self.below(258), self.below(4100)
        made.exponent, made.weight = self.below(5), self.below(18)
        lines = {
            CallKind.PLAIN: f"plain {station} {made.start} {made.exponent} {made.weight}",
            CallKind.HOLD: f"hold {station} {made.tid}",
            CallKind.BEGIN: f"begin {station} {made.tid} {made.window}",
        }
        return call, lines.get(CallKind(made.kind), f"free {station} {made.tid}")

    def tid(self) -> int:
        """A TID for a call on an agreement: mostly one of a few, seldom one that does not exist."""
        return self.random.choice((0, 4, 6)) if self.below(4) else self.below(9)

    def agreement(self) -> None:
        """A call on the agreement of a TID."""
        station, tid = self.station(), self.tid()
        name = self.random.choice(("hold", "begin", "begin", "free", "cease"))
        if name == "begin":
            window = 1 + self.below(64 if self.below(4) else 257)
            self.call(f"begin {station} {tid} {window}", "begin", station, tid, window)
        else:
            self.call(f"{name} {station} {tid}", name, station, tid)

    def bss(self) -> int:
        """The number of a BSS, seldom one that does not exist."""
        return self.below(self.bsses if self.below(50) else self.bsses + 1)

    def group(self) -> None:
        """A call about the group frames of a BSS, or one that sets the BSS of a station."""
        names = ("group", "group", "beacon", "group_pull", "group_done", "bss")
        length, name, bss = 1 + self.below(2304), self.random.choice(names), self.bss()
        of_bss = f" {bss}" if bss else ""
        if name == "group":
            self.call(f"group {length}{of_bss}", "group", *self.group_arguments(length), bss=bss)
        elif name == "bss":
            station = self.station()
            self.call(f"bss {station} {bss}", "set_bss", station, bss)
        else:
            self.call(name.replace("group_", "g") + of_bss, name, bss)

    def group_arguments(self, length: int) -> tuple[Any, ...]:
        """The arguments of the method `group`."""
        return (length,)

    def service(self, station: int) -> None:
        """A call about service periods, or a sleep, without which there are none."""
        line, name = self.random.choice(SERVICES)
        if name == "apsd":
            classes, most = self.below(16 if self.below(50) else 18), self.below(6)
            self.call(f"apsd {station} {classes} {most}", "apsd", station, classes, most)
        else:
            self.call(f"{line} {station}", name, station)

    def other(self, station: int) -> None:
        """One of the other calls."""
        class_ = AccessClass(self.below(4))
        number = self.below(2000) if self.below(50) else TICK + self.below(2)
        words = "leave sleep wake poll stop start start ampdu weight rx tick flush"
        name = self.random.choice(words.split())
        if name == "flush":
            tid = self.below(8 if self.below(50) else 10)
            self.call(f"flush {station} {tid}", "flush", station, tid)
        elif name == "weight":
            weight = self.below(18)
            self.call(f"weight {station} {weight}", "set_weight", station, weight)
        elif name == "rx":
            self.call(f"rx {station} {class_.word} {number}", "rx", station, class_, number)
        elif name == "tick":
            self.call(f"tick {number * 10}", "tick", number * 10)
        elif name == "ampdu":
            octets = 4095 + 100 * number
            self.call(f"ampdu {station} {octets}", "set_ampdu", station, octets)
        else:
            self.call(f"{name} {station}", name, station)

    def mark(self, exchange: int, index: int) -> str | None:
        """A mark of a transmission. Returns its word, or None if it was refused."""
        word, name = self.random.choice((("unsent", "unsent"), ("giveup", "give_up")))
        before = len(self.answers)
        self.call(f"{word} {exchange} {index}", name, exchange, index)
        return word if self.answers[before] == "marked" else None

    def limited_pull(self, class_: AccessClass) -> Any:
        """A pull, half of the time within limits."""
        frames, air = (self.below(9), self.below(3000)) if self.below(2) else (0, 0)
        words = (f" frames {frames}" if frames else "") + (f" air {air}" if air else "")
        return self.call(f"pull {class_.word}{words}", "pull", class_, frames, air)

    def common(self, which: int) -> None:
        """A call that a path and a cell have; `which` is below 66."""
        station = self.station()
        if self.has_groups and self.below(6) == 0:
            self.group()
        elif self.below(8) == 0:
            self.service(station)
        elif which < 36:
            self.enqueue(station)
        elif which < 54:
            self.reap()
        elif which < 58:
            self.join(station)
        elif which < 60:
            self.rate(station)
        else:
            self.other(station)


class PathDraw(Draw):
    """Random calls of a path. It keeps what arrives at the stations, and passes it on in BlockAcks."""

    def __init__(self, seed: int, calls: int, agreements: bool = False) -> None:
        super().__init__(seed, Path(calls=4 * calls + 1000, **settings_of(seed, agreements)), agreements)
        self.open: list[Exchange] = []
        # The id that arrived last, by station, TID and sequence number.
        self.arrived: dict[tuple[int, int, int], int] = {}
        # The marks of the transmissions of open exchanges, by exchange and index.
        self.marks: dict[tuple[int, int], str] = {}
        for _ in range(calls):
            self.step()
        self.lines.append("end")
        self.summary()

    def step(self) -> None:
        """A call."""
        which = self.below(100)
        if self.agreements and self.below(6) == 0:
            self.agreement()
        elif which < 66:
            self.common(which)
        elif which < 70:
            self.burst(9)
        elif which < 85:
            self.pull()
        elif self.open and self.below(5) == 0:
            exchange = self.random.choice(self.open)
            index = self.below(exchange.transmissions + (self.below(20) == 0))
            word = self.mark(exchange.number, index)
            if word:
                self.marks[exchange.number, index] = word
        elif self.open:
            exchange = self.open.pop(self.below(len(self.open)))
            self.finish(exchange)
            self.look_at(exchange.station, exchange.tid)

    def group_arguments(self, length: int) -> tuple[Any, ...]:
        """The tag of a group frame is its length."""
        return BROADCAST, length, length

    def look_at(self, station: int, tid: int) -> None:
        """A look at the numbers of a TID, at its queued frames, and at the airtime in flight of its class."""
        flying = sum(len(one.ids) for one in self.open if (one.station, one.tid) == (station, tid))
        waiting = self.handle.waiting(station, tid)
        assert self.handle.flying(station, tid) == flying
        assert self.handle.drained(station, tid) == (flying + waiting == 0)
        queued = self.handle.queued(station, tid)
        assert queued <= self.handle.octets(station, tid) <= queued * GREATEST_BODY
        class_ = CLASS_OF[tid]
        owed = sum(one.air for one in self.open if one.station == station and CLASS_OF[one.tid] == class_)
        assert self.handle.pending(station, class_) == owed

    def pull(self) -> None:
        """A pull, and a look at what it opened."""
        class_ = AccessClass(self.below(4))
        can = self.handle.can_pull(class_)
        exchange = self.limited_pull(class_)
        assert can == (exchange is not None)
        if exchange is None:
            return
        self.open.append(exchange)
        self.look_at(exchange.station, exchange.tid)
        sent = self.handle.sent(exchange.number)
        assert sent == (exchange.station, exchange.transmissions, exchange.tid, exchange.request)
        assert not (exchange.eosp and self.handle.in_service(exchange.station))
        for index, number in enumerate(exchange.ids):
            assert self.handle.frame_id(exchange.number, index) == number
            header, tag = self.handle.header(exchange.number, index), self.handle.frame_tag(exchange.number, index)
            is_last = index == len(exchange.ids) - 1
            assert header[24] == exchange.tid + (16 if exchange.eosp and is_last else 0)
            assert bool(header[1] & 0x20) == (exchange.more or (exchange.eosp and not is_last))
            try:
                octets = self.handle.mpdu(exchange.number, index)
            except errors.NoBody:
                continue
            assert header == octets[:26] and tag % 2**16 == len(octets) - 26

    def finish(self, exchange: Exchange) -> None:
        """Ends an exchange: by a BlockAck or without one, or, if it has no mark, by outcomes or as cancelled."""
        number, indices = exchange.number, range(exchange.transmissions)
        marked = [index for index in indices if (number, index) in self.marks]
        air = 1 + self.below(CHARGE) if self.below(2) else 0
        if exchange.batch and marked:
            self.end(exchange, False, air)
        elif not marked and (self.below(8) if exchange.batch else self.below(3) == 0):
            self.finish_each(exchange, air)
        elif not marked and (exchange.batch or self.below(8) == 0):
            self.lines += [f"unsent {number} {index}" for index in indices]
            self.answers += ["marked"] * len(indices)
            self.call(f"done {number} lost air 1", "cancel", number)
        else:
            heard = self.arrive(exchange, {index for index in marked if self.marks[number, index] == "unsent"})
            if self.below(8) == 0:
                self.end(exchange, heard, CHARGE + 1)
            self.end(exchange, heard, air)

    def arrive(self, exchange: Exchange, unsent: set[int]) -> bool:
        """Lets transmissions arrive that went on the air. Returns whether an answer to them is heard."""
        number = exchange.number
        came = [index for index in range(exchange.transmissions) if self.below(4) and index not in unsent]
        self.lines += [f"arrive {number} {index}" for index in came]
        for index in came if exchange.ids else ():
            self.arrived[exchange.station, exchange.tid, exchange.numbers[index]] = exchange.ids[index]
        is_answered = bool(came) and not exchange.batch
        if is_answered:
            self.lines.append(f"answer {number}")
        self.answers += [None] * (len(came) + is_answered)
        return is_answered and self.below(4) > 0

    def arrive_in_batch(self, exchange: Exchange, outcomes: list[Outcome]) -> bool:
        """Lets the device of a batch say which of its frames were acknowledged. Returns whether one was."""
        for index, one in enumerate(outcomes):
            if one == Outcome.RETRY and self.below(4):
                outcomes[index] = Outcome.ACKED
                self.lines.append(f"arrive {exchange.number} {index}")
                self.answers.append("released")
        return Outcome.ACKED in outcomes

    def finish_each(self, exchange: Exchange, air: int) -> None:
        """Ends an exchange by outcomes. The trace marks transmissions instead. A mark of a transmission that is
        given up has no effect if it is acknowledged."""
        number = exchange.number
        choices = (Outcome.UNSENT, Outcome.GAVE_UP, Outcome.RETRY, Outcome.RETRY, Outcome.RETRY)
        outcomes = [self.random.choice(choices) for _ in range(exchange.transmissions)]
        words = {Outcome.UNSENT: "unsent", Outcome.GAVE_UP: "giveup"}
        marks = [f"{words[one]} {number} {index}" for index, one in enumerate(outcomes) if one in words]
        self.lines += marks
        self.answers += ["marked"] * len(marks)
        if exchange.batch:
            heard = self.arrive_in_batch(exchange, outcomes)
        else:
            heard = self.arrive(exchange, {index for index, one in enumerate(outcomes) if one == Outcome.UNSENT})
            for index, one in enumerate(outcomes):
                if heard and one != Outcome.UNSENT and self.has_arrived(exchange, index):
                    outcomes[index] = Outcome.ACKED
        line = f"done {number} {'heard' if heard else 'lost'}" + (f" air {air}" if air else "")
        self.call(line, "done_each", number, outcomes, air)

    def has_arrived(self, exchange: Exchange, index: int) -> bool:
        """Whether a transmission's frame is one that its station has received; a request always is."""
        if exchange.request:
            return True
        place = (exchange.station, exchange.tid, exchange.numbers[index])
        return self.arrived.get(place) == exchange.ids[index]

    def end(self, exchange: Exchange, heard: bool, air: int) -> None:
        """Ends an exchange; it stays open if the airtime is too great."""
        number = exchange.number
        line = f"done {number} {'heard' if heard else 'lost'}" + (f" air {air}" if air else "")
        if exchange.plain and (number, 0) not in self.marks:
            self.call(line, "done_ack", number, heard, air)
            return
        if not heard:
            self.call(line, "done_lost", number, air)
            return
        start = exchange.start if exchange.request else exchange.numbers[0]
        bits = 0
        for index, at in enumerate(exchange.numbers):
            if self.has_arrived(exchange, index):
                bits |= 1 << ((at - start) % 4096)
        self.call(line, "done_bits", number, start, bits, air)

    def summary(self) -> None:
        """The lines of the summary."""
        path: Path = self.handle
        tally = path.tally()
        counts = {**tally._asdict(), "held": tally.held}
        always = ("acked", "overlimit", "codel", "retries", "left", "held")
        words = [f"{name} {counts[name]}" for name in always]
        words += [f"{name} {counts[name]}" for name in ("flushed", "ended") if counts[name]]
        self.answers += [f"calls {len(self.lines) - 2}", f"now {path.now}"]
        self.answers.append(" ".join([f"frames {tally.accepted}", *words]))
        self.answers.append(f"exchanges {path.exchanges} open {path.open_count}")
        for station in filter(path.live, range(STATIONS)):
            for class_ in AccessClass:
                share = path.share(station, class_)
                if share.charged or share.rx:
                    said = f"charged {share.charged} rx {share.rx} deficit {share.deficit}"
                    self.answers.append(f"sta {station} {class_.word} {said}")
        latest = {line: answer for line, answer in zip(self.lines[1:], self.answers) if answer and answer.startswith("beacon ")}
        for bss in range(self.bsses):
            of_bss = f" bss {bss}" if self.bsses > 1 else ""
            if self.has_groups:
                groups = path.group_counts(bss)
                said = f"group {groups.accepted} sent {groups.sent} held {groups.held} air {groups.air}"
                self.answers.append(said + of_bss)
            beacon = latest.get(f"beacon {bss}" if bss else "beacon", "beacon 0 0")
            count, follows = map(int, beacon.split()[1:])
            tim = path.tim(count, max(1, path.settings.period), follows == 1, bss)
            self.answers.append(f"tim {tim.hex()}{of_bss}")


class CellDraw(Draw):
    """Random calls of a cell."""

    def __init__(self, seed: int, calls: int, agreements: bool = False) -> None:
        super().__init__(seed, Cell(calls=calls, **settings_of(seed, agreements)), agreements)
        self.open: list[int] = []
        self.opened = 0
        while len(self.answers) < calls:
            self.step(calls - len(self.answers))
        self.lines.append("end")

    def step(self, most: int) -> None:
        """A call, or a burst of at most `most` calls."""
        which = self.below(200)
        if self.agreements and self.below(8) == 0:
            self.agreement()
        elif which < 66:
            self.common(which)
        elif which < 70:
            self.burst(min(most, 9))
        elif which < 100:
            class_ = AccessClass(self.below(4))
            exchange = self.limited_pull(class_)
            if exchange is not None:
                self.open.append(exchange.number)
                self.opened += 1
        else:
            self.exchange(which - 100)

    def exchange(self, which: int) -> None:
        """A call of an exchange, seldom of one that is not open."""
        known = bool(self.open) and self.below(50) > 0
        number = self.random.choice(self.open) if known else self.below(self.opened + 2)
        if which < 60:
            index = self.below(4 if self.below(4) else 40)
            self.call(f"arrive {number} {index}", "arrive", number, index)
        elif which < 70:
            self.mark(number, self.below(4))
        elif which < 80:
            self.call(f"answer {number}", "answer", number)
        else:
            heard, air = self.below(4) > 0, self.below(CHARGE + 3) if self.below(2) else 0
            line = f"done {number} {'heard' if heard else 'lost'}" + (f" air {air}" if air else "")
            if self.call(line, "done", number, heard, air) is not None:
                self.open.remove(number)


DRAWS: list[Callable[[int, int], Draw]] = [PathDraw, CellDraw]
