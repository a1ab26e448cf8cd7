"""The machine in this process: a path whose every decision is an answer of a cell of the C library.

It makes the calls that the machine on a pipe makes, in the same order, so both give the same results.
"""
from __future__ import annotations

import contextlib
import ctypes
from collections.abc import Sequence
from typing import Any

from wfpath.errors import Ahead
from wfpath.raw import GREATEST_BODY, AccessClass, Call, CallKind, Fate, Form, NoMemory, PacketStruct, RawCell, Settings

from .fields import Fault
from .frames import Exchange, Frame, GroupSend
from .machine import LONGEST_TICK, MOST_COMING, Held, NoRoom
from .program import OutOfCalls
from .rates import Legacy, Rate
from .scenario import Scenario, Station

HISTORIES = (1 << 26, 1 << 24, 1 << 22, 1 << 20)  # calls that a cell gets room for: the most that there is memory for
FATES = {fate.value: fate.word for fate in Fate}
CLASSES = {one.word: one.value for one in AccessClass}


class Cell(Held):
    """A cell of the library in this file, call by call. It makes them by `wfpath.raw`."""

    def __init__(self, scenario: Scenario, library: str, calls: int) -> None:
        super().__init__(scenario)
        settings = self.settings(scenario, calls)
        self.most = settings["calls"]
        self.raw, self.room_for = self.made(library, settings)
        self.left = self.room_for  # calls that the cell still takes
        self.notes: list[tuple[Frame, int, int | None]] = []  # enqueues whose answers were no plain acceptance
        self.bind()

    def made(self, library: str, settings: dict[str, int]) -> tuple[RawCell, int]:
        """A cell with as long a history as there is memory for, up to `calls`, and the calls that it takes."""
        for calls in (min(self.most, most) for most in HISTORIES):
            with contextlib.suppress(NoMemory):
                return RawCell(Settings(**{**settings, "calls": calls}), library), calls
        raise NoRoom

    def bind(self) -> None:
        """Makes what all calls share: the structs, and the arguments that point to them."""
        raw = self.raw
        self.at, self.c_ask, self.c_enqueue, self.c_reap = raw.at, raw.ask, raw.enqueue, raw.reap
        self.reply: Any = raw.reply  # without types: mypy would not know the numbers in the structs
        self.to_reply = raw.reply_at
        self.sent_ids, self.passed_ids = raw.frames.ids, raw.passed_up.ids
        self.calls_by_kind = {kind: Call(kind) for kind in CallKind}
        self.tick, self.arrive = self.calls_by_kind[CallKind.TICK], self.calls_by_kind[CallKind.ARRIVE]
        self.body = bytes(GREATEST_BODY)
        self.packets: dict[int, Any] = {}  # by flow and octets, in one number: the argument that points to a packet
        self.no_body, self.no_room = ctypes.c_void_p(), ctypes.c_size_t(0)

    def call(self, kind: CallKind, **values: int) -> Any:
        """The argument that points to a call of a kind with these values."""
        call = self.calls_by_kind[kind]
        for name, value in values.items():
            setattr(call.struct, name, value)
        return call.at

    # Calls

    def spend(self, count: int) -> None:
        """Counts calls that follow, and makes the ticks to the present."""
        behind = self.now - self.told
        count += -(-behind // LONGEST_TICK)
        if count > self.left:
            raise self.no_calls(count)
        self.left -= count
        self.told = self.now
        while behind:
            self.tick.struct.by = step = min(behind, LONGEST_TICK)
            behind -= step
            self.c_ask(self.at, 0, self.tick.at, self.to_reply)

    def no_calls(self, count: int) -> Exception:
        """Why this many calls cannot be made: the machine takes no more, or this cell."""
        return OutOfCalls() if self.room_for - self.left + count > self.most else NoRoom()

    def settle(self) -> None:
        """Notes the enqueues that were refused, and the frames that others drove out."""
        for frame, came, dropped in self.notes:
            if dropped is None:
                self.refused(frame, came)
            else:
                self.overflowed(dropped, came)
        self.notes.clear()
        self.coming = self.uncounted = 0

    def ask(self, kind: CallKind, **values: int) -> int:
        """Makes a call. Returns the library's code."""
        self.settle()
        self.spend(1)
        return int(self.c_ask(self.at, 0, self.call(kind, **values), self.to_reply))

    def must(self, kind: CallKind, **values: int) -> None:
        """Makes a call that the machine cannot refuse here."""
        code = self.ask(kind, **values)
        if code:
            raise Fault(f"the machine refuses {kind.word} {values}: {self.raw.error(code).word}")

    def join(self, station: Station) -> None:
        values = {"station": station.number, "exponent": 3, "weight": station.weight}
        if station.offload:
            self.must(CallKind.OFFLOAD, **values)
        elif station.joins_plain:
            self.must(CallKind.PLAIN, start=0, **values)
        else:
            self.must(CallKind.JOIN, window=station.window, start=0, **values)

    def leave(self, station: Station) -> None:
        self.must(CallKind.LEAVE, station=station.number)
        self.unreaped += self.reply.count
        self.reap()

    def set_rate(self, station: Station, rate: Rate) -> None:
        if isinstance(rate, Legacy):
            self.must(CallKind.RATE, station=station.number, form=Form[rate.format.upper()], speed=rate.speed)
            return
        is_he = rate.format == "he"
        guard = {"guard": rate.guard if is_he else 0, "short_guard": int(not is_he and rate.guard == 400)}
        form = Form[rate.format.upper()]
        self.must(CallKind.RATE, station=station.number, form=form, mcs=rate.mcs, mhz=rate.mhz, streams=rate.streams, **guard)

    def sleep(self, station: Station) -> None:
        self.must(CallKind.SLEEP, station=station.number)
        self.asleep.add(station.number)

    def wake(self, station: Station) -> None:
        self.must(CallKind.WAKE, station=station.number)
        self.asleep.discard(station.number)

    def hold(self, station: Station, tid: int) -> None:
        self.must(CallKind.HOLD, station=station.number, tid=tid)

    def begin(self, station: Station, tid: int) -> None:
        self.must(CallKind.BEGIN, station=station.number, tid=tid, window=station.window)

    def free(self, station: Station, tid: int) -> None:
        self.must(CallKind.FREE, station=station.number, tid=tid)

    def poll(self, station: Station) -> str | None:
        if self.ask(CallKind.POLL, station=station.number):
            return None
        return AccessClass(self.reply.class_).word

    def apsd(self, station: Station) -> None:
        self.must(CallKind.APSD, station=station.number, classes=station.classes, most=station.most)

    def trigger(self, station: Station) -> bool:
        return not self.ask(CallKind.TRIGGER, station=station.number)

    def end_service(self, station: Station) -> None:
        self.must(CallKind.EOSP, station=station.number)

    def received(self, station: Station, frame_class: str, air: int) -> None:
        """Charges a station for what it sent. The machine refuses that to a station whose deficit is as low as it can be."""
        self.spend(1)
        charge = self.call(CallKind.RX, station=station.number, class_=CLASSES[frame_class], air=air)
        self.c_ask(self.at, 0, charge, self.to_reply)

    def set_bss(self, station: Station) -> None:
        self.must(CallKind.BSS, station=station.number, bss=station.bss)

    def group(self, octets: int, bss: int) -> bool:
        return not self.ask(CallKind.GROUP, length=octets, bss=bss)

    def beacon(self, bss: int) -> bool:
        self.must(CallKind.BEACON, bss=bss)
        return bool(self.reply.more)

    def group_pull(self, bss: int) -> GroupSend | None:
        if self.ask(CallKind.GPULL, bss=bss):
            return None
        return GroupSend(self.reply.id, self.reply.air, bool(self.reply.more))

    def group_done(self, bss: int) -> None:
        self.must(CallKind.GDONE, bss=bss)

    # Frames

    def packet(self, frame: Frame) -> Any:
        """The argument that points to the packet of a frame."""
        made = PacketStruct(body=self.body, length=frame.octets, flow=frame.flow.number, tid=frame.tid)
        argument = ctypes.byref(made)
        self.packets[frame.flow.number << 12 | frame.octets] = argument
        return argument

    def enqueue(self, frame: Frame) -> None:
        self.spend(1)
        self.enqueue_now([frame])

    def enqueue_all(self, frames: Sequence[Frame]) -> None:
        if not frames:
            return
        if self.left < 2 * len(frames) or frames[-1].came - self.told > LONGEST_TICK:
            super().enqueue_all(frames)
        else:
            self.left -= len(frames)
            self.enqueue_now(frames)

    def enqueue_now(self, frames: Sequence[Frame]) -> None:
        """Enqueues frames, each after a tick to the time at which it comes. The calls except these ticks are counted.

        This has no call of Python for each frame, because it is most of a run over full queues.
        """
        told, tick, ask, enqueue, at, reply = self.told, self.tick.struct, self.c_ask, self.c_enqueue, self.at, self.reply
        to_tick, to_reply, packets, of_station = self.tick.at, self.to_reply, self.packets, self.of_station
        ticks, accept, note, refusals = 0, self.frames.append, self.notes.append, 0
        for frame in frames:
            came, station = frame.came, frame.station
            if came != told:
                tick.by = came - told
                told = came
                ticks += 1
                ask(at, 0, to_tick, to_reply)
            of_station[station] += 1
            packet = packets.get(frame.flow.number << 12 | frame.octets) or self.packet(frame)
            if enqueue(at, 0, station, packet, to_reply):
                note((frame, came, None))
                refusals += 1
                continue
            accept(frame)
            if reply.has_dropped:
                note((frame, came, reply.dropped))
        self.now = self.told = told
        self.left -= ticks
        self.inside += len(frames) - refusals
        self.uncounted += refusals
        self.coming += len(frames)
        if self.coming >= MOST_COMING:
            self.settle()

    def pull(self, frame_class: str) -> Exchange | None:
        code = self.ask(CallKind.PULL, class_=CLASSES[frame_class])
        self.is_ahead = code == Ahead.code
        if code:
            return None
        reply, frames = self.reply, self.frames
        self.raw.read_frames(self.at, self.raw.frames_at)
        frames = [frames[number] for number in self.sent_ids[: self.raw.frames.count]]
        kinds = {"is_batch": bool(reply.batch), "is_plain": bool(reply.plain), "eosp": bool(reply.eosp)}
        return Exchange(reply.exchange, reply.station, reply.tid, reply.air, frames, **kinds)

    def finish(self, exchange: Exchange, arrived: Sequence[bool], heard: bool) -> list[Frame]:
        indices = [index for index, has_arrived in enumerate(arrived) if has_arrived]
        reaps = len(indices) if heard and exchange.frames else 0  # at least this many are acknowledged now
        self.settle()
        self.spend(len(indices) + bool(indices) + 1 + reaps)
        released = self.arrivals(exchange.number, indices)
        if indices:
            self.c_ask(self.at, 0, self.call(CallKind.ANSWER, exchange=exchange.number), self.to_reply)
        done = self.call(CallKind.DONE, exchange=exchange.number, heard=int(heard), air=exchange.charge or 0)
        code = self.c_ask(self.at, 0, done, self.to_reply)
        if code:
            raise Fault(f"the machine refuses the end of exchange {exchange.number}: {self.raw.error(code).word}")
        self.unreaped += self.reply.acked + self.reply.failed
        self.take(reaps)
        self.reap()
        return released

    def arrivals(self, number: int, indices: Sequence[int]) -> list[Frame]:
        """Has transmissions of an exchange arrive. Returns the frames that were released."""
        released: list[Frame] = []
        append = released.append
        call, passed_up, ids = self.arrive.struct, self.raw.passed_up, self.passed_ids
        ask, passed, frames = self.c_ask, self.raw.read_released, self.frames
        at, to_call, to_reply, to_passed_up = self.at, self.arrive.at, self.to_reply, self.raw.passed_up_at
        call.exchange = number
        for index in indices:
            call.index = index
            if ask(at, 0, to_call, to_reply):
                raise Fault(f"the machine refuses the arrival of transmission {index} of exchange {number}")
            passed(at, to_passed_up)
            count = passed_up.count
            if count == 1:
                append(frames[ids[0]])
            else:
                released += [frames[one] for one in ids[:count]]
        return released

    def report(self, exchange: Exchange, acked: Sequence[int], unsent: Sequence[int], is_over: bool) -> None:
        number = exchange.number
        for kind, indices in ((CallKind.ARRIVE, acked), (CallKind.UNSENT, unsent)):
            for index in indices:
                self.must(kind, exchange=number, index=index)
        if is_over:
            self.must(CallKind.DONE, exchange=number, heard=1, air=exchange.charge or 0)
            self.unreaped += self.reply.acked + self.reply.failed
            self.reap()

    def take(self, count: int) -> None:
        """Reaps this many frames. As `enqueue_now`, it has no call of Python for most of them."""
        taken, acked, overlimit, reap = self.raw.taken, Fate.ACKED.value, Fate.OVERLIMIT.value, self.c_reap
        at, to_reply, to_taken, no_body, no_room = self.at, self.to_reply, self.raw.taken_at, self.no_body, self.no_room
        frames, of_station, end, now, uncounted = self.frames, self.of_station, self.ended.append, self.now, 0
        for _ in range(count):
            if reap(at, 0, to_reply, to_taken, no_body, no_room):
                raise Fault("the machine has no frame to reap")
            frame, fate = frames[taken.id], taken.fate
            of_station[frame.station] -= 1
            if fate == acked:
                frame.ended = now
                frame.fate = "acked"
                end(frame)
            elif fate != overlimit:  # such a frame ended when it was dropped
                self.end(frame, FATES[fate])
                uncounted += fate == Fate.CODEL  # these were not counted when they came on the list
        self.inside -= count
        self.unreaped -= count - uncounted

    def reap(self) -> None:
        """Reaps the frames that are known to be on the finished list."""
        while self.unreaped > 0:
            count = self.unreaped
            self.spend(count)
            self.take(count)

    def close(self) -> None:
        self.settle()
        self.calls = self.room_for - self.left
        self.abandon()

    def abandon(self) -> None:
        """Frees the cell."""
        self.raw.close()
