"""A cell, for test benches: class Cell."""
from __future__ import annotations

import ctypes
from collections.abc import Iterator, Sequence

from . import _tables as tables
from . import trace
from ._handle import BODY_ROOM, NO_ROOM, NO_SOURCE, QUICK, WAITS, Body, C, Handle, check_bss, view
from ._library import out_of_range
from ._tables import AccessClass, CallKind, CallStruct, Form, Kind, Settings
from .answers import CLASSES, Accepted, Beacon, Block, Burst, Ceased, Done, Exchange, GroupSend, Reaped
from .errors import Nothing
from .rates import Rate
from .raw import Call

_ask = QUICK.wf_cell_ask
_enqueue = QUICK.wf_cell_enqueue
_reap = QUICK.wf_cell_reap
_frames = QUICK.wf_cell_frames
_released = QUICK.wf_cell_released
_NOTHING = Nothing.code


class Cell(Handle):
    """A path with the receive halves of its stations, and the history of all calls.

    `Cell(stations=4, calls=100_000)` makes one with these settings and standard ones. The history has room
    for `calls` calls. A refused call raises the exception of its refusal (wfpath.errors), and is an entry of
    the history, except HistoryFull. `caller`, 0 to 65535, is the caller that the history notes for the calls
    that follow.
    """

    def __init__(self, settings: Settings | None = None, /, **fields: int) -> None:
        self._caller = 0
        self._calls = {kind: Call(kind) for kind in CallKind}
        self._arrive, self._done = self._calls[CallKind.ARRIVE], self._calls[CallKind.DONE]
        self._up = tables.PassedUpStruct()
        self._up_at = ctypes.byref(self._up)
        self._up_ids = view(self._up.ids, "Q")
        super().__init__(settings, fields, "cell", tables.CellStruct())

    @property
    def caller(self) -> int:
        """The caller that the history notes."""
        return self._caller

    @caller.setter
    def caller(self, number: int) -> None:
        if number >> 16:
            raise out_of_range(caller=(number, 16))
        self._caller = number

    # ---- stations

    def join(
        self, station: int, window: int = 64, start: int = 0, exponent: int = 3, weight: int = 1
    ) -> None:
        """Makes a station live: its window in frames, first sequence number, A-MPDU length exponent, and
        weight in airtime."""
        if station >> 16 or window >> 16 or start >> 16 or exponent >> 8 or weight >> 8:
            other = {"exponent": (exponent, 8), "weight": (weight, 8)}
            raise out_of_range(station=(station, 16), window=(window, 16), start=(start, 16), **other)
        call = self._calls[CallKind.JOIN]
        made = call.struct
        made.station, made.window, made.start = station, window, start
        made.exponent, made.weight = exponent, weight
        self._must(self._code(call))

    def join_offload(self, station: int, exponent: int = 3, weight: int = 1) -> None:
        """Makes a station live whose device numbers, aggregates and repeats its frames: its A-MPDU length
        exponent, and weight in airtime. Each exchange to it is a batch: `arrive` says which of its frames were
        acknowledged."""
        if station >> 16 or exponent >> 8 or weight >> 8:
            raise out_of_range(station=(station, 16), exponent=(exponent, 8), weight=(weight, 8))
        call = self._calls[CallKind.OFFLOAD]
        made = call.struct
        made.station, made.exponent, made.weight = station, exponent, weight
        self._must(self._code(call))

    def plain(self, station: int, start: int = 0, exponent: int = 3, weight: int = 1) -> None:
        """Makes a station live without agreements: its first sequence number, A-MPDU length exponent, and weight
        in airtime. Its TIDs are plain: each exchange is one frame, which the station answers with an Ack."""
        if station >> 16 or start >> 16 or exponent >> 8 or weight >> 8:
            other = {"exponent": (exponent, 8), "weight": (weight, 8)}
            raise out_of_range(station=(station, 16), start=(start, 16), **other)
        call = self._calls[CallKind.PLAIN]
        made = call.struct
        made.station, made.start, made.exponent, made.weight = station, start, exponent, weight
        self._must(self._code(call))

    def hold(self, station: int, tid: int) -> int:
        """Holds a plain TID: no frame of it gets a sequence number until `begin` or `free`. Returns the number
        that an ADDBA request has to give."""
        self._of_tid(CallKind.HOLD, station, tid)
        return self._reply.start

    def begin(self, station: int, tid: int, window: int) -> None:
        """Begins the agreement of a held TID, with a window in frames. Raises Open or Waits while numbers of the
        TID are on the air or wait."""
        if window >> 16:
            raise out_of_range(window=(window, 16))
        self._calls[CallKind.BEGIN].struct.window = window
        self._of_tid(CallKind.BEGIN, station, tid)

    def free(self, station: int, tid: int) -> None:
        """Makes a held TID plain again. To free the cell, call `close`."""
        self._of_tid(CallKind.FREE, station, tid)

    def cease(self, station: int, tid: int) -> Ceased:
        """Ends the agreement of a TID, which is then held. Returns how many frames were dropped, and the ids of
        those that the station passed up."""
        self._of_tid(CallKind.CEASE, station, tid)
        return Ceased(self._reply.count, self._passed_up())

    def set_weight(self, station: int, weight: int) -> None:
        """Sets the weight of a live station in airtime, 1 to 16."""
        if station >> 16 or weight >> 8:
            raise out_of_range(station=(station, 16), weight=(weight, 8))
        call = self._calls[CallKind.WEIGHT]
        call.struct.station, call.struct.weight = station, weight
        self._must(self._code(call))

    def leave(self, station: int) -> int:
        """Makes a station leave, and returns how many of its frames were dropped."""
        self._of_station(CallKind.LEAVE, station)
        return self._reply.count

    def set_rate(self, station: int, rate: Rate) -> None:
        """Sets the rate of data to a station."""
        form, mcs, mhz, short, streams, guard, speed = rate
        if station >> 16 or mcs >> 8 or mhz >> 8 or streams >> 8 or guard >> 16 or speed >> 8:
            other = {"streams": (streams, 8), "guard": (guard, 16), "speed": (speed, 8)}
            raise out_of_range(station=(station, 16), mcs=(mcs, 8), mhz=(mhz, 8), **other)
        call = self._calls[CallKind.RATE]
        made = call.struct
        made.station, made.form, made.mcs, made.mhz = station, Form(form), mcs, mhz
        made.short_guard, made.streams, made.guard, made.speed = short, streams, guard, speed
        self._must(self._code(call))

    def sleep(self, station: int) -> None:
        """Says that a station goes to sleep."""
        self._of_station(CallKind.SLEEP, station)

    def wake(self, station: int) -> None:
        """Says that a sleeping station wakes."""
        self._of_station(CallKind.WAKE, station)

    def poll(self, station: int) -> AccessClass:
        """Says that a sleeping station asks for one frame, and returns the class that may send it."""
        self._of_station(CallKind.POLL, station)
        return CLASSES[self._reply.class_]

    def apsd(self, station: int, classes: int, most: int = 0) -> None:
        """Sets the delivery-enabled classes of a station that is awake, and the most frames of its service
        periods; 0 limits nothing. `classes` is the sum of 1 for bk, 2 for be, 4 for vi and 8 for vo."""
        if station >> 16 or classes >> 8 or most >> 8:
            raise out_of_range(station=(station, 16), classes=(classes, 8), most=(most, 8))
        call = self._calls[CallKind.APSD]
        call.struct.station, call.struct.classes, call.struct.most = station, classes, most
        self._must(self._code(call))

    def trigger(self, station: int) -> AccessClass:
        """Says that a sleeping station sent a trigger frame, which opens a service period. Returns the class to
        pull first. Raises Nothing if no delivery-enabled class can send."""
        self._of_station(CallKind.TRIGGER, station)
        return CLASSES[self._reply.class_]

    def end_service(self, station: int) -> None:
        """Ends the service period of a station to which the device sent a QoS Null frame with the EOSP bit."""
        self._of_station(CallKind.EOSP, station)

    def set_bss(self, station: int, bss: int) -> None:
        """Sets the BSS of a live station that is awake, 0 to `bsses` - 1. A station that joins is of BSS 0."""
        if station >> 16 or bss >> 8:
            raise out_of_range(station=(station, 16), bss=(bss, 8))
        call = self._calls[CallKind.BSS]
        call.struct.station, call.struct.bss = station, bss
        self._must(self._code(call))

    def set_ampdu(self, station: int, octets: int) -> None:
        """Sets the most octets of aggregates of VHT and HE to a station, 4,096 to 6,500,631."""
        if station >> 16 or octets >> 32:
            raise out_of_range(station=(station, 16), octets=(octets, 32))
        call = self._calls[CallKind.AMPDU]
        call.struct.station, call.struct.octets = station, octets
        self._must(self._code(call))

    def stop(self, station: int) -> None:
        """Stops a station: no pull picks it until it is started."""
        self._of_station(CallKind.STOP, station)

    def start(self, station: int) -> None:
        """Starts a station that is stopped: pulls may pick it again."""
        self._of_station(CallKind.START, station)

    def flush(self, station: int, tid: int) -> int:
        """Drops the frames of a station's TID that are not on the air, and returns how many they are."""
        self._of_tid(CallKind.FLUSH, station, tid)
        return self._reply.count

    def rx(self, station: int, class_: int, air: int) -> int:
        """Charges a station for airtime that it used to send, and returns its deficit."""
        if station >> 16 or class_ >> 2 or air >> 32:
            raise out_of_range(station=(station, 16), class_=(class_, 2), air=(air, 32))
        call = self._calls[CallKind.RX]
        call.struct.station, call.struct.class_, call.struct.air = station, class_, air
        self._must(self._code(call))
        return self._reply.deficit

    def tick(self, by: int) -> int:
        """Moves the clock on by at most 10,000,000 microseconds, and returns it."""
        if by >> 32:
            raise out_of_range(by=(by, 32))
        call = self._calls[CallKind.TICK]
        call.struct.by = by
        self._must(self._code(call))
        return self._reply.now

    # ---- frames and exchanges

    def enqueue(
        self, station: int, body: Body, tid: int = 0, flow: int = 0, tag: int = 0, source: bytes = NO_SOURCE
    ) -> Accepted:
        """Accepts a packet for a station as a frame. The body is copied; a number means a body of
        that many zeros.

        The tag comes back with the frame. The history has neither source nor tag.
        """
        if station >> 16:
            raise out_of_range(station=(station, 16))
        self._fill_packet(body, tid, flow, tag, source)
        code = _enqueue(self._at, self._caller, station, self._packet_at, self._reply_at)
        if code:
            raise self._error(code)
        return self._accepted()

    def enqueue_bare(
        self, station: int, length: int, tid: int = 0, flow: int = 0, tag: int = 0, source: bytes = NO_SOURCE
    ) -> Accepted:
        """Accepts a packet for a station as a frame without octets, which are zeros to the station.

        The other arguments are as for `enqueue`.
        """
        if station >> 16:
            raise out_of_range(station=(station, 16))
        self._fill_bare(length, tid, flow, tag, source)
        self._must(C.wf_cell_enqueue_bare(self._at, self._caller, station, self._bare_at, self._reply_at))
        return self._accepted()

    def burst(self, calls: Sequence[Call]) -> Burst:
        """Makes calls in order, up to the first that is not made. An enqueue is one of `enqueue_bare` with the
        tag 0, and a reap frees its frame."""
        return self._made(C.wf_cell_burst, (self._caller,), calls)

    def pull(self, class_: int, frames: int = 0, air: int = 0) -> Exchange:
        """Opens the next exchange of a class. Raises Idle, Full or the like if there is none.

        An aggregate has at most `frames` frames, and its data take at most `air` microseconds; 0 limits
        nothing. One frame goes whatever the limits are.
        """
        self._must(self._pull_code(class_, frames, air))
        return self._opened()

    def try_pull(self, class_: int, frames: int = 0, air: int = 0) -> Exchange | None:
        """Does what `pull` does, and returns None if there is none now."""
        code = self._pull_code(class_, frames, air)
        if code in WAITS:
            return None
        self._must(code)
        return self._opened()

    def arrive(self, exchange: int, index: int) -> list[int]:
        """Lets a transmission arrive at its station, and returns the ids of the frames that the station
        passed up."""
        if exchange >> 64 or index >> 16:
            raise out_of_range(exchange=(exchange, 64), index=(index, 16))
        made = self._arrive.struct
        made.exchange, made.index = exchange, index
        code = _ask(self._at, self._caller, self._arrive.at, self._reply_at)
        if code:
            raise self._error(code)
        return self._passed_up()

    def unsent(self, exchange: int, index: int) -> None:
        """Marks a transmission that never went on the air: its frame waits to be sent again when the exchange
        ends, and this transmission does not count in its attempts."""
        self._mark(CallKind.UNSENT, exchange, index)

    def give_up(self, exchange: int, index: int) -> None:
        """Marks a transmission that the device will not try again: its frame is dropped when the exchange ends,
        unless it is acknowledged."""
        self._mark(CallKind.GIVEUP, exchange, index)

    def answer(self, exchange: int) -> Block:
        """Lets the station answer an exchange, and returns its BlockAck, or its Ack if the exchange is plain."""
        if exchange >> 64:
            raise out_of_range(exchange=(exchange, 64))
        call = self._calls[CallKind.ANSWER]
        call.struct.exchange = exchange
        self._must(self._code(call))
        if self._reply.kind == Kind.ACK:
            return Block(0, 0, False, ack=True)
        block = tables.BlockStruct()
        C.wf_cell_block(self._at, ctypes.byref(block))
        return Block(block.start, int.from_bytes(block.bits, "little"), block.wide != 0)

    def done(self, exchange: int, heard: bool, air: int = 0) -> Done:
        """Ends an exchange, whose answer was heard or lost. `air` is the measured airtime, or 0 for the one
        of `pull`."""
        if exchange >> 64 or air >> 32:
            raise out_of_range(exchange=(exchange, 64), air=(air, 32))
        made = self._done.struct
        made.exchange, made.heard, made.air = exchange, 1 if heard else 0, air
        code = _ask(self._at, self._caller, self._done.at, self._reply_at)
        if code:
            raise self._error(code)
        reply = self._reply
        return Done(reply.acked, reply.waiting, reply.failed)

    def reap(self, body: bool = False) -> Reaped:
        """Takes the first finished frame out of the cell, with its octets if `body` is true. Raises Nothing
        if there is none."""
        self._must(self._reap_code(body))
        return self._reaped(body)

    def try_reap(self, body: bool = False) -> Reaped | None:
        """Does what `reap` does, and returns None instead of raising Nothing."""
        code = self._reap_code(body)
        if code == _NOTHING:
            return None
        self._must(code)
        return self._reaped(body)

    def reap_all(self, body: bool = False) -> list[Reaped]:
        """Takes all finished frames out of the cell. The last reap finds none; it is an entry of the history,
        too."""
        found: list[Reaped] = []
        while True:
            code = self._reap_code(body)
            if code == _NOTHING:
                return found
            self._must(code)
            found.append(self._reaped(body))

    # ---- group frames. Each function is about one BSS, and raises BadBss if it does not exist.

    def group(self, length: int, bss: int = 0) -> int:
        """Puts a group frame with this length in octets at the end of the queue of a BSS, and returns its id. Raises
        Buffered if `buffered` group frames of the BSS are queued."""
        if length >> 16:
            raise out_of_range(length=(length, 16))
        self._calls[CallKind.GROUP].struct.length = length
        self._of_bss(CallKind.GROUP, bss)
        return self._reply.id

    def beacon(self, bss: int = 0) -> Beacon:
        """Reports that a beacon of a BSS goes out. Returns its DTIM count, and whether it announces group frames."""
        self._of_bss(CallKind.BEACON, bss)
        return self._beacon()

    def group_pull(self, bss: int = 0) -> GroupSend:
        """Takes the first group frame of a BSS out of its queue, and puts it on the air. Raises Idle if none may go now,
        or Flying if one is on the air."""
        self._of_bss(CallKind.GPULL, bss)
        return self._group_send()

    def group_done(self, bss: int = 0) -> int:
        """Reports that the transmission of the group frame of a BSS on the air has ended, and returns its id. Raises
        Nothing if none is on the air."""
        self._of_bss(CallKind.GDONE, bss)
        return self._reply.id

    # ---- the history

    def __len__(self) -> int:
        """Returns how many entries the history has."""
        return int(C.wf_cell_len(self._at))

    def __bool__(self) -> bool:
        """Returns true: a cell with an empty history is a cell, too."""
        return True

    @property
    def room(self) -> int:
        """How many more entries the history has room for."""
        return int(C.wf_cell_room(self._at))

    def entry(self, place: int) -> trace.Entry:
        """Returns an entry of the history; `place` counts from 0. Raises BadIndex if the history is
        shorter."""
        if place >> 64:
            raise out_of_range(place=(place, 64))
        caller, call = ctypes.c_uint32(), CallStruct()
        self._must(C.wf_cell_entry(self._at, place, ctypes.byref(caller), ctypes.byref(call)))
        return trace.entry(caller.value, call)

    def trace(self) -> Iterator[str]:
        """Yields the lines of the trace of all calls so far, which `./wf replay` replays."""
        yield trace.head(self.settings)
        for place in range(len(self)):
            yield str(self.entry(place))
        yield "end"

    # ---- parts

    def _must(self, code: int) -> None:
        """Raises the exception of a code other than 0."""
        if code:
            raise self._error(code)

    def _code(self, call: Call) -> int:
        """Makes a call, and returns its code."""
        return int(_ask(self._at, self._caller, call.at, self._reply_at))

    def _of_station(self, kind: CallKind, station: int) -> None:
        """Makes a call that has only a station."""
        if station >> 16:
            raise out_of_range(station=(station, 16))
        call = self._calls[kind]
        call.struct.station = station
        self._must(self._code(call))

    def _of_bss(self, kind: CallKind, bss: int) -> None:
        """Makes a call about the group frames of a BSS."""
        check_bss(bss)
        call = self._calls[kind]
        call.struct.bss = bss
        self._must(self._code(call))

    def _of_tid(self, kind: CallKind, station: int, tid: int) -> None:
        """Makes a call that has a station and a TID."""
        if station >> 16 or tid >> 8:
            raise out_of_range(station=(station, 16), tid=(tid, 8))
        call = self._calls[kind]
        call.struct.station, call.struct.tid = station, tid
        self._must(self._code(call))

    def _passed_up(self) -> list[int]:
        """Returns the ids of the frames that a station passed up by the last call."""
        _released(self._at, self._up_at)
        found: list[int] = self._up_ids[: self._up.count].tolist()
        return found

    def _mark(self, kind: CallKind, exchange: int, index: int) -> None:
        """Marks a transmission."""
        if exchange >> 64 or index >> 16:
            raise out_of_range(exchange=(exchange, 64), index=(index, 16))
        call = self._calls[kind]
        call.struct.exchange, call.struct.index = exchange, index
        self._must(self._code(call))

    def _pull_code(self, class_: int, frames: int, air: int) -> int:
        """Makes the call of a pull."""
        if class_ >> 2 or frames >> 32 or air >> 32:
            raise out_of_range(class_=(class_, 2), frames=(frames, 32), air=(air, 32))
        call = self._calls[CallKind.PULL]
        call.struct.class_, call.struct.frames, call.struct.air = class_, frames, air
        return self._code(call)

    def _opened(self) -> Exchange:
        """Returns the answer to a pull."""
        _frames(self._at, self._frames_at)
        return self._exchange()

    def _reap_code(self, body: bool) -> int:
        """Makes the call of a reap."""
        if body:
            return int(_reap(self._at, self._caller, self._reply_at, self._taken_at, self._octets, BODY_ROOM))
        return int(_reap(self._at, self._caller, self._reply_at, self._taken_at, None, NO_ROOM))
