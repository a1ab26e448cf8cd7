"""A transmit path, for drivers and simulators: class Path."""
from __future__ import annotations

import ctypes
import struct
from collections.abc import Iterable, Sequence

from . import _tables as tables
from ._handle import BODY_ROOM, NO_ROOM, NO_SOURCE, QUICK, WAITS, Body, C, Handle, address_octets, check_bss
from ._library import out_of_range
from ._tables import AccessClass, Form, Settings
from .answers import CLASSES, Accepted, Beacon, Burst, Codel, Done, Exchange, Group, GroupCounts, GroupSend, Reaped
from .answers import Sent, Share, Tally
from .errors import Nothing
from .rates import Rate
from .raw import Call

_enqueue = QUICK.wf_path_enqueue
_enqueue_bare = QUICK.wf_path_enqueue_bare
_pull = QUICK.wf_path_pull
_reap = QUICK.wf_path_reap
_can_pull = QUICK.wf_path_can_pull
_tick = QUICK.wf_path_tick
_now = QUICK.wf_path_now
_done_lost = QUICK.wf_path_done_lost
_done_bits = QUICK.wf_path_done_bits
_done_ack = QUICK.wf_path_done_ack
_number = ctypes.c_uint64
_NOTHING = Nothing.code
_TALLY = struct.Struct(tables.TallyStruct.LAYOUT)
_SHARE = struct.Struct(tables.ShareStruct.LAYOUT)


class Path(Handle):
    """A transmit path, with a driver that sends its exchanges and reports how they ended.

    `Path(stations=4, inflight=1)` makes one with these settings and standard ones. Numbers of stations count
    from 0, times are in microseconds. A refused call raises the exception of its refusal (wfpath.errors);
    then nothing has changed.
    """

    def __init__(self, settings: Settings | None = None, /, **fields: int) -> None:
        super().__init__(settings, fields, "path", tables.PathStruct())

    # ---- stations

    def join(
        self, station: int, window: int = 64, start: int = 0, exponent: int = 3, weight: int = 1
    ) -> None:
        """Makes a station live: its window in frames, first sequence number, A-MPDU length exponent, and
        weight in airtime."""
        if station >> 16 or window >> 16 or start >> 16 or exponent >> 8 or weight >> 8:
            other = {"exponent": (exponent, 8), "weight": (weight, 8)}
            raise out_of_range(station=(station, 16), window=(window, 16), start=(start, 16), **other)
        self._must(C.wf_path_join(self._at, station, window, start, exponent, weight, self._reply_at))

    def join_offload(self, station: int, exponent: int = 3, weight: int = 1) -> None:
        """Makes a station live whose device numbers, aggregates and repeats its frames: its A-MPDU length
        exponent, and weight in airtime. Each exchange to it is a batch, which ends by `done_each`."""
        if station >> 16 or exponent >> 8 or weight >> 8:
            raise out_of_range(station=(station, 16), exponent=(exponent, 8), weight=(weight, 8))
        self._must(C.wf_path_join_offload(self._at, station, exponent, weight, self._reply_at))

    def plain(self, station: int, start: int = 0, exponent: int = 3, weight: int = 1) -> None:
        """Makes a station live without agreements: its first sequence number, A-MPDU length exponent, and weight
        in airtime. Its TIDs are plain: each exchange is one frame, which ends by `done_ack`."""
        if station >> 16 or start >> 16 or exponent >> 8 or weight >> 8:
            other = {"exponent": (exponent, 8), "weight": (weight, 8)}
            raise out_of_range(station=(station, 16), start=(start, 16), **other)
        self._must(C.wf_path_plain(self._at, station, start, exponent, weight, self._reply_at))

    def hold(self, station: int, tid: int) -> int:
        """Holds a plain TID: no frame of it gets a sequence number until `begin` or `free`. Returns the number
        that an ADDBA request has to give."""
        self._ask_tid(C.wf_path_hold, station, tid)
        return self._reply.start

    def begin(self, station: int, tid: int, window: int) -> None:
        """Begins the agreement of a held TID, with a window in frames. Raises Open or Waits until the TID is
        drained."""
        if station >> 16 or tid >> 8 or window >> 16:
            raise out_of_range(station=(station, 16), tid=(tid, 8), window=(window, 16))
        self._must(C.wf_path_begin(self._at, station, tid, window, self._reply_at))

    def free(self, station: int, tid: int) -> None:
        """Makes a held TID plain again. To free the path, call `close`."""
        self._ask_tid(C.wf_path_free_tid, station, tid)

    def cease(self, station: int, tid: int) -> int:
        """Ends the agreement of a TID, which is then held. Returns how many frames were dropped: those that had
        sequence numbers and waited to be sent again."""
        self._ask_tid(C.wf_path_cease, station, tid)
        return self._reply.count

    def set_weight(self, station: int, weight: int) -> None:
        """Sets the weight of a live station in airtime, 1 to 16."""
        if station >> 16 or weight >> 8:
            raise out_of_range(station=(station, 16), weight=(weight, 8))
        self._must(C.wf_path_weight(self._at, station, weight, self._reply_at))

    def leave(self, station: int) -> int:
        """Makes a station leave, and returns how many of its frames were dropped."""
        self._of_station(C.wf_path_leave, station)
        return self._reply.count

    def set_rate(self, station: int, rate: Rate) -> None:
        """Sets the rate of data to a station."""
        form, mcs, mhz, short, streams, guard, speed = rate
        if station >> 16 or mcs >> 8 or mhz >> 8 or streams >> 8 or guard >> 16 or speed >> 8:
            other = {"streams": (streams, 8), "guard": (guard, 16), "speed": (speed, 8)}
            raise out_of_range(station=(station, 16), mcs=(mcs, 8), mhz=(mhz, 8), **other)
        if form == Form.HT:
            code = C.wf_path_rate_ht(self._at, station, mcs, mhz, short, self._reply_at)
        elif form == Form.VHT:
            code = C.wf_path_rate_vht(self._at, station, mcs, mhz, short, streams, self._reply_at)
        elif form == Form.HE:
            code = C.wf_path_rate_he(self._at, station, mcs, mhz, guard, streams, self._reply_at)
        elif form == Form.OFDM:
            code = C.wf_path_rate_ofdm(self._at, station, speed, self._reply_at)
        else:
            code = C.wf_path_rate_dsss(self._at, station, speed, self._reply_at)
        self._must(code)

    def sleep(self, station: int) -> None:
        """Says that a station goes to sleep."""
        self._of_station(C.wf_path_sleep, station)

    def wake(self, station: int) -> None:
        """Says that a sleeping station wakes."""
        self._of_station(C.wf_path_wake, station)

    def poll(self, station: int) -> AccessClass:
        """Says that a sleeping station asks for one frame, and returns the class that may send it."""
        self._of_station(C.wf_path_poll, station)
        return CLASSES[self._reply.class_]

    def apsd(self, station: int, classes: int, most: int = 0) -> None:
        """Sets the delivery-enabled classes of a station that is awake, and the most frames of its service
        periods; 0 limits nothing. `classes` is the sum of 1 for bk, 2 for be, 4 for vi and 8 for vo."""
        if station >> 16 or classes >> 8 or most >> 8:
            raise out_of_range(station=(station, 16), classes=(classes, 8), most=(most, 8))
        self._must(C.wf_path_apsd(self._at, station, classes, most, self._reply_at))

    def trigger(self, station: int) -> AccessClass:
        """Says that a sleeping station sent a trigger frame, which opens a service period. Returns the class to
        pull first. Raises Nothing if no delivery-enabled class can send."""
        self._of_station(C.wf_path_trigger, station)
        return CLASSES[self._reply.class_]

    def end_service(self, station: int) -> None:
        """Ends the service period of a station to which the device sent a QoS Null frame with the EOSP bit."""
        self._of_station(C.wf_path_end_service, station)

    def set_bss(self, station: int, bss: int) -> None:
        """Sets the BSS of a live station that is awake, 0 to `bsses` - 1. A station that joins is of BSS 0."""
        if station >> 16 or bss >> 8:
            raise out_of_range(station=(station, 16), bss=(bss, 8))
        self._must(C.wf_path_set_station_bss(self._at, station, bss, self._reply_at))

    def set_ampdu(self, station: int, octets: int) -> None:
        """Sets the most octets of aggregates of VHT and HE to a station, 4,096 to 6,500,631."""
        if station >> 16 or octets >> 32:
            raise out_of_range(station=(station, 16), octets=(octets, 32))
        self._must(C.wf_path_ampdu(self._at, station, octets, self._reply_at))

    def stop(self, station: int) -> None:
        """Stops a station: no pull picks it until it is started."""
        self._of_station(C.wf_path_stop, station)

    def start(self, station: int) -> None:
        """Starts a station that is stopped: pulls may pick it again."""
        self._of_station(C.wf_path_start, station)

    def flush(self, station: int, tid: int) -> int:
        """Drops the frames of a station's TID that are not on the air, and returns how many they are."""
        self._ask_tid(C.wf_path_flush, station, tid)
        return self._reply.count

    def rx(self, station: int, class_: int, air: int) -> int:
        """Charges a station for airtime that it used to send, and returns its deficit."""
        if station >> 16 or class_ >> 2 or air >> 32:
            raise out_of_range(station=(station, 16), class_=(class_, 2), air=(air, 32))
        self._must(C.wf_path_rx(self._at, station, class_, air, self._reply_at))
        return self._reply.deficit

    # ---- time

    def tick(self, by: int) -> int:
        """Moves the clock on by at most 10,000,000, and returns it."""
        if by >> 32:
            raise out_of_range(by=(by, 32))
        self._must(_tick(self._at, by, self._reply_at))
        return self._reply.now

    def advance(self, now: int) -> None:
        """Moves the clock on to a time."""
        if now >> 64:
            raise out_of_range(now=(now, 64))
        self._must(C.wf_path_advance(self._at, now, self._reply_at))

    # ---- frames and exchanges

    def enqueue(
        self, station: int, body: Body, tid: int = 0, flow: int = 0, tag: int = 0, source: bytes = NO_SOURCE
    ) -> Accepted:
        """Accepts a packet for a station as a frame. The body is copied; a number means a body of
        that many zeros.

        The tag comes back with the frame. `source` is the third address of its header; six zeros mean a
        placeholder.
        """
        if station >> 16:
            raise out_of_range(station=(station, 16))
        self._fill_packet(body, tid, flow, tag, source)
        code = _enqueue(self._at, station, self._packet_at, self._reply_at)
        if code:
            raise self._error(code)
        return self._accepted()

    def enqueue_bare(
        self, station: int, length: int, tid: int = 0, flow: int = 0, tag: int = 0, source: bytes = NO_SOURCE
    ) -> Accepted:
        """Accepts a packet for a station as a frame without octets: its owner keeps the `length` octets, and
        sends them after `header`. `mpdu` raises NoBody for it.

        The other arguments are as for `enqueue`.
        """
        if station >> 16:
            raise out_of_range(station=(station, 16))
        self._fill_bare(length, tid, flow, tag, source)
        code = _enqueue_bare(self._at, station, self._bare_at, self._reply_at)
        if code:
            raise self._error(code)
        return self._accepted()

    def reserve(self, frames: int) -> None:
        """Takes memory for this number of frames without octets. The next calls of `enqueue_bare`, as many,
        take none."""
        if frames >> 32:
            raise out_of_range(frames=(frames, 32))
        self._must(C.wf_path_reserve(self._at, frames))

    def burst(self, calls: Sequence[Call]) -> Burst:
        """Makes calls in order, up to the first that is not made. An enqueue is one of `enqueue_bare` with the
        tag 0, a reap frees its frame, and a done is `done_lost`."""
        return self._made(C.wf_path_burst, (), calls)

    def pull(self, class_: int, frames: int = 0, air: int = 0) -> Exchange:
        """Opens the next exchange of a class, which the driver then sends. Raises Idle, Full or the like if
        there is none.

        An aggregate has at most `frames` frames, and its data take at most `air` microseconds; 0 limits
        nothing. One frame goes whatever the limits are.
        """
        self._must(self._pull_code(class_, frames, air))
        return self._exchange()

    def _pull_code(self, class_: int, frames: int, air: int) -> int:
        if class_ >> 2 or frames >> 32 or air >> 32:
            raise out_of_range(class_=(class_, 2), frames=(frames, 32), air=(air, 32))
        if frames or air:
            return int(C.wf_path_pull_limited(self._at, class_, frames, air, self._reply_at, self._frames_at))
        return int(_pull(self._at, class_, self._reply_at, self._frames_at))

    def try_pull(self, class_: int, frames: int = 0, air: int = 0) -> Exchange | None:
        """Does what `pull` does, and returns None if there is none now."""
        code = self._pull_code(class_, frames, air)
        if code in WAITS:
            return None
        self._must(code)
        return self._exchange()

    def can_pull(self, class_: int) -> bool:
        """Returns whether `pull` of a class would open an exchange now."""
        if class_ >> 2:
            raise out_of_range(class_=(class_, 2))
        return bool(_can_pull(self._at, class_))

    def done_lost(self, exchange: int, air: int = 0) -> Done:
        """Ends an exchange whose BlockAck was not heard. `air` is the measured airtime, or 0 for the one of
        `pull`."""
        if exchange >> 64 or air >> 32:
            raise out_of_range(exchange=(exchange, 64), air=(air, 32))
        return self._done(_done_lost(self._at, _number(exchange), air, self._reply_at))

    def done_ack(self, exchange: int, acked: bool, air: int = 0) -> Done:
        """Ends a plain exchange, whose Ack was heard or not. `air` is the measured airtime, or 0 for the one of
        `pull`. Raises Marked if the transmission has a mark."""
        if exchange >> 64 or air >> 32:
            raise out_of_range(exchange=(exchange, 64), air=(air, 32))
        heard = 1 if acked else 0
        return self._done(_done_ack(self._at, _number(exchange), heard, air, self._reply_at))

    def done_bits(self, exchange: int, start: int, bits: int | bytes, air: int = 0) -> Done:
        """Ends an exchange by the start and the bitmap of a BlockAck: bit n is for the sequence number start
        + n."""
        if exchange >> 64 or start >> 16 or air >> 32:
            raise out_of_range(exchange=(exchange, 64), start=(start, 16), air=(air, 32))
        octets = bits.to_bytes(32, "little") if isinstance(bits, int) else bytes(bits).ljust(32, b"\0")
        if len(octets) > 32:
            raise ValueError(f"bits has {len(octets)} octets: expected at most 32")
        return self._done(_done_bits(self._at, _number(exchange), start, octets, air, self._reply_at))

    def done_octets(self, exchange: int, octets: bytes, air: int = 0) -> Done:
        """Ends an exchange by the octets of a BlockAck, without its check sequence. Raises BlockError if they
        are none."""
        if exchange >> 64 or air >> 32:
            raise out_of_range(exchange=(exchange, 64), air=(air, 32))
        given = bytes(octets)
        return self._done(C.wf_path_done_octets(self._at, exchange, given, len(given), air, self._reply_at))

    def done_each(self, exchange: int, outcomes: Iterable[int], air: int = 0) -> Done:
        """Ends an exchange by what became of each of its transmissions, in their order: numbers of `Outcome`. In
        a batch `RETRY` does what `GAVE_UP` does."""
        if exchange >> 64 or air >> 32:
            raise out_of_range(exchange=(exchange, 64), air=(air, 32))
        given = bytes(list(outcomes))
        return self._done(C.wf_path_done_each(self._at, exchange, given, len(given), air, self._reply_at))

    def cancel(self, exchange: int) -> Done:
        """Ends an exchange of which nothing went on the air: its frames wait to be sent again."""
        if exchange >> 64:
            raise out_of_range(exchange=(exchange, 64))
        return self._done(C.wf_path_cancel(self._at, exchange, self._reply_at))

    def reap(self, body: bool = False) -> Reaped:
        """Takes the first finished frame out of the path, with its octets if `body` is true. Raises Nothing
        if there is none."""
        self._must(self._reap_code(body))
        return self._reaped(body)

    def try_reap(self, body: bool = False) -> Reaped | None:
        """Does what `reap` does, and returns None instead of raising Nothing."""
        code = self._reap_code(body)
        if code == _NOTHING:
            return None
        self._must(code)
        return self._reaped(body)

    def reap_all(self, body: bool = False) -> list[Reaped]:
        """Takes all finished frames out of the path."""
        found: list[Reaped] = []
        while True:
            code = self._reap_code(body)
            if code == _NOTHING:
                return found
            self._must(code)
            found.append(self._reaped(body))

    # ---- group frames. Each function is about one BSS, and raises BadBss if it does not exist.

    def group(self, to: bytes, length: int, tag: int = 0, bss: int = 0) -> int:
        """Puts a group frame to the group address `to` at the end of the queue of a BSS, and returns its id. The owner
        keeps its `length` octets, and sends them after `group_header`. Raises Buffered if `buffered` group frames of
        the BSS are queued."""
        if length >> 16 or tag >> 64 or bss >> 8:
            raise out_of_range(length=(length, 16), tag=(tag, 64), bss=(bss, 8))
        self._must(C.wf_path_group(self._at, bss, address_octets(to), length, tag, self._reply_at))
        return self._reply.id

    def beacon(self, bss: int = 0) -> Beacon:
        """Reports that a beacon of a BSS goes out. Returns its DTIM count, and whether it announces group frames."""
        check_bss(bss)
        self._must(C.wf_path_beacon(self._at, bss, self._reply_at))
        return self._beacon()

    def group_pull(self, bss: int = 0) -> GroupSend:
        """Takes the first group frame of a BSS out of its queue, and returns it; the driver then sends it. Raises Idle
        if none may go now, or Flying if one is on the air."""
        check_bss(bss)
        group = tables.GroupStruct()
        self._must(C.wf_path_group_pull(self._at, bss, ctypes.byref(group), self._reply_at))
        return self._group_send()._replace(frame=group_of(group))

    def group_header(self, source: bytes, bss: int = 0) -> bytes:
        """Returns the header of the group frame of a BSS on the air, 24 octets, with this source address."""
        check_bss(bss)
        self._must(C.wf_path_group_header(self._at, bss, address_octets(source), self._octets))
        return bytes(self._octets_view[: tables.GROUP_HEADER])

    def group_done(self, bss: int = 0) -> Group:
        """Reports that the transmission of the group frame of a BSS on the air has ended, and returns the frame. Raises
        Nothing if none is on the air."""
        check_bss(bss)
        group = tables.GroupStruct()
        self._must(C.wf_path_group_done(self._at, bss, ctypes.byref(group), self._reply_at))
        return group_of(group)

    def group_counts(self, bss: int = 0) -> GroupCounts:
        """Returns how many group frames of a BSS were accepted, sent, and are queued or on the air."""
        check_bss(bss)
        counts = tables.GroupCountsStruct()
        self._must(C.wf_path_group_counts(self._at, bss, ctypes.byref(counts)))
        return GroupCounts(counts.accepted, counts.sent, counts.queued, counts.flying, counts.air)

    # ---- an open exchange

    def sent(self, exchange: int) -> Sent:
        """Returns the station of an open exchange, and what it sends."""
        if exchange >> 64:
            raise out_of_range(exchange=(exchange, 64))
        sent = tables.SentStruct()
        self._must(C.wf_path_sent(self._at, exchange, ctypes.byref(sent)))
        return Sent(sent.station, sent.count, sent.tid, sent.request != 0)

    def frame_id(self, exchange: int, index: int) -> int:
        """Returns the id of the frame of a transmission; `index` counts from 0."""
        return self._of_frame(C.wf_path_frame_id, exchange, index)

    def frame_tag(self, exchange: int, index: int) -> int:
        """Returns the tag of the frame of a transmission."""
        return self._of_frame(C.wf_path_frame_tag, exchange, index)

    def header(self, exchange: int, index: int) -> bytes:
        """Returns the header of a data transmission: 26 octets."""
        self._check_index(exchange, index)
        self._must(C.wf_path_header(self._at, exchange, index, self._octets))
        return bytes(self._octets_view[: tables.HEADER])

    def mpdu(self, exchange: int, index: int) -> bytes:
        """Returns the octets of a transmission, without its check sequence."""
        self._check_index(exchange, index)
        size, room = ctypes.c_size_t(), tables.GREATEST_MPDU
        self._must(C.wf_path_mpdu(self._at, exchange, index, self._octets, room, ctypes.byref(size)))
        return bytes(self._octets_view[: size.value])

    def unsent(self, exchange: int, index: int) -> None:
        """Marks a transmission that never went on the air: its frame waits to be sent again when the exchange
        ends, and this transmission does not count in its attempts."""
        self._check_index(exchange, index)
        self._must(C.wf_path_unsent(self._at, exchange, index, self._reply_at))

    def give_up(self, exchange: int, index: int) -> None:
        """Marks a transmission that the device will not try again: its frame is dropped when the exchange ends,
        unless it is acknowledged."""
        self._check_index(exchange, index)
        self._must(C.wf_path_give_up(self._at, exchange, index, self._reply_at))

    # ---- addresses

    def set_base(self, address: bytes) -> None:
        """Sets the access point's address in each BSS that has none of its own: six octets, in the order of the
        air."""
        self._must(C.wf_path_set_base(self._at, address_octets(address)))

    def set_address(self, station: int, address: bytes) -> None:
        """Sets the address of a station, live or not."""
        if station >> 16:
            raise out_of_range(station=(station, 16))
        self._must(C.wf_path_set_address(self._at, station, address_octets(address)))

    def set_bss_address(self, bss: int, address: bytes) -> None:
        """Sets the access point's address in one BSS, which `set_base` then does not change."""
        check_bss(bss)
        self._must(C.wf_path_set_bss(self._at, bss, address_octets(address)))

    def set_aid(self, station: int, aid: int) -> None:
        """Sets the association identifier of a station, live or not, 1 to 2007. At first it is the station number
        plus 1."""
        if station >> 16 or aid >> 16:
            raise out_of_range(station=(station, 16), aid=(aid, 16))
        self._must(C.wf_path_set_aid(self._at, station, aid))

    @property
    def base(self) -> bytes:
        """The access point's address."""
        C.wf_path_base(self._at, self._octets)
        return bytes(self._octets_view[:6])

    def address(self, station: int) -> bytes:
        """Returns the address of a station, live or not."""
        self._of_station_read(C.wf_path_address, station, self._octets)
        return bytes(self._octets_view[:6])

    # ---- reading

    @property
    def now(self) -> int:
        """The clock."""
        return int(_now(self._at))

    @property
    def exchanges(self) -> int:
        """How many exchanges were opened so far."""
        return int(C.wf_path_exchanges(self._at))

    @property
    def open_count(self) -> int:
        """How many exchanges are open."""
        return int(C.wf_path_open_count(self._at))

    @property
    def has_small_counts(self) -> bool:
        """Whether all counts are below 2^62, as every other call requires."""
        return bool(C.wf_path_has_small_counts(self._at))

    def live(self, station: int) -> bool:
        """Returns whether a station is live."""
        return station >> 16 == 0 and bool(C.wf_path_live(self._at, station))

    def in_service(self, station: int) -> bool:
        """Returns whether a service period of a station is open."""
        return station >> 16 == 0 and bool(C.wf_path_in_service(self._at, station))

    def tally(self) -> Tally:
        """Returns how many frames were accepted, and how many of them have each fate."""
        tally = tables.TallyStruct()
        C.wf_path_tally(self._at, ctypes.byref(tally))
        return Tally(*_TALLY.unpack_from(tally)[: len(Tally._fields)])

    def share(self, station: int, class_: int) -> Share:
        """Returns a station's airtime in a class."""
        if station >> 16 or class_ >> 2:
            raise out_of_range(station=(station, 16), class_=(class_, 2))
        share = tables.ShareStruct()
        self._must(C.wf_path_share(self._at, station, class_, ctypes.byref(share)))
        return Share(*_SHARE.unpack_from(share)[: len(Share._fields)])

    def pending(self, station: int, class_: int) -> int:
        """Returns a station's airtime in flight in a class: the computed airtime of its open exchanges."""
        if station >> 16 or class_ >> 2:
            raise out_of_range(station=(station, 16), class_=(class_, 2))
        air = ctypes.c_uint32()
        self._must(C.wf_path_pending(self._at, station, class_, ctypes.byref(air)))
        return air.value

    def listed(self, station: int, class_: int) -> int:
        """Returns the list of a class that has a station: 1 the new list, 2 the old list, 0 neither."""
        if station >> 16 or class_ >> 2:
            raise out_of_range(station=(station, 16), class_=(class_, 2))
        return int(C.wf_path_listed(self._at, station, class_))

    def queued(self, station: int, tid: int) -> int:
        """Returns how many frames of a station's TID are in flow queues."""
        return self._of_tid(C.wf_path_queued, station, tid)

    def octets(self, station: int, tid: int) -> int:
        """Returns the octets of the bodies of a station's TID in flow queues."""
        return self._of_tid(C.wf_path_octets, station, tid, ctypes.c_uint64)

    def codel(self, queue: int) -> Codel:
        """Returns the octets of a queue, and the state of CoDel in it. The frames of a flow are in queue `flow`
        modulo `flows` or, if another TID uses this queue, in queue `flows` + 8 * station + TID. Raises BadIndex
        if the queue does not exist."""
        if queue >> 32:
            raise out_of_range(queue=(queue, 32))
        found = tables.CodelStruct()
        self._must(C.wf_path_codel(self._at, queue, ctypes.byref(found)))
        return Codel(found.octets, found.drop_next, found.drop_count, found.dropping != 0, found.dropped)

    def waiting(self, station: int, tid: int) -> int:
        """Returns how many sequence numbers of a station's TID wait to be sent."""
        return self._of_tid(C.wf_path_waiting, station, tid)

    def flying(self, station: int, tid: int) -> int:
        """Returns how many sequence numbers of a station's TID are on the air, in open exchanges."""
        return self._of_tid(C.wf_path_flying, station, tid)

    def drained(self, station: int, tid: int) -> bool:
        """Returns whether no sequence number of a station's TID waits or is on the air. Then an agreement can
        begin."""
        return self._of_tid(C.wf_path_drained, station, tid) != 0

    def tim(self, count: int = 0, period: int = 1, group: bool = False, bss: int = 0) -> bytes:
        """Returns the TIM element of a BSS, which shows its stations that sleep and have traffic. `count` is the DTIM
        count, `period` the DTIM period in beacons, and `group` the bit for group frames: pass `dtim_count` and
        `follows` of the latest beacon of the BSS."""
        if count >> 8 or period >> 8 or bss >> 8:
            raise out_of_range(count=(count, 8), period=(period, 8), bss=(bss, 8))
        size = C.wf_path_tim(self._at, bss, count, period, 1 if group else 0, self._octets)
        return bytes(self._octets_view[:size])

    # ---- parts

    def _must(self, code: int) -> None:
        """Raises the exception of a code other than 0."""
        if code:
            raise self._error(code)

    def _of_station(self, function: "ctypes._FuncPointer", station: int) -> None:
        """Makes a call that has only a station."""
        if station >> 16:
            raise out_of_range(station=(station, 16))
        self._must(function(self._at, station, self._reply_at))

    def _of_station_read(self, function: "ctypes._FuncPointer", station: int, out: object) -> None:
        """Reads what belongs to a station."""
        if station >> 16:
            raise out_of_range(station=(station, 16))
        self._must(function(self._at, station, out))

    def _ask_tid(self, function: "ctypes._FuncPointer", station: int, tid: int) -> None:
        """Makes a call that has only a station and a TID."""
        if station >> 16 or tid >> 8:
            raise out_of_range(station=(station, 16), tid=(tid, 8))
        self._must(function(self._at, station, tid, self._reply_at))

    def _of_tid(
        self,
        function: "ctypes._FuncPointer",
        station: int,
        tid: int,
        kind: type[ctypes.c_uint32 | ctypes.c_uint64] = ctypes.c_uint32,
    ) -> int:
        """Reads a count that belongs to a station's TID, of this type of C."""
        if station >> 16 or tid >> 8:
            raise out_of_range(station=(station, 16), tid=(tid, 8))
        count = kind()
        self._must(function(self._at, station, tid, ctypes.byref(count)))
        return count.value

    def _check_index(self, exchange: int, index: int) -> None:
        """Checks the arguments that name a transmission."""
        if exchange >> 64 or index >> 16:
            raise out_of_range(exchange=(exchange, 64), index=(index, 16))

    def _of_frame(self, function: "ctypes._FuncPointer", exchange: int, index: int) -> int:
        """Reads a number that belongs to a transmission."""
        self._check_index(exchange, index)
        found = ctypes.c_uint64()
        self._must(function(self._at, exchange, index, ctypes.byref(found)))
        return found.value

    def _done(self, code: int) -> Done:
        """Returns the answer to the end of an exchange."""
        if code:
            raise self._error(code)
        reply = self._reply
        return Done(reply.acked, reply.waiting, reply.failed)

    def _reap_code(self, body: bool) -> int:
        """Makes the call of a reap."""
        if body:
            return int(_reap(self._at, self._reply_at, self._taken_at, self._octets, BODY_ROOM))
        return int(_reap(self._at, self._reply_at, self._taken_at, None, NO_ROOM))


def group_of(found: tables.GroupStruct) -> Group:
    """Returns the group frame of a struct of the library."""
    return Group(found.id, found.length, found.tag, bytes(found.to))
