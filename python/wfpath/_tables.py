"""The numbers, structs and functions of include/wf.h. tools/tables writes this file: do not edit it."""
from __future__ import annotations

import ctypes
import enum
from dataclasses import dataclass
from typing import Any

VERSION = (1, 0, 0)
GREATEST_BODY = 2304
GREATEST_MPDU = 2330
HEADER = 26
GROUP_HEADER = 24
BAD_SETTING = 100


class AccessClass(enum.IntEnum):
    """The access classes, from the lowest priority to the highest."""

    BK = 0
    BE = 1
    VI = 2
    VO = 3

    @property
    def word(self) -> str:
        """The word of a trace."""
        return self.name.lower().replace("_", "-")


class Fate(enum.IntEnum):
    """The fates of frames."""

    HELD = 0
    ACKED = 1
    OVERLIMIT = 2
    CODEL = 3
    RETRIES = 4
    LEFT = 5
    FLUSHED = 6
    ENDED = 7

    @property
    def word(self) -> str:
        """The word of a trace."""
        return self.name.lower().replace("_", "-")


class Outcome(enum.IntEnum):
    """What became of a transmission."""

    ACKED = 0
    RETRY = 1
    UNSENT = 2
    GAVE_UP = 3


class Kind(enum.IntEnum):
    """The kinds of answers."""

    JOINED = 0
    LEFT = 1
    SET = 2
    NOW = 3
    ACCEPTED = 4
    SEND = 5
    RELEASED = 6
    BA = 7
    DONE = 8
    SLEPT = 9
    WOKEN = 10
    POLLED = 11
    CHARGED = 12
    REAPED = 13
    REFUSED = 14
    STOPPED = 15
    STARTED = 16
    MARKED = 17
    FLUSHED = 18
    ACK = 19
    HELD = 20
    BEGUN = 21
    FREED = 22
    CEASED = 23
    QUEUED = 24
    BEACON = 25
    GSEND = 26
    GDONE = 27
    TRIGGERED = 28
    ENDED = 29

    @property
    def word(self) -> str:
        """The word of a trace."""
        return self.name.lower().replace("_", "-")


class CallKind(enum.IntEnum):
    """The kinds of calls."""

    JOIN = 0
    LEAVE = 1
    RATE = 2
    TICK = 3
    ENQUEUE = 4
    PULL = 5
    ARRIVE = 6
    ANSWER = 7
    DONE = 8
    SLEEP = 9
    WAKE = 10
    POLL = 11
    RX = 12
    REAP = 13
    AMPDU = 14
    STOP = 15
    START = 16
    UNSENT = 17
    GIVEUP = 18
    FLUSH = 19
    OFFLOAD = 20
    WEIGHT = 21
    PLAIN = 22
    HOLD = 23
    BEGIN = 24
    FREE = 25
    CEASE = 26
    GROUP = 27
    BEACON = 28
    GPULL = 29
    GDONE = 30
    APSD = 31
    TRIGGER = 32
    EOSP = 33
    BSS = 34

    @property
    def word(self) -> str:
        """The word of a trace."""
        return self.name.lower().replace("_", "-")


class Form(enum.IntEnum):
    """The formats of rates."""

    HT = 0
    VHT = 1
    HE = 2
    OFDM = 3
    DSSS = 4

    @property
    def word(self) -> str:
        """The word of a trace."""
        return self.name.lower().replace("_", "-")


@dataclass(frozen=True)
class Settings:
    """The settings of a path or a cell. Each has its standard value unless another is given."""

    stations: int = 16
    """Greatest number of stations, which are numbered 0 to `stations` - 1 [1..256]."""

    flows: int = 1024
    """Shared flow queues [1..4096]."""

    limit: int = 8192
    """Frames in flow and overflow queues [1..65535]."""

    room: int = 65536
    """Frames accepted and not yet reaped [1..131072]."""

    flow_quantum: int = 300
    """Octets per flow visit [64..65535]."""

    quantum: int = 300
    """Microseconds per station visit, for weight 1 [100..10000]."""

    inflight: int = 2
    """Open exchanges per class [1..8]."""

    attempts: int = 10
    """Transmissions of one frame [1..64]."""

    agg: int = 32
    """Frames in one aggregate [1..256]."""

    cap: int = 4000
    """Data time of one aggregate, microseconds [3000..5400]."""

    sleeping: int = 64
    """Frames queued per sleeping station and class [1..65535]."""

    calls: int = 1048576
    """Limit on the calls in a history, such as that of a trace; a path has none [1..4294967295]."""

    charge: int = 0
    """Greatest airtime that `done` may give, in microseconds; with 0 it may give none [0..65535]."""

    debt: int = 1000000
    """How far below 0 `rx` may bring a deficit, in microseconds [0..1000000]."""

    aql_total: int = 0
    """Limit on the airtime in flight of all classes together, in microseconds; 0 means no limit [0..262144].
    """

    keep_order: int = 0
    """Whether the frames of a flow keep their order [0..1]."""

    codel_reset: int = 0
    """Whether CoDel starts outside its dropping state when a queue joins a TID's list [0..1]."""

    aql: int = 0
    """Limit on the airtime in flight of one station in one class, in microseconds; 0 means no limit
    [0..262144].
    """

    pending: int = 0
    """Whether the airtime in flight counts against a station when a pull picks one [0..1]."""

    overhead: int = 0
    """Octets of encryption that each MPDU has in addition to its header, body and check sequence [0..32]."""

    cap_vi: int = 0
    """Data time of one aggregate of `vi`, microseconds; 0 means `cap` [0..5400]."""

    cap_vo: int = 0
    """Data time of one aggregate of `vo`, microseconds; 0 means `cap` [0..5400]."""

    answers: int = 0
    """Whether BlockAcks and BlockAckReqs go at 6, 12 or 24 Mbit/s by the rate of the data; with 0 always at
    24 [0..1].
    """

    credits: int = 0
    """Whether a credit blocks the next poll only while the station can send in the credit's class [0..1]."""

    legacy: int = 0
    """Which rates a station may have: HT, VHT and HE; with 1 also OFDM; with 2 also OFDM and DSSS [0..2]."""

    period: int = 0
    """DTIM period: the number of beacons from one DTIM beacon to the next; 0 means 1 [0..255]."""

    buffered: int = 0
    """Group frames that may be queued; with 0 none is accepted [0..65535]."""

    bsses: int = 0
    """BSSs, which are numbered 0 to `bsses` - 1; 0 means 1 [0..16]."""

    @classmethod
    def device(cls, **others: int) -> Settings:
        """Returns the settings for devices, with others in their place."""
        return cls(**{**DEVICE, **others})


# The settings for devices that are not standard.
DEVICE: dict[str, int] = {
    "inflight": 4,
    "charge": 65535,
    "debt": 20000,
    "aql_total": 24000,
    "keep_order": 1,
    "codel_reset": 1,
    "aql": 12000,
    "pending": 1,
    "credits": 1,
}

# The range of each setting, in the order of their places.
RANGES: dict[str, tuple[int, int]] = {
    "stations": (1, 256),
    "flows": (1, 4096),
    "limit": (1, 65535),
    "room": (1, 131072),
    "flow_quantum": (64, 65535),
    "quantum": (100, 10000),
    "inflight": (1, 8),
    "attempts": (1, 64),
    "agg": (1, 256),
    "cap": (3000, 5400),
    "sleeping": (1, 65535),
    "calls": (1, 4294967295),
    "charge": (0, 65535),
    "debt": (0, 1000000),
    "aql_total": (0, 262144),
    "keep_order": (0, 1),
    "codel_reset": (0, 1),
    "aql": (0, 262144),
    "pending": (0, 1),
    "overhead": (0, 32),
    "cap_vi": (0, 5400),
    "cap_vo": (0, 5400),
    "answers": (0, 1),
    "credits": (0, 1),
    "legacy": (0, 2),
    "period": (0, 255),
    "buffered": (0, 65535),
    "bsses": (0, 16),
}


class PathStruct(ctypes.Structure):
    """struct wf_path; LAYOUT is its format for the module struct."""

    at: Any

    LAYOUT = "@P"
    _fields_ = [
        ("at", ctypes.c_void_p),
    ]


class SettingsStruct(ctypes.Structure):
    """struct wf_settings; LAYOUT is its format for the module struct."""

    stations: int
    flows: int
    limit: int
    room: int
    flow_quantum: int
    quantum: int
    inflight: int
    attempts: int
    agg: int
    cap: int
    sleeping: int
    calls: int
    charge: int
    debt: int
    aql_total: int
    keep_order: int
    codel_reset: int
    aql: int
    pending: int
    overhead: int
    cap_vi: int
    cap_vo: int
    answers: int
    credits: int
    legacy: int
    period: int
    buffered: int
    bsses: int
    reserved: ctypes.Array[ctypes.c_uint32]

    LAYOUT = "@IIIIIIIIIIIIIIIIIIIIIIIIIIII4I"
    _fields_ = [
        ("stations", ctypes.c_uint32),
        ("flows", ctypes.c_uint32),
        ("limit", ctypes.c_uint32),
        ("room", ctypes.c_uint32),
        ("flow_quantum", ctypes.c_uint32),
        ("quantum", ctypes.c_uint32),
        ("inflight", ctypes.c_uint32),
        ("attempts", ctypes.c_uint32),
        ("agg", ctypes.c_uint32),
        ("cap", ctypes.c_uint32),
        ("sleeping", ctypes.c_uint32),
        ("calls", ctypes.c_uint32),
        ("charge", ctypes.c_uint32),
        ("debt", ctypes.c_uint32),
        ("aql_total", ctypes.c_uint32),
        ("keep_order", ctypes.c_uint32),
        ("codel_reset", ctypes.c_uint32),
        ("aql", ctypes.c_uint32),
        ("pending", ctypes.c_uint32),
        ("overhead", ctypes.c_uint32),
        ("cap_vi", ctypes.c_uint32),
        ("cap_vo", ctypes.c_uint32),
        ("answers", ctypes.c_uint32),
        ("credits", ctypes.c_uint32),
        ("legacy", ctypes.c_uint32),
        ("period", ctypes.c_uint32),
        ("buffered", ctypes.c_uint32),
        ("bsses", ctypes.c_uint32),
        ("reserved", ctypes.c_uint32 * 4),
    ]


class ReplyStruct(ctypes.Structure):
    """struct wf_reply; LAYOUT is its format for the module struct."""

    exchange: int
    id: int
    dropped: int
    now: int
    deficit: int
    air: int
    count: int
    station: int
    start: int
    acked: int
    waiting: int
    failed: int
    kind: int
    refusal: int
    tid: int
    class_: int
    fate: int
    has_dropped: int
    request: int
    more: int
    batch: int
    plain: int
    eosp: int

    LAYOUT = "@QQQQqIIHHHHHBBBBBBBBBBB"
    _fields_ = [
        ("exchange", ctypes.c_uint64),
        ("id", ctypes.c_uint64),
        ("dropped", ctypes.c_uint64),
        ("now", ctypes.c_uint64),
        ("deficit", ctypes.c_int64),
        ("air", ctypes.c_uint32),
        ("count", ctypes.c_uint32),
        ("station", ctypes.c_uint16),
        ("start", ctypes.c_uint16),
        ("acked", ctypes.c_uint16),
        ("waiting", ctypes.c_uint16),
        ("failed", ctypes.c_uint16),
        ("kind", ctypes.c_uint8),
        ("refusal", ctypes.c_uint8),
        ("tid", ctypes.c_uint8),
        ("class_", ctypes.c_uint8),
        ("fate", ctypes.c_uint8),
        ("has_dropped", ctypes.c_uint8),
        ("request", ctypes.c_uint8),
        ("more", ctypes.c_uint8),
        ("batch", ctypes.c_uint8),
        ("plain", ctypes.c_uint8),
        ("eosp", ctypes.c_uint8),
    ]


class FramesStruct(ctypes.Structure):
    """struct wf_frames; LAYOUT is its format for the module struct."""

    ids: ctypes.Array[ctypes.c_uint64]
    numbers: ctypes.Array[ctypes.c_uint16]
    count: int

    LAYOUT = "@256Q256HH"
    _fields_ = [
        ("ids", ctypes.c_uint64 * 256),
        ("numbers", ctypes.c_uint16 * 256),
        ("count", ctypes.c_uint16),
    ]


class SentStruct(ctypes.Structure):
    """struct wf_sent; LAYOUT is its format for the module struct."""

    station: int
    count: int
    tid: int
    request: int

    LAYOUT = "@HHBB"
    _fields_ = [
        ("station", ctypes.c_uint16),
        ("count", ctypes.c_uint16),
        ("tid", ctypes.c_uint8),
        ("request", ctypes.c_uint8),
    ]


class PacketStruct(ctypes.Structure):
    """struct wf_packet; LAYOUT is its format for the module struct."""

    body: Any
    length: int
    tag: int
    flow: int
    source: ctypes.Array[ctypes.c_uint8]
    tid: int

    LAYOUT = "@PNQI6sB"
    _fields_ = [
        ("body", ctypes.c_char_p),
        ("length", ctypes.c_size_t),
        ("tag", ctypes.c_uint64),
        ("flow", ctypes.c_uint32),
        ("source", ctypes.c_uint8 * 6),
        ("tid", ctypes.c_uint8),
    ]


class BareStruct(ctypes.Structure):
    """struct wf_bare; LAYOUT is its format for the module struct."""

    tag: int
    flow: int
    length: int
    source: ctypes.Array[ctypes.c_uint8]
    tid: int

    LAYOUT = "@QIH6sB"
    _fields_ = [
        ("tag", ctypes.c_uint64),
        ("flow", ctypes.c_uint32),
        ("length", ctypes.c_uint16),
        ("source", ctypes.c_uint8 * 6),
        ("tid", ctypes.c_uint8),
    ]


class TakenStruct(ctypes.Structure):
    """struct wf_taken; LAYOUT is its format for the module struct."""

    id: int
    stamp: int
    tag: int
    flow: int
    station: int
    length: int
    source: ctypes.Array[ctypes.c_uint8]
    tid: int
    fate: int
    attempts: int
    bare: int

    LAYOUT = "@QQQIHH6sBBBB"
    _fields_ = [
        ("id", ctypes.c_uint64),
        ("stamp", ctypes.c_uint64),
        ("tag", ctypes.c_uint64),
        ("flow", ctypes.c_uint32),
        ("station", ctypes.c_uint16),
        ("length", ctypes.c_uint16),
        ("source", ctypes.c_uint8 * 6),
        ("tid", ctypes.c_uint8),
        ("fate", ctypes.c_uint8),
        ("attempts", ctypes.c_uint8),
        ("bare", ctypes.c_uint8),
    ]


class GroupStruct(ctypes.Structure):
    """struct wf_group; LAYOUT is its format for the module struct."""

    id: int
    tag: int
    length: int
    to: ctypes.Array[ctypes.c_uint8]

    LAYOUT = "@QQH6s"
    _fields_ = [
        ("id", ctypes.c_uint64),
        ("tag", ctypes.c_uint64),
        ("length", ctypes.c_uint16),
        ("to", ctypes.c_uint8 * 6),
    ]


class GroupCountsStruct(ctypes.Structure):
    """struct wf_group_counts; LAYOUT is its format for the module struct."""

    accepted: int
    sent: int
    air: int
    numbers: int
    queued: int
    flying: int

    LAYOUT = "@QQQQII"
    _fields_ = [
        ("accepted", ctypes.c_uint64),
        ("sent", ctypes.c_uint64),
        ("air", ctypes.c_uint64),
        ("numbers", ctypes.c_uint64),
        ("queued", ctypes.c_uint32),
        ("flying", ctypes.c_uint32),
    ]


class TallyStruct(ctypes.Structure):
    """struct wf_tally; LAYOUT is its format for the module struct."""

    accepted: int
    acked: int
    overlimit: int
    codel: int
    retries: int
    left: int
    flushed: int
    ended: int

    LAYOUT = "@QQQQQQQQ"
    _fields_ = [
        ("accepted", ctypes.c_uint64),
        ("acked", ctypes.c_uint64),
        ("overlimit", ctypes.c_uint64),
        ("codel", ctypes.c_uint64),
        ("retries", ctypes.c_uint64),
        ("left", ctypes.c_uint64),
        ("flushed", ctypes.c_uint64),
        ("ended", ctypes.c_uint64),
    ]


class ShareStruct(ctypes.Structure):
    """struct wf_share; LAYOUT is its format for the module struct."""

    deficit: int
    charged: int
    rx: int

    LAYOUT = "@qQQ"
    _fields_ = [
        ("deficit", ctypes.c_int64),
        ("charged", ctypes.c_uint64),
        ("rx", ctypes.c_uint64),
    ]


class CodelStruct(ctypes.Structure):
    """struct wf_codel; LAYOUT is its format for the module struct."""

    octets: int
    drop_next: int
    drop_count: int
    dropping: int
    dropped: int

    LAYOUT = "@QQIIQ"
    _fields_ = [
        ("octets", ctypes.c_uint64),
        ("drop_next", ctypes.c_uint64),
        ("drop_count", ctypes.c_uint32),
        ("dropping", ctypes.c_uint32),
        ("dropped", ctypes.c_uint64),
    ]


class CellStruct(ctypes.Structure):
    """struct wf_cell; LAYOUT is its format for the module struct."""

    at: Any

    LAYOUT = "@P"
    _fields_ = [
        ("at", ctypes.c_void_p),
    ]


class CallStruct(ctypes.Structure):
    """struct wf_call; LAYOUT is its format for the module struct."""

    exchange: int
    flow: int
    by: int
    air: int
    frames: int
    octets: int
    station: int
    window: int
    start: int
    index: int
    length: int
    guard: int
    kind: int
    tid: int
    class_: int
    exponent: int
    weight: int
    form: int
    mcs: int
    mhz: int
    short_guard: int
    streams: int
    heard: int
    speed: int
    classes: int
    most: int
    bss: int

    LAYOUT = "@QIIIIIHHHHHHBBBBBBBBBBBBBBB"
    _fields_ = [
        ("exchange", ctypes.c_uint64),
        ("flow", ctypes.c_uint32),
        ("by", ctypes.c_uint32),
        ("air", ctypes.c_uint32),
        ("frames", ctypes.c_uint32),
        ("octets", ctypes.c_uint32),
        ("station", ctypes.c_uint16),
        ("window", ctypes.c_uint16),
        ("start", ctypes.c_uint16),
        ("index", ctypes.c_uint16),
        ("length", ctypes.c_uint16),
        ("guard", ctypes.c_uint16),
        ("kind", ctypes.c_uint8),
        ("tid", ctypes.c_uint8),
        ("class_", ctypes.c_uint8),
        ("exponent", ctypes.c_uint8),
        ("weight", ctypes.c_uint8),
        ("form", ctypes.c_uint8),
        ("mcs", ctypes.c_uint8),
        ("mhz", ctypes.c_uint8),
        ("short_guard", ctypes.c_uint8),
        ("streams", ctypes.c_uint8),
        ("heard", ctypes.c_uint8),
        ("speed", ctypes.c_uint8),
        ("classes", ctypes.c_uint8),
        ("most", ctypes.c_uint8),
        ("bss", ctypes.c_uint8),
    ]


class PassedUpStruct(ctypes.Structure):
    """struct wf_passed_up; LAYOUT is its format for the module struct."""

    ids: ctypes.Array[ctypes.c_uint64]
    count: int

    LAYOUT = "@256QH"
    _fields_ = [
        ("ids", ctypes.c_uint64 * 256),
        ("count", ctypes.c_uint16),
    ]


class BlockStruct(ctypes.Structure):
    """struct wf_block; LAYOUT is its format for the module struct."""

    bits: ctypes.Array[ctypes.c_uint64]
    start: int
    wide: int

    LAYOUT = "@4QHB"
    _fields_ = [
        ("bits", ctypes.c_uint64 * 4),
        ("start", ctypes.c_uint16),
        ("wide", ctypes.c_uint8),
    ]


class VersionPartsStruct(ctypes.Structure):
    """struct wf_version_parts; LAYOUT is its format for the module struct."""

    major: int
    minor: int
    patch: int

    LAYOUT = "@HHH"
    _fields_ = [
        ("major", ctypes.c_uint16),
        ("minor", ctypes.c_uint16),
        ("patch", ctypes.c_uint16),
    ]


# Each function: what it returns, and its arguments.
FUNCTIONS: dict[str, tuple[Any, tuple[Any, ...]]] = {
    "wf_version": (None, (ctypes.POINTER(VersionPartsStruct),)),
    "wf_code_name": (None, (ctypes.c_int32, ctypes.c_void_p,)),
    "wf_kind_name": (None, (ctypes.c_int32, ctypes.c_void_p,)),
    "wf_fate_name": (None, (ctypes.c_int32, ctypes.c_void_p,)),
    "wf_setting_name": (None, (ctypes.c_int32, ctypes.c_void_p,)),
    "wf_settings_standard": (None, (ctypes.POINTER(SettingsStruct),)),
    "wf_settings_device": (None, (ctypes.POINTER(SettingsStruct),)),
    "wf_path_make": (ctypes.c_int32, (ctypes.POINTER(PathStruct), ctypes.POINTER(SettingsStruct),)),
    "wf_path_free": (None, (ctypes.POINTER(PathStruct),)),
    "wf_path_set_base": (ctypes.c_int32, (ctypes.POINTER(PathStruct), ctypes.c_char_p,)),
    "wf_path_set_address": (ctypes.c_int32, (ctypes.POINTER(PathStruct), ctypes.c_uint16, ctypes.c_char_p,)),
    "wf_path_set_bss": (ctypes.c_int32, (ctypes.POINTER(PathStruct), ctypes.c_uint8, ctypes.c_char_p,)),
    "wf_path_set_aid": (ctypes.c_int32, (ctypes.POINTER(PathStruct), ctypes.c_uint16, ctypes.c_uint16,)),
    "wf_path_base": (None, (ctypes.POINTER(PathStruct), ctypes.c_void_p,)),
    "wf_path_address": (ctypes.c_int32, (ctypes.POINTER(PathStruct), ctypes.c_uint16, ctypes.c_void_p,)),
    "wf_path_join": (
        ctypes.c_int32,
        (
            ctypes.POINTER(PathStruct),
            ctypes.c_uint16,
            ctypes.c_uint16,
            ctypes.c_uint16,
            ctypes.c_uint8,
            ctypes.c_uint8,
            ctypes.POINTER(ReplyStruct),
        ),
    ),
    "wf_path_join_offload": (
        ctypes.c_int32,
        (
            ctypes.POINTER(PathStruct),
            ctypes.c_uint16,
            ctypes.c_uint8,
            ctypes.c_uint8,
            ctypes.POINTER(ReplyStruct),
        ),
    ),
    "wf_path_plain": (
        ctypes.c_int32,
        (
            ctypes.POINTER(PathStruct),
            ctypes.c_uint16,
            ctypes.c_uint16,
            ctypes.c_uint8,
            ctypes.c_uint8,
            ctypes.POINTER(ReplyStruct),
        ),
    ),
    "wf_path_hold": (
        ctypes.c_int32,
        (
            ctypes.POINTER(PathStruct),
            ctypes.c_uint16,
            ctypes.c_uint8,
            ctypes.POINTER(ReplyStruct),
        ),
    ),
    "wf_path_begin": (
        ctypes.c_int32,
        (
            ctypes.POINTER(PathStruct),
            ctypes.c_uint16,
            ctypes.c_uint8,
            ctypes.c_uint16,
            ctypes.POINTER(ReplyStruct),
        ),
    ),
    "wf_path_free_tid": (
        ctypes.c_int32,
        (
            ctypes.POINTER(PathStruct),
            ctypes.c_uint16,
            ctypes.c_uint8,
            ctypes.POINTER(ReplyStruct),
        ),
    ),
    "wf_path_cease": (
        ctypes.c_int32,
        (
            ctypes.POINTER(PathStruct),
            ctypes.c_uint16,
            ctypes.c_uint8,
            ctypes.POINTER(ReplyStruct),
        ),
    ),
    "wf_path_weight": (
        ctypes.c_int32,
        (
            ctypes.POINTER(PathStruct),
            ctypes.c_uint16,
            ctypes.c_uint8,
            ctypes.POINTER(ReplyStruct),
        ),
    ),
    "wf_path_leave": (
        ctypes.c_int32,
        (
            ctypes.POINTER(PathStruct),
            ctypes.c_uint16,
            ctypes.POINTER(ReplyStruct),
        ),
    ),
    "wf_path_rate_ht": (
        ctypes.c_int32,
        (
            ctypes.POINTER(PathStruct),
            ctypes.c_uint16,
            ctypes.c_uint8,
            ctypes.c_uint8,
            ctypes.c_uint8,
            ctypes.POINTER(ReplyStruct),
        ),
    ),
    "wf_path_rate_vht": (
        ctypes.c_int32,
        (
            ctypes.POINTER(PathStruct),
            ctypes.c_uint16,
            ctypes.c_uint8,
            ctypes.c_uint8,
            ctypes.c_uint8,
            ctypes.c_uint8,
            ctypes.POINTER(ReplyStruct),
        ),
    ),
    "wf_path_rate_he": (
        ctypes.c_int32,
        (
            ctypes.POINTER(PathStruct),
            ctypes.c_uint16,
            ctypes.c_uint8,
            ctypes.c_uint8,
            ctypes.c_uint16,
            ctypes.c_uint8,
            ctypes.POINTER(ReplyStruct),
        ),
    ),
    "wf_path_rate_ofdm": (
        ctypes.c_int32,
        (
            ctypes.POINTER(PathStruct),
            ctypes.c_uint16,
            ctypes.c_uint8,
            ctypes.POINTER(ReplyStruct),
        ),
    ),
    "wf_path_rate_dsss": (
        ctypes.c_int32,
        (
            ctypes.POINTER(PathStruct),
            ctypes.c_uint16,
            ctypes.c_uint8,
            ctypes.POINTER(ReplyStruct),
        ),
    ),
    "wf_path_tick": (
        ctypes.c_int32,
        (
            ctypes.POINTER(PathStruct),
            ctypes.c_uint32,
            ctypes.POINTER(ReplyStruct),
        ),
    ),
    "wf_path_advance": (
        ctypes.c_int32,
        (
            ctypes.POINTER(PathStruct),
            ctypes.c_uint64,
            ctypes.POINTER(ReplyStruct),
        ),
    ),
    "wf_path_sleep": (
        ctypes.c_int32,
        (
            ctypes.POINTER(PathStruct),
            ctypes.c_uint16,
            ctypes.POINTER(ReplyStruct),
        ),
    ),
    "wf_path_wake": (
        ctypes.c_int32,
        (
            ctypes.POINTER(PathStruct),
            ctypes.c_uint16,
            ctypes.POINTER(ReplyStruct),
        ),
    ),
    "wf_path_poll": (
        ctypes.c_int32,
        (
            ctypes.POINTER(PathStruct),
            ctypes.c_uint16,
            ctypes.POINTER(ReplyStruct),
        ),
    ),
    "wf_path_ampdu": (
        ctypes.c_int32,
        (
            ctypes.POINTER(PathStruct),
            ctypes.c_uint16,
            ctypes.c_uint32,
            ctypes.POINTER(ReplyStruct),
        ),
    ),
    "wf_path_stop": (
        ctypes.c_int32,
        (
            ctypes.POINTER(PathStruct),
            ctypes.c_uint16,
            ctypes.POINTER(ReplyStruct),
        ),
    ),
    "wf_path_start": (
        ctypes.c_int32,
        (
            ctypes.POINTER(PathStruct),
            ctypes.c_uint16,
            ctypes.POINTER(ReplyStruct),
        ),
    ),
    "wf_path_flush": (
        ctypes.c_int32,
        (
            ctypes.POINTER(PathStruct),
            ctypes.c_uint16,
            ctypes.c_uint8,
            ctypes.POINTER(ReplyStruct),
        ),
    ),
    "wf_path_rx": (
        ctypes.c_int32,
        (
            ctypes.POINTER(PathStruct),
            ctypes.c_uint16,
            ctypes.c_uint8,
            ctypes.c_uint32,
            ctypes.POINTER(ReplyStruct),
        ),
    ),
    "wf_path_set_station_bss": (
        ctypes.c_int32,
        (
            ctypes.POINTER(PathStruct),
            ctypes.c_uint16,
            ctypes.c_uint8,
            ctypes.POINTER(ReplyStruct),
        ),
    ),
    "wf_path_enqueue": (
        ctypes.c_int32,
        (
            ctypes.POINTER(PathStruct),
            ctypes.c_uint16,
            ctypes.POINTER(PacketStruct),
            ctypes.POINTER(ReplyStruct),
        ),
    ),
    "wf_path_reserve": (ctypes.c_int32, (ctypes.POINTER(PathStruct), ctypes.c_uint32,)),
    "wf_path_enqueue_bare": (
        ctypes.c_int32,
        (
            ctypes.POINTER(PathStruct),
            ctypes.c_uint16,
            ctypes.POINTER(BareStruct),
            ctypes.POINTER(ReplyStruct),
        ),
    ),
    "wf_path_pull": (
        ctypes.c_int32,
        (
            ctypes.POINTER(PathStruct),
            ctypes.c_uint8,
            ctypes.POINTER(ReplyStruct),
            ctypes.POINTER(FramesStruct),
        ),
    ),
    "wf_path_pull_limited": (
        ctypes.c_int32,
        (
            ctypes.POINTER(PathStruct),
            ctypes.c_uint8,
            ctypes.c_uint32,
            ctypes.c_uint32,
            ctypes.POINTER(ReplyStruct),
            ctypes.POINTER(FramesStruct),
        ),
    ),
    "wf_path_reap": (
        ctypes.c_int32,
        (
            ctypes.POINTER(PathStruct),
            ctypes.POINTER(ReplyStruct),
            ctypes.POINTER(TakenStruct),
            ctypes.c_void_p,
            ctypes.c_size_t,
        ),
    ),
    "wf_path_burst": (
        ctypes.c_int32,
        (
            ctypes.POINTER(PathStruct),
            ctypes.POINTER(CallStruct),
            ctypes.c_size_t,
            ctypes.POINTER(ReplyStruct),
            ctypes.c_size_t,
            ctypes.POINTER(ctypes.c_size_t),
        ),
    ),
    "wf_path_group": (
        ctypes.c_int32,
        (
            ctypes.POINTER(PathStruct),
            ctypes.c_uint8,
            ctypes.c_char_p,
            ctypes.c_uint16,
            ctypes.c_uint64,
            ctypes.POINTER(ReplyStruct),
        ),
    ),
    "wf_path_beacon": (
        ctypes.c_int32,
        (
            ctypes.POINTER(PathStruct),
            ctypes.c_uint8,
            ctypes.POINTER(ReplyStruct),
        ),
    ),
    "wf_path_group_pull": (
        ctypes.c_int32,
        (
            ctypes.POINTER(PathStruct),
            ctypes.c_uint8,
            ctypes.POINTER(GroupStruct),
            ctypes.POINTER(ReplyStruct),
        ),
    ),
    "wf_path_group_header": (
        ctypes.c_int32,
        (
            ctypes.POINTER(PathStruct),
            ctypes.c_uint8,
            ctypes.c_char_p,
            ctypes.c_void_p,
        ),
    ),
    "wf_path_group_done": (
        ctypes.c_int32,
        (
            ctypes.POINTER(PathStruct),
            ctypes.c_uint8,
            ctypes.POINTER(GroupStruct),
            ctypes.POINTER(ReplyStruct),
        ),
    ),
    "wf_path_group_counts": (
        ctypes.c_int32,
        (
            ctypes.POINTER(PathStruct),
            ctypes.c_uint8,
            ctypes.POINTER(GroupCountsStruct),
        ),
    ),
    "wf_path_apsd": (
        ctypes.c_int32,
        (
            ctypes.POINTER(PathStruct),
            ctypes.c_uint16,
            ctypes.c_uint8,
            ctypes.c_uint8,
            ctypes.POINTER(ReplyStruct),
        ),
    ),
    "wf_path_trigger": (
        ctypes.c_int32,
        (
            ctypes.POINTER(PathStruct),
            ctypes.c_uint16,
            ctypes.POINTER(ReplyStruct),
        ),
    ),
    "wf_path_end_service": (
        ctypes.c_int32,
        (
            ctypes.POINTER(PathStruct),
            ctypes.c_uint16,
            ctypes.POINTER(ReplyStruct),
        ),
    ),
    "wf_path_sent": (
        ctypes.c_int32,
        (
            ctypes.POINTER(PathStruct),
            ctypes.c_uint64,
            ctypes.POINTER(SentStruct),
        ),
    ),
    "wf_path_frame_id": (
        ctypes.c_int32,
        (
            ctypes.POINTER(PathStruct),
            ctypes.c_uint64,
            ctypes.c_uint16,
            ctypes.POINTER(ctypes.c_uint64),
        ),
    ),
    "wf_path_frame_tag": (
        ctypes.c_int32,
        (
            ctypes.POINTER(PathStruct),
            ctypes.c_uint64,
            ctypes.c_uint16,
            ctypes.POINTER(ctypes.c_uint64),
        ),
    ),
    "wf_path_header": (
        ctypes.c_int32,
        (
            ctypes.POINTER(PathStruct),
            ctypes.c_uint64,
            ctypes.c_uint16,
            ctypes.c_void_p,
        ),
    ),
    "wf_path_mpdu": (
        ctypes.c_int32,
        (
            ctypes.POINTER(PathStruct),
            ctypes.c_uint64,
            ctypes.c_uint16,
            ctypes.c_void_p,
            ctypes.c_size_t,
            ctypes.POINTER(ctypes.c_size_t),
        ),
    ),
    "wf_path_unsent": (
        ctypes.c_int32,
        (
            ctypes.POINTER(PathStruct),
            ctypes.c_uint64,
            ctypes.c_uint16,
            ctypes.POINTER(ReplyStruct),
        ),
    ),
    "wf_path_give_up": (
        ctypes.c_int32,
        (
            ctypes.POINTER(PathStruct),
            ctypes.c_uint64,
            ctypes.c_uint16,
            ctypes.POINTER(ReplyStruct),
        ),
    ),
    "wf_path_done_lost": (
        ctypes.c_int32,
        (
            ctypes.POINTER(PathStruct),
            ctypes.c_uint64,
            ctypes.c_uint32,
            ctypes.POINTER(ReplyStruct),
        ),
    ),
    "wf_path_done_ack": (
        ctypes.c_int32,
        (
            ctypes.POINTER(PathStruct),
            ctypes.c_uint64,
            ctypes.c_uint8,
            ctypes.c_uint32,
            ctypes.POINTER(ReplyStruct),
        ),
    ),
    "wf_path_done_bits": (
        ctypes.c_int32,
        (
            ctypes.POINTER(PathStruct),
            ctypes.c_uint64,
            ctypes.c_uint16,
            ctypes.c_char_p,
            ctypes.c_uint32,
            ctypes.POINTER(ReplyStruct),
        ),
    ),
    "wf_path_done_octets": (
        ctypes.c_int32,
        (
            ctypes.POINTER(PathStruct),
            ctypes.c_uint64,
            ctypes.c_char_p,
            ctypes.c_size_t,
            ctypes.c_uint32,
            ctypes.POINTER(ReplyStruct),
        ),
    ),
    "wf_path_done_each": (
        ctypes.c_int32,
        (
            ctypes.POINTER(PathStruct),
            ctypes.c_uint64,
            ctypes.c_char_p,
            ctypes.c_size_t,
            ctypes.c_uint32,
            ctypes.POINTER(ReplyStruct),
        ),
    ),
    "wf_path_cancel": (
        ctypes.c_int32,
        (
            ctypes.POINTER(PathStruct),
            ctypes.c_uint64,
            ctypes.POINTER(ReplyStruct),
        ),
    ),
    "wf_path_now": (ctypes.c_uint64, (ctypes.POINTER(PathStruct),)),
    "wf_path_exchanges": (ctypes.c_uint64, (ctypes.POINTER(PathStruct),)),
    "wf_path_open_count": (ctypes.c_uint32, (ctypes.POINTER(PathStruct),)),
    "wf_path_live": (ctypes.c_int32, (ctypes.POINTER(PathStruct), ctypes.c_uint16,)),
    "wf_path_in_service": (ctypes.c_int32, (ctypes.POINTER(PathStruct), ctypes.c_uint16,)),
    "wf_path_tally": (None, (ctypes.POINTER(PathStruct), ctypes.POINTER(TallyStruct),)),
    "wf_path_share": (
        ctypes.c_int32,
        (
            ctypes.POINTER(PathStruct),
            ctypes.c_uint16,
            ctypes.c_uint8,
            ctypes.POINTER(ShareStruct),
        ),
    ),
    "wf_path_pending": (
        ctypes.c_int32,
        (
            ctypes.POINTER(PathStruct),
            ctypes.c_uint16,
            ctypes.c_uint8,
            ctypes.POINTER(ctypes.c_uint32),
        ),
    ),
    "wf_path_can_pull": (ctypes.c_int32, (ctypes.POINTER(PathStruct), ctypes.c_uint8,)),
    "wf_path_listed": (ctypes.c_int32, (ctypes.POINTER(PathStruct), ctypes.c_uint16, ctypes.c_uint8,)),
    "wf_path_has_small_counts": (ctypes.c_int32, (ctypes.POINTER(PathStruct),)),
    "wf_path_queued": (
        ctypes.c_int32,
        (
            ctypes.POINTER(PathStruct),
            ctypes.c_uint16,
            ctypes.c_uint8,
            ctypes.POINTER(ctypes.c_uint32),
        ),
    ),
    "wf_path_octets": (
        ctypes.c_int32,
        (
            ctypes.POINTER(PathStruct),
            ctypes.c_uint16,
            ctypes.c_uint8,
            ctypes.POINTER(ctypes.c_uint64),
        ),
    ),
    "wf_path_codel": (
        ctypes.c_int32,
        (
            ctypes.POINTER(PathStruct),
            ctypes.c_uint32,
            ctypes.POINTER(CodelStruct),
        ),
    ),
    "wf_path_waiting": (
        ctypes.c_int32,
        (
            ctypes.POINTER(PathStruct),
            ctypes.c_uint16,
            ctypes.c_uint8,
            ctypes.POINTER(ctypes.c_uint32),
        ),
    ),
    "wf_path_flying": (
        ctypes.c_int32,
        (
            ctypes.POINTER(PathStruct),
            ctypes.c_uint16,
            ctypes.c_uint8,
            ctypes.POINTER(ctypes.c_uint32),
        ),
    ),
    "wf_path_drained": (
        ctypes.c_int32,
        (
            ctypes.POINTER(PathStruct),
            ctypes.c_uint16,
            ctypes.c_uint8,
            ctypes.POINTER(ctypes.c_uint32),
        ),
    ),
    "wf_path_tim": (
        ctypes.c_size_t,
        (
            ctypes.POINTER(PathStruct),
            ctypes.c_uint8,
            ctypes.c_uint8,
            ctypes.c_uint8,
            ctypes.c_uint8,
            ctypes.c_void_p,
        ),
    ),
    "wf_cell_make": (ctypes.c_int32, (ctypes.POINTER(CellStruct), ctypes.POINTER(SettingsStruct),)),
    "wf_cell_free": (None, (ctypes.POINTER(CellStruct),)),
    "wf_cell_ask": (
        ctypes.c_int32,
        (
            ctypes.POINTER(CellStruct),
            ctypes.c_uint32,
            ctypes.POINTER(CallStruct),
            ctypes.POINTER(ReplyStruct),
        ),
    ),
    "wf_cell_enqueue": (
        ctypes.c_int32,
        (
            ctypes.POINTER(CellStruct),
            ctypes.c_uint32,
            ctypes.c_uint16,
            ctypes.POINTER(PacketStruct),
            ctypes.POINTER(ReplyStruct),
        ),
    ),
    "wf_cell_enqueue_bare": (
        ctypes.c_int32,
        (
            ctypes.POINTER(CellStruct),
            ctypes.c_uint32,
            ctypes.c_uint16,
            ctypes.POINTER(BareStruct),
            ctypes.POINTER(ReplyStruct),
        ),
    ),
    "wf_cell_reap": (
        ctypes.c_int32,
        (
            ctypes.POINTER(CellStruct),
            ctypes.c_uint32,
            ctypes.POINTER(ReplyStruct),
            ctypes.POINTER(TakenStruct),
            ctypes.c_void_p,
            ctypes.c_size_t,
        ),
    ),
    "wf_cell_burst": (
        ctypes.c_int32,
        (
            ctypes.POINTER(CellStruct),
            ctypes.c_uint32,
            ctypes.POINTER(CallStruct),
            ctypes.c_size_t,
            ctypes.POINTER(ReplyStruct),
            ctypes.c_size_t,
            ctypes.POINTER(ctypes.c_size_t),
        ),
    ),
    "wf_cell_frames": (None, (ctypes.POINTER(CellStruct), ctypes.POINTER(FramesStruct),)),
    "wf_cell_released": (None, (ctypes.POINTER(CellStruct), ctypes.POINTER(PassedUpStruct),)),
    "wf_cell_block": (None, (ctypes.POINTER(CellStruct), ctypes.POINTER(BlockStruct),)),
    "wf_cell_len": (ctypes.c_uint64, (ctypes.POINTER(CellStruct),)),
    "wf_cell_room": (ctypes.c_uint64, (ctypes.POINTER(CellStruct),)),
    "wf_cell_entry": (
        ctypes.c_int32,
        (
            ctypes.POINTER(CellStruct),
            ctypes.c_uint64,
            ctypes.POINTER(ctypes.c_uint32),
            ctypes.POINTER(CallStruct),
        ),
    ),
}
