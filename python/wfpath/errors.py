"""The exceptions: a class for each code of include/wf.h. tools/tables writes this file: do not edit it.

Refused is the base of the machine's refusals, and BlockError of the codes for octets that are no BlockAck.
"""
from __future__ import annotations

from ._base import BadLibrary as BadLibrary
from ._base import BadSetting as BadSetting
from ._base import BlockError as BlockError
from ._base import Refused as Refused
from ._base import WfError as WfError


class BadStation(Refused):
    """The station number is not below `stations`."""

    code = 1
    word = "bad-station"
    about = "the station number is not below `stations`"


class BadWindow(Refused):
    """The window is not 1 to 256."""

    code = 2
    word = "bad-window"
    about = "the window is not 1 to 256"


class BadStart(Refused):
    """The first sequence number is above 4095."""

    code = 3
    word = "bad-start"
    about = "the first sequence number is above 4095"


class BadExponent(Refused):
    """The A-MPDU length exponent is above 3."""

    code = 4
    word = "bad-exponent"
    about = "the A-MPDU length exponent is above 3"


class BadRate(Refused):
    """The rate does not exist: its format does not have this MCS, width, guard interval, number of streams or
    speed, or it is one of the ten combinations that VHT leaves out; or the setting `legacy` does not allow it
    (wf_path_rate_vht, wf_path_rate_ofdm).
    """

    code = 5
    word = "bad-rate"
    about = (
        "the rate does not exist: its format does not have this MCS, width, guard interval, number of "
        "streams or speed, or it is one of the ten combinations that VHT leaves out; or the setting "
        "`legacy` does not allow it (wf_path_rate_vht, wf_path_rate_ofdm)"
    )


class BadTick(Refused):
    """The clock would move by more than 10,000,000 microseconds; wf_path_advance: back, or to 2^61 or more.
    """

    code = 6
    word = "bad-tick"
    about = (
        "the clock would move by more than 10,000,000 microseconds; wf_path_advance: back, or to 2^61 or "
        "more"
    )


class BadTid(Refused):
    """The TID is above 7."""

    code = 7
    word = "bad-tid"
    about = "the TID is above 7"


class BadAir(Refused):
    """`rx`: the airtime is 0 or above 65,535 microseconds; `done`: the airtime that is given is 0 or above
    `charge`.
    """

    code = 8
    word = "bad-air"
    about = (
        "`rx`: the airtime is 0 or above 65,535 microseconds; `done`: the airtime that is given is 0 or "
        "above `charge`"
    )


class BadIndex(Refused):
    """The exchange has no transmission of that index."""

    code = 9
    word = "bad-index"
    about = "the exchange has no transmission of that index"


class Live(Refused):
    """The station is live already."""

    code = 10
    word = "live"
    about = "the station is live already"


class NoStation(Refused):
    """The station is not live."""

    code = 11
    word = "no-station"
    about = "the station is not live"


class NoExchange(Refused):
    """No open exchange has that number."""

    code = 12
    word = "no-exchange"
    about = "no open exchange has that number"


class NoAnswer(Refused):
    """The call says that the BlockAck was heard, but the station has not answered the exchange."""

    code = 13
    word = "no-answer"
    about = "the call says that the BlockAck was heard, but the station has not answered the exchange"


class Open(Refused):
    """The station has `count` open exchanges."""

    code = 14
    word = "open"
    about = "the station has `count` open exchanges"
    field = "count"


class Room(Refused):
    """`count` frames are accepted and not yet reaped: as many as `room`."""

    code = 15
    word = "room"
    about = "`count` frames are accepted and not yet reaped: as many as `room`"
    field = "count"


class Sleeping(Refused):
    """The station sleeps, and `count` frames of the class are queued for it: `sleeping` or more."""

    code = 16
    word = "sleeping"
    about = "the station sleeps, and `count` frames of the class are queued for it: `sleeping` or more"
    field = "count"


class Full(Refused):
    """`count` exchanges of the class are open: as many as `inflight`."""

    code = 17
    word = "full"
    about = "`count` exchanges of the class are open: as many as `inflight`"
    field = "count"


class Idle(Refused):
    """`pull`: no station of the class is ready; after this refusal alone something may have changed. `gpull`:
    no group frame may go now.
    """

    code = 18
    word = "idle"
    about = (
        "`pull`: no station of the class is ready; after this refusal alone something may have changed. "
        "`gpull`: no group frame may go now"
    )


class Answered(Refused):
    """The exchange was answered already."""

    code = 19
    word = "answered"
    about = "the exchange was answered already"


class Arrived(Refused):
    """That transmission arrived already."""

    code = 20
    word = "arrived"
    about = "that transmission arrived already"


class Nothing(Refused):
    """There is nothing to answer, to send, to reap or to end."""

    code = 21
    word = "nothing"
    about = "there is nothing to answer, to send, to reap or to end"


class Asleep(Refused):
    """`sleep`: the station is asleep already; `apsd` and `bss`: the station is asleep."""

    code = 22
    word = "asleep"
    about = "`sleep`: the station is asleep already; `apsd` and `bss`: the station is asleep"


class Awake(Refused):
    """The station is awake."""

    code = 23
    word = "awake"
    about = "the station is awake"


class Polled(Refused):
    """`poll`: the station has a credit that is not spent yet; `trigger`: its service period is open already.
    """

    code = 24
    word = "polled"
    about = (
        "`poll`: the station has a credit that is not spent yet; `trigger`: its service period is open "
        "already"
    )


class Debt(Refused):
    """The deficit, which stays at `deficit`, would fall below -`debt` microseconds."""

    code = 25
    word = "debt"
    about = "the deficit, which stays at `deficit`, would fall below -`debt` microseconds"
    field = "deficit"


class HistoryFull(Refused):
    """The history has `calls` entries; this call is not added to it."""

    code = 26
    word = "history-full"
    about = "the history has `calls` entries; this call is not added to it"


class BadWeight(Refused):
    """The weight is not 1 to 16."""

    code = 27
    word = "bad-weight"
    about = "the weight is not 1 to 16"


class Ahead(Refused):
    """`air` microseconds of computed airtime are in flight in all classes: `aql_total` or more."""

    code = 28
    word = "ahead"
    about = "`air` microseconds of computed airtime are in flight in all classes: `aql_total` or more"
    field = "air"


class BadAmpdu(Refused):
    """The greatest aggregate is not 4,096 to 6,500,631 octets."""

    code = 29
    word = "bad-ampdu"
    about = "the greatest aggregate is not 4,096 to 6,500,631 octets"


class Stopped(Refused):
    """The station is stopped already."""

    code = 30
    word = "stopped"
    about = "the station is stopped already"


class Started(Refused):
    """The station is not stopped."""

    code = 31
    word = "started"
    about = "the station is not stopped"


class Marked(Refused):
    """That transmission has a mark: it never went on the air, or the device will not try it again."""

    code = 32
    word = "marked"
    about = "that transmission has a mark: it never went on the air, or the device will not try it again"


class Offloaded(Refused):
    """The device of the station makes its agreements."""

    code = 33
    word = "offloaded"
    about = "the device of the station makes its agreements"


class Agreed(Refused):
    """`hold`: the TID has an agreement; `rate` to OFDM or DSSS: a TID of the station has one or is held."""

    code = 34
    word = "agreed"
    about = (
        "`hold`: the TID has an agreement; `rate` to OFDM or DSSS: a TID of the station has one or is held"
    )


class Held(Refused):
    """The TID is held already."""

    code = 35
    word = "held"
    about = "the TID is held already"


class NotHeld(Refused):
    """The TID is not held."""

    code = 36
    word = "not-held"
    about = "the TID is not held"


class NotAgreed(Refused):
    """The TID has no agreement."""

    code = 37
    word = "not-agreed"
    about = "the TID has no agreement"


class Waits(Refused):
    """`count` sequence numbers of the TID wait to be sent."""

    code = 38
    word = "waits"
    about = "`count` sequence numbers of the TID wait to be sent"
    field = "count"


class Legacy(Refused):
    """The rate of the station is one of OFDM or DSSS, at which it has no agreement."""

    code = 39
    word = "legacy"
    about = "the rate of the station is one of OFDM or DSSS, at which it has no agreement"


class Buffered(Refused):
    """`count` group frames are queued: as many as `buffered`."""

    code = 40
    word = "buffered"
    about = "`count` group frames are queued: as many as `buffered`"
    field = "count"


class Flying(Refused):
    """A group frame is on the air."""

    code = 41
    word = "flying"
    about = "a group frame is on the air"


class BadClasses(Refused):
    """The delivery-enabled classes are not 0 to 15."""

    code = 42
    word = "bad-classes"
    about = "the delivery-enabled classes are not 0 to 15"


class BadBss(Refused):
    """The BSS number is not below `bsses`, or not 0 if `bsses` is 0."""

    code = 43
    word = "bad-bss"
    about = "the BSS number is not below `bsses`, or not 0 if `bsses` is 0"


class NoMemory(WfError):
    """Out of memory."""

    code = 60
    word = "no-memory"
    about = "out of memory"


class BadLength(WfError):
    """The body is empty, or longer than WF_GREATEST_BODY."""

    code = 61
    word = "bad-length"
    about = "the body is empty, or longer than WF_GREATEST_BODY"


class SmallBuffer(WfError):
    """The buffer is too small."""

    code = 62
    word = "small-buffer"
    about = "the buffer is too small"


class BadCall(WfError):
    """No call, a rate of no format, a class above 3, a group frame without octets or longer than
    WF_GREATEST_BODY, or a call that the function does not make.
    """

    code = 63
    word = "bad-call"
    about = (
        "no call, a rate of no format, a class above 3, a group frame without octets or longer than "
        "WF_GREATEST_BODY, or a call that the function does not make"
    )


class BadAddress(WfError):
    """The address is a group address: the lowest bit of its first octet is set; wf_path_group: it is none."""

    code = 64
    word = "bad-address"
    about = (
        "the address is a group address: the lowest bit of its first octet is set; wf_path_group: it is "
        "none"
    )


class NoBody(WfError):
    """The frame has no octets: write its header (wf_path_header), and send the body from its owner's buffer.
    """

    code = 65
    word = "no-body"
    about = (
        "the frame has no octets: write its header (wf_path_header), and send the body from its owner's "
        "buffer"
    )


class BadAid(WfError):
    """The association identifier is 0 or above 2007."""

    code = 66
    word = "bad-aid"
    about = "the association identifier is 0 or above 2007"


class BadClass(WfError):
    """The class is above 3."""

    code = 67
    word = "bad-class"
    about = "the class is above 3"


class BadOutcome(WfError):
    """An outcome is above 3 (enum wf_outcome)."""

    code = 68
    word = "bad-outcome"
    about = "an outcome is above 3 (enum wf_outcome)"


class InUse(WfError):
    """The handle holds something already."""

    code = 69
    word = "in-use"
    about = "the handle holds something already"


class BlockLength(BlockError):
    """Not 28 octets, nor, if the window is above 64, 52."""

    code = 71
    word = "block-length"
    about = "not 28 octets, nor, if the window is above 64, 52"


class BlockKind(BlockError):
    """Not a BlockAck."""

    code = 72
    word = "block-kind"
    about = "not a BlockAck"


class BlockBasic(BlockError):
    """Not compressed."""

    code = 73
    word = "block-basic"
    about = "not compressed"


class BlockMulti(BlockError):
    """For several TIDs."""

    code = 74
    word = "block-multi"
    about = "for several TIDs"


class BlockFragment(BlockError):
    """Its fragment number is not 0, or, of 52 octets, not 4."""

    code = 75
    word = "block-fragment"
    about = "its fragment number is not 0, or, of 52 octets, not 4"


class BlockNarrow(BlockError):
    """Of 52 octets, and its fragment number is 0, that of 64 bits."""

    code = 76
    word = "block-narrow"
    about = "of 52 octets, and its fragment number is 0, that of 64 bits"


class NotMine(BlockError):
    """Not to the access point, or not from the exchange's station."""

    code = 77
    word = "not-mine"
    about = "not to the access point, or not from the exchange's station"


class WrongTid(BlockError):
    """For another TID."""

    code = 78
    word = "wrong-tid"
    about = "for another TID"


# The error of each code.
ERRORS: dict[int, type[WfError]] = {
    1: BadStation,
    2: BadWindow,
    3: BadStart,
    4: BadExponent,
    5: BadRate,
    6: BadTick,
    7: BadTid,
    8: BadAir,
    9: BadIndex,
    10: Live,
    11: NoStation,
    12: NoExchange,
    13: NoAnswer,
    14: Open,
    15: Room,
    16: Sleeping,
    17: Full,
    18: Idle,
    19: Answered,
    20: Arrived,
    21: Nothing,
    22: Asleep,
    23: Awake,
    24: Polled,
    25: Debt,
    26: HistoryFull,
    27: BadWeight,
    28: Ahead,
    29: BadAmpdu,
    30: Stopped,
    31: Started,
    32: Marked,
    33: Offloaded,
    34: Agreed,
    35: Held,
    36: NotHeld,
    37: NotAgreed,
    38: Waits,
    39: Legacy,
    40: Buffered,
    41: Flying,
    42: BadClasses,
    43: BadBss,
    60: NoMemory,
    61: BadLength,
    62: SmallBuffer,
    63: BadCall,
    64: BadAddress,
    65: NoBody,
    66: BadAid,
    67: BadClass,
    68: BadOutcome,
    69: InUse,
    71: BlockLength,
    72: BlockKind,
    73: BlockBasic,
    74: BlockMulti,
    75: BlockFragment,
    76: BlockNarrow,
    77: NotMine,
    78: WrongTid,
}
