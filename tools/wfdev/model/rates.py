"""Rates and the time of data: MACHINE.md, the table of Rate, Pull (what fits) and Time of data."""
import enum
from collections.abc import Sequence
from dataclasses import dataclass
from typing import ClassVar


class Format(enum.Enum):
    """A format of rates."""

    HT = "ht"
    VHT = "vht"
    HE = "he"


LONG, SHORT = 800, 400
TWELVE = (6, 12, 18, 24, 36, 48, 54, 60, 72, 80, 90, 100)
TRAINING_FIELDS = (1, 2, 4, 4, 6, 6, 8, 8)
MOST_MCS = {Format.HT: 15, Format.VHT: 9, Format.HE: 11}
CARRIERS = {
    Format.HT: {20: 52, 40: 108},
    Format.VHT: {20: 52, 40: 108, 80: 234, 160: 468},
    Format.HE: {20: 234, 40: 468, 80: 980, 160: 1960},
}
# A symbol and, for HE, a training field, in tenths of a microsecond, by the guard interval.
SYMBOL = {
    Format.HT: {LONG: 40, SHORT: 36},
    Format.VHT: {LONG: 40, SHORT: 36},
    Format.HE: {800: 136, 1600: 144, 3200: 160},
}
HE_TRAINING = {800: 72, 1600: 80, 3200: 160}
# The rates that VHT leaves out: MCS, width, streams.
MISSING = {(9, 20, streams) for streams in (1, 2, 4, 5, 7, 8)}
MISSING |= {(6, 80, 3), (6, 80, 7), (9, 80, 6), (9, 160, 3)}
# The encoders of VHT that are not ceil(bits/2160), by width, streams and MCS.
ENCODERS = {
    (80, 7, 2): 3, (80, 7, 7): 6, (80, 7, 8): 6, (80, 8, 7): 6, (160, 4, 7): 6, (160, 5, 8): 8,
    (160, 6, 7): 8, (160, 7, 4): 6, (160, 7, 7): 9, (160, 7, 8): 12, (160, 7, 9): 12, (160, 8, 5): 8,
    (160, 8, 8): 12,
}  # fmt: skip
OFDM_RATES, DSSS_RATES = (6, 9, 12, 18, 24, 36, 48, 54), (2, 4, 11, 22)  # Mbit/s, half Mbit/s
SLOW_BELOW = 12_000  # kbit/s
LONGEST_ALONE = (3000, 3200, 19_200)  # microseconds, by the setting `legacy`
FASTEST_CONTROL, CONTROL_RATES = 24, (24, 12, 6)  # Mbit/s
SLOWEST_DSSS, FASTEST_DSSS = 1, 2  # Mbit/s, for control frames
DELIMITER, HEADER, CHECK = 4, 26, 4
SIFS = 16
NARROW_WINDOW = 64
ACK_OCTETS, REQUEST_OCTETS, NARROW_OCTETS, WIDE_OCTETS = 10, 20, 28, 52


def up(number: int, by: int) -> int:
    """Returns the quotient, rounded up."""
    return -(-number // by)


def ofdm_time(mbps: int, octets: int) -> int:
    """Returns the microseconds of a frame that is sent with OFDM."""
    return 20 + 4 * up(8 * octets + 22, 4 * mbps)


def dsss_time(half_mbps: int, octets: int) -> int:
    """Returns the microseconds of a frame that is sent with DSSS and its long preamble."""
    return 192 + up(2 * 8 * octets, half_mbps)


@dataclass(frozen=True)
class Ofdm:
    """A rate of OFDM, or a number that is none."""

    mbps: int
    legacy: ClassVar[int] = 1

    def exists(self) -> bool:
        """Returns whether the number is a rate."""
        return self.mbps in OFDM_RATES

    @property
    def kbps(self) -> int:
        """The kbit/s of the rate."""
        return 1000 * self.mbps

    def time(self, octets: int) -> int:
        """Returns the microseconds that a frame of this many octets takes."""
        return ofdm_time(self.mbps, octets)


@dataclass(frozen=True)
class Dsss:
    """A rate of DSSS, or a number that is none."""

    half_mbps: int
    legacy: ClassVar[int] = 2

    def exists(self) -> bool:
        """Returns whether the number is a rate."""
        return self.half_mbps in DSSS_RATES

    @property
    def kbps(self) -> int:
        """The kbit/s of the rate."""
        return 500 * self.half_mbps

    def time(self, octets: int) -> int:
        """Returns the microseconds that a frame of this many octets takes."""
        return dsss_time(self.half_mbps, octets)


@dataclass(frozen=True)
class MimoRate:
    """A rate of HT, VHT or HE, or numbers that are none: the width in MHz, the guard interval in nanoseconds."""

    form: Format
    mcs: int
    mhz: int
    guard: int
    streams: int
    legacy: ClassVar[int] = 0

    def exists(self) -> bool:
        """Returns whether the numbers are a rate of the format."""
        has_mcs = self.mcs <= MOST_MCS[self.form] and 1 <= self.streams <= len(TRAINING_FIELDS)
        has_width = self.mhz in CARRIERS[self.form] and self.guard in SYMBOL[self.form]
        is_missing = self.form is Format.VHT and (self.mcs, self.mhz, self.streams) in MISSING
        return has_mcs and has_width and not is_missing

    @property
    def bits(self) -> int:
        """The data bits of a symbol."""
        twelve = TWELVE[self.mcs % 8 if self.form is Format.HT else self.mcs]
        return CARRIERS[self.form][self.mhz] * self.streams * twelve // 12

    @property
    def encoders(self) -> int:
        """The number of encoders."""
        if self.form is not Format.VHT:
            return 1
        return ENCODERS.get((self.mhz, self.streams, self.mcs), up(self.bits, 2160))

    @property
    def symbol(self) -> int:
        """The time of a symbol, in tenths of a microsecond."""
        return SYMBOL[self.form][self.guard]

    @property
    def kbps(self) -> int:
        """The kbit/s of the rate."""
        return 10_000 * self.bits // self.symbol

    def time(self, octets: int) -> int:
        """Returns the microseconds that an aggregate of this many octets takes."""
        symbols = up(8 * octets + 16 + 6 * self.encoders, self.bits)
        training = TRAINING_FIELDS[self.streams - 1]
        if self.form is Format.HE:
            return up(360 + HE_TRAINING[self.guard] * training + self.symbol * symbols, 10)
        before = 32 if self.form is Format.HT else 36
        return before + 4 * training + 4 * up(self.symbol * symbols, 40)


Rate = MimoRate | Ofdm | Dsss


def ht(mcs: int, mhz: int, guard: int) -> MimoRate:
    """Returns a rate of HT, whose streams follow from its MCS."""
    return MimoRate(Format.HT, mcs, mhz, guard, 1 if mcs < 8 else 2)


LOWEST = ht(0, 20, LONG)


def is_slow(rate: Rate) -> bool:
    """Returns whether CoDel has the parameters of slow rates."""
    return rate.kbps < SLOW_BELOW


def is_single(rate: Rate) -> bool:
    """Returns whether one exchange sends one frame, which an Ack answers."""
    return rate.legacy > 0


def has_aggregates(rate: Rate) -> bool:
    """Returns whether each frame is in an aggregate, as at VHT and HE."""
    return isinstance(rate, MimoRate) and rate.form is not Format.HT


def octets_of(bodies: Sequence[int], overhead: int = 0) -> int:
    """Returns the octets of an aggregate of bodies of these lengths, each with its octets of encryption."""
    total = 0
    for body in bodies:
        total = 4 * up(total, 4) + DELIMITER + HEADER + body + overhead + CHECK
    return total


def octets_alone(rate: Rate, body: int, overhead: int = 0) -> int:
    """Returns the octets of a frame that an Ack answers. It has a delimiter only at VHT and HE."""
    return octets_of([body], overhead) - (0 if has_aggregates(rate) else DELIMITER)


def octets_taken(rate: Rate, exponent: int, stated: int | None) -> int:
    """Returns the most octets of an aggregate, by the exponent or, at VHT and HE, as the station stated."""
    if not has_aggregates(rate):
        return (1 << 13 + exponent) - 1
    return (1 << 17 + exponent) - 1 if stated is None else stated


@dataclass(frozen=True)
class Bounds:
    """The bounds of an aggregate: frames, octets, the rate, microseconds of data, and encryption of a frame."""

    agg: int
    octets: int
    rate: Rate
    cap: int
    overhead: int = 0

    def fits(self, bodies: Sequence[int]) -> bool:
        """Returns whether bodies of these lengths fit. One frame alone always fits."""
        octets = octets_of(bodies, self.overhead)
        cap = max(self.cap, LONGEST_ALONE[self.rate.legacy]) if len(bodies) <= 1 else self.cap
        return len(bodies) <= self.agg and octets <= self.octets and self.rate.time(octets) <= cap


@dataclass(frozen=True)
class Control:
    """The control frames of a TID: their Mbit/s, and whether its session is wide."""

    mbps: int
    is_wide: bool

    def time(self, octets: int) -> int:
        """Returns the microseconds of a control frame with these octets before its check sequence."""
        whole = octets + CHECK
        return dsss_time(2 * self.mbps, whole) if self.mbps <= FASTEST_DSSS else ofdm_time(self.mbps, whole)

    @property
    def answer_time(self) -> int:
        """The microseconds of the pause and the BlockAck."""
        return SIFS + self.time(WIDE_OCTETS if self.is_wide else NARROW_OCTETS)

    @property
    def ack_time(self) -> int:
        """The microseconds of the pause and an Ack."""
        return SIFS + self.time(ACK_OCTETS)

    @property
    def request_charge(self) -> int:
        """The charge of a BlockAckReq."""
        return self.time(REQUEST_OCTETS) + self.answer_time


def control_mbps(rate: Rate, answers: int) -> int:
    """Returns the Mbit/s of control frames: with the setting `answers`, not faster than data if that can be."""
    if answers == 0:
        return FASTEST_CONTROL
    rates = (FASTEST_DSSS, SLOWEST_DSSS) if isinstance(rate, Dsss) else CONTROL_RATES
    return next((mbps for mbps in rates if 1000 * mbps <= rate.kbps), rates[-1])


def longest_computed(cap: int, answers: int, legacy: int) -> int:
    """Returns the greatest computed charge of an exchange, by the longest data of an aggregate and the settings."""
    slowest = Control(CONTROL_RATES[-1] if answers else FASTEST_CONTROL, True)
    answer = Control(SLOWEST_DSSS, False).ack_time if answers and legacy == Dsss.legacy else slowest.answer_time
    return max(cap, LONGEST_ALONE[legacy]) + answer
