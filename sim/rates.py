"""Rates and times of data, by the rules of docs/MACHINE.md ("Rate" and "Time of data"), for the models and for the checks.

The machine computes its own airtimes.
"""
from __future__ import annotations

from dataclasses import dataclass

# Data bits of twelve carriers, bits of a carrier, and the code, by modulation.
BITS_OF_TWELVE = (6, 12, 18, 24, 36, 48, 54, 60, 72, 80, 90, 100)
BITS_OF_CARRIER = (1, 2, 2, 4, 4, 6, 6, 6, 8, 8, 10, 10)
CODE_RATES = ((1, 2), (1, 2), (3, 4), (1, 2), (3, 4), (2, 3), (3, 4), (5, 6), (3, 4), (5, 6), (3, 4), (5, 6))
CARRIERS = {"ht": {20: 52, 40: 108}, "vht": {20: 52, 40: 108, 80: 234, 160: 468}, "he": {20: 234, 40: 468, 80: 980, 160: 1960}}
TRAINING_FIELDS = (1, 2, 4, 4, 6, 6, 8, 8)
GUARDS = {"long": "800", "short": "400"}
MOST_MCS = {"ht": 15, "vht": 9, "he": 11}
# Combinations of MCS, MHz and streams without a rate in VHT.
NO_VHT_RATES = {*((9, 20, streams) for streams in (1, 2, 4, 5, 7, 8)), (6, 80, 3), (6, 80, 7), (9, 80, 6), (9, 160, 3)}

# Speeds of OFDM in Mbit/s and of DSSS in half Mbit/s, and by the setting `legacy` the longest time of a frame alone.
SPEEDS = {"ofdm": (6, 9, 12, 18, 24, 36, 48, 54), "dsss": (2, 4, 11, 22)}
LONGEST_ALONE = (3000, 3200, 19_200)

MOST_TEXT = 40  # characters of a rate's text

SIFS = 16
ACK = 28
BLOCK_ACK = 32
WIDE_BLOCK_ACK = 40
DELIMITER = 4  # octets before each frame of an aggregate
# The most octets of an aggregate at the A-MPDU length exponent 3.
MOST_OCTETS = {"ht": 2**16 - 1, "vht": 2**20 - 1, "he": 2**20 - 1}
SLOW_KBIT = 12_000  # CoDel is more patient below this rate


@dataclass(frozen=True)
class Legacy:
    """A rate of OFDM or DSSS: its format `ofdm` or `dsss`, and its Mbit/s or half Mbit/s. It has no aggregates."""

    format: str
    speed: int

    def __str__(self) -> str:
        """As in a trace's line."""
        return f"{self.format} {self.speed}"

    @property
    def setting(self) -> int:
        """The least value of the setting `legacy` that allows the rate."""
        return 1 if self.format == "ofdm" else 2

    @property
    def kbit(self) -> int:
        """Kilobits a second."""
        return self.speed * (1000 if self.format == "ofdm" else 500)

    def data_time(self, octets: int) -> int:
        """Whole microseconds of a frame of this many octets."""
        if self.format == "ofdm":
            return 20 + 4 * -(-(8 * octets + 22) // (4 * self.speed))
        return 192 - (-16 * octets // self.speed)

    def octets_within(self, microseconds: int) -> int:
        """The most octets of an aggregate: none, so a frame goes alone."""
        return 0

    @property
    def most_octets(self) -> int:
        return 0


@dataclass(frozen=True)
class MimoRate:
    """A rate of HT, VHT or HE: its format `ht`, `vht` or `he`, the MCS, the width in MHz, the guard interval in nanoseconds, and the streams."""

    format: str
    mcs: int
    mhz: int
    guard: int
    streams: int

    def __str__(self) -> str:
        """As in a trace's line."""
        if self.format == "he":
            return f"he {self.mcs} {self.mhz} {self.guard} {self.streams}"
        guard = "short" if self.guard == 400 else "long"
        if self.format == "vht":
            return f"vht {self.mcs} {self.mhz} {guard} {self.streams}"
        return f"{self.mcs} {self.mhz} {guard}"

    @property
    def modulation(self) -> int:
        return self.mcs % 8 if self.format == "ht" else self.mcs

    @property
    def carriers(self) -> int:
        """Carriers of all streams."""
        return CARRIERS[self.format][self.mhz] * self.streams

    @property
    def bits_of_all_twelves(self) -> int:
        """Twelve times the data bits of one symbol, with their fraction."""
        return self.carriers * BITS_OF_TWELVE[self.modulation]

    @property
    def bits(self) -> int:
        """Data bits of one symbol."""
        return self.bits_of_all_twelves // 12

    @property
    def symbol(self) -> int:
        """Tenths of a microsecond of one symbol."""
        if self.format == "he":
            return 128 + self.guard // 100
        return 36 if self.guard == 400 else 40

    @property
    def kbit(self) -> int:
        """Kilobits a second, rounded down."""
        return 10_000 * self.bits // self.symbol

    @property
    def encoders(self) -> int:
        """The number of encoders. VHT has the fewest that give each a whole number of its code's blocks in a symbol."""
        if self.format == "he":
            return 1
        if self.format == "ht":
            return 1 if self.bits <= 1200 else 2
        count = -(-self.bits // 2160)
        while self.carriers * BITS_OF_CARRIER[self.modulation] % (CODE_RATES[self.modulation][1] * count):
            count += 1
        return count

    @property
    def training(self) -> int:
        """Tenths of a microsecond of each training field."""
        if self.format == "he":
            return (128 if self.guard == 3200 else 64) + self.guard // 100
        return 40

    @property
    def preamble(self) -> int:
        """Tenths of a microsecond before the first symbol of data."""
        return (320 if self.format == "ht" else 360) + self.training * TRAINING_FIELDS[self.streams - 1]

    def payload(self, octets: int) -> int:
        """Bits of this many octets, with SERVICE and the tails."""
        return 8 * octets + 16 + 6 * self.encoders

    def symbols(self, octets: int) -> int:
        return -(-self.payload(octets) // self.bits)

    def tenths(self, octets: int) -> int:
        """Tenths of a microsecond of the data of an aggregate. HT and VHT round up to 4 microseconds."""
        payload = self.symbol * self.symbols(octets)
        return self.preamble + (payload if self.format == "he" else -(-payload // 40) * 40)

    def data_time(self, octets: int) -> int:
        """Whole microseconds of the data of an aggregate."""
        return -(-self.tenths(octets) // 10)

    def octets_within(self, microseconds: int) -> int:
        """The most octets whose data time is at most this."""
        room = 10 * microseconds - self.preamble
        symbols = (room if self.format == "he" else room // 40 * 40) // self.symbol
        return (symbols * self.bits - self.payload(0)) // 8

    @property
    def most_octets(self) -> int:
        """The most octets of an aggregate, at the A-MPDU length exponent 3."""
        return MOST_OCTETS[self.format]


Rate = MimoRate | Legacy


def rate_of(form: str, mcs: int, mhz: int, guard: int, streams: int) -> MimoRate | None:
    """The rate of these numbers, or None if there is none."""
    guards = (800, 1600, 3200) if form == "he" else (800, 400)
    if mcs > MOST_MCS[form] or mhz not in CARRIERS[form] or guard not in guards or not 1 <= streams <= 8:
        return None
    if form == "vht" and (mcs, mhz, streams) in NO_VHT_RATES:
        return None
    return MimoRate(form, mcs, mhz, guard, streams)


def parse_rate(text: str) -> Rate | None:
    """The rate of a text as in a trace: `MCS MHZ GUARD`, `vht MCS MHZ GUARD N`, `he MCS MHZ GUARD N`, `ofdm MBIT` or
    `dsss HALF_MBIT`; None if it is none."""
    if not text.isascii() or len(text) > MOST_TEXT:
        return None
    words = text.split()
    if words[:1] in (["ofdm"], ["dsss"]):
        return legacy_of(*words) if len(words) == 2 else None
    form = words.pop(0) if words[:1] in (["vht"], ["he"]) else "ht"
    if len(words) != (3 if form == "ht" else 4):
        return None
    guard = words.pop(2)
    if form != "he":
        guard = GUARDS.get(guard, "")
    if not all(word.isdecimal() for word in [*words, guard]):
        return None
    mcs, mhz, *streams = map(int, words)
    return rate_of(form, mcs, mhz, int(guard), streams[0] if streams else 1 + mcs // 8)


def legacy_of(form: str, speed: str) -> Legacy | None:
    """The rate of OFDM or DSSS with this speed, or None if there is none."""
    return Legacy(form, int(speed)) if speed.isdecimal() and int(speed) in SPEEDS[form] else None


def subframe(body: int) -> int:
    """Octets of a frame of this body in an aggregate, without padding: delimiter 4, header 26, check sequence 4."""
    return body + 34


def padded(body: int) -> int:
    """Octets of a frame of this body when another follows in the aggregate: padded to a multiple of 4."""
    return (body + 37) // 4 * 4


def charge(rate: Rate, octets: int, window: int) -> int:
    """Microseconds that an exchange of this aggregate is charged: its data, SIFS and the BlockAck of a session of this window.
    At a rate of OFDM or DSSS it is one frame without a delimiter, which an Ack answers."""
    if isinstance(rate, Legacy):
        return rate.data_time(octets - DELIMITER) + SIFS + ACK
    return rate.data_time(octets) + SIFS + (BLOCK_ACK if window <= 64 else WIDE_BLOCK_ACK)
