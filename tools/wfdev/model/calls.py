"""The lines of calls: TRACE.md, the table of Lines."""
from wfdev.model.frames import Class
from wfdev.model.grammar import Form, NumberIn, OneOf
from wfdev.model.rates import LONG, SHORT, Dsss, Format, MimoRate, Ofdm, ht

OCTET, SHORT_NUMBER, LONG_NUMBER = NumberIn(range(2**8)), NumberIn(range(2**16)), NumberIn(range(2**32))
STATION, EXCHANGE = SHORT_NUMBER, LONG_NUMBER
CLASS = OneOf(tuple(Class))
GUARD = OneOf(("long", "short"))
HEARD = OneOf(("heard", "lost"))
LENGTH = NumberIn(range(1, 2305))
FRAMES, MICROSECONDS = NumberIn(range(1, 65_536)), NumberIn(range(1, 2**32))
NANOSECONDS = {"long": LONG, "short": SHORT}


def ht_values(station: int, mcs: int, mhz: int, guard: str) -> tuple[object, ...]:
    """Returns the values of a rate of HT."""
    return station, ht(mcs, mhz, NANOSECONDS[guard])


def vht_values(station: int, _: str, mcs: int, mhz: int, guard: str, streams: int) -> tuple[object, ...]:
    """Returns the values of a rate of VHT."""
    return station, MimoRate(Format.VHT, mcs, mhz, NANOSECONDS[guard], streams)


def he_values(station: int, _: str, mcs: int, mhz: int, guard: int, streams: int) -> tuple[object, ...]:
    """Returns the values of a rate of HE."""
    return station, MimoRate(Format.HE, mcs, mhz, guard, streams)


def ofdm_values(station: int, _: str, mbps: int) -> tuple[object, ...]:
    """Returns the values of a rate of OFDM."""
    return station, Ofdm(mbps)


def dsss_values(station: int, _: str, half_mbps: int) -> tuple[object, ...]:
    """Returns the values of a rate of DSSS."""
    return station, Dsss(half_mbps)


def frames_values(access: str, _: str, frames: int) -> tuple[object, ...]:
    """Returns the values of a pull with a limit on frames."""
    return access, frames


def air_values(access: str, _: str, air: int) -> tuple[object, ...]:
    """Returns the values of a pull with a limit on airtime."""
    return access, None, air


def limited_values(access: str, _: str, frames: int, __: str, air: int) -> tuple[object, ...]:
    """Returns the values of a pull with both limits."""
    return access, frames, air


def done_values(exchange: int, heard: str, _: str, air: int) -> tuple[object, ...]:
    """Returns the values of a done with its airtime."""
    return exchange, heard, air


AIR = OneOf(("air",))
WITH_FRAMES = (CLASS, OneOf(("frames",)), FRAMES)
VHT = (STATION, OneOf(("vht",)), OCTET, OCTET, GUARD, OCTET)
HE = (STATION, OneOf(("he",)), OCTET, OCTET, SHORT_NUMBER, OCTET)
OFDM, DSSS = (STATION, OneOf(("ofdm",)), OCTET), (STATION, OneOf(("dsss",)), OCTET)

# The forms of each line; a line has the first that is meant by its words.
FORMS = {
    "join": [Form((STATION, SHORT_NUMBER, SHORT_NUMBER, OCTET, OCTET), optional=1)],
    "leave": [Form((STATION,))],
    "rate": [
        Form(VHT, marks=((1, "vht"),), values=vht_values),
        Form(HE, marks=((1, "he"),), values=he_values),
        Form(OFDM, marks=((1, "ofdm"),), values=ofdm_values),
        Form(DSSS, marks=((1, "dsss"),), values=dsss_values),
        Form((STATION, OCTET, OCTET, GUARD), values=ht_values),
    ],
    "tick": [Form((LONG_NUMBER,))],
    "enq": [Form((STATION, OCTET, LONG_NUMBER, LENGTH))],
    "pull": [
        Form((*WITH_FRAMES, AIR, MICROSECONDS), marks=((1, "frames"), (3, "air")), values=limited_values),
        Form(WITH_FRAMES, marks=((1, "frames"),), values=frames_values),
        Form((CLASS, AIR, MICROSECONDS), marks=((1, "air"),), values=air_values),
        Form((CLASS,)),
    ],
    "arrive": [Form((EXCHANGE, SHORT_NUMBER))],
    "answer": [Form((EXCHANGE,))],
    "done": [
        Form((EXCHANGE, HEARD, AIR, LONG_NUMBER), marks=((2, "air"),), values=done_values),
        Form((EXCHANGE, HEARD)),
    ],
    "sleep": [Form((STATION,))],
    "wake": [Form((STATION,))],
    "poll": [Form((STATION,))],
    "rx": [Form((STATION, CLASS, LONG_NUMBER))],
    "reap": [Form()],
    "ampdu": [Form((STATION, LONG_NUMBER))],
    "stop": [Form((STATION,))],
    "start": [Form((STATION,))],
    "unsent": [Form((EXCHANGE, SHORT_NUMBER))],
    "giveup": [Form((EXCHANGE, SHORT_NUMBER))],
    "flush": [Form((STATION, OCTET))],
    "offload": [Form((STATION, OCTET, OCTET), optional=1)],
    "weight": [Form((STATION, OCTET))],
    "plain": [Form((STATION, SHORT_NUMBER, OCTET, OCTET), optional=1)],
    "hold": [Form((STATION, OCTET))],
    "begin": [Form((STATION, OCTET, SHORT_NUMBER))],
    "free": [Form((STATION, OCTET))],
    "cease": [Form((STATION, OCTET))],
    "group": [Form((LENGTH, OCTET), optional=1)],
    "beacon": [Form((OCTET,), optional=1)],
    "gpull": [Form((OCTET,), optional=1)],
    "gdone": [Form((OCTET,), optional=1)],
    "apsd": [Form((STATION, OCTET, OCTET))],
    "trigger": [Form((STATION,))],
    "eosp": [Form((STATION,))],
    "bss": [Form((STATION, OCTET))],
}
LINES = {**FORMS, "end": [Form()]}
