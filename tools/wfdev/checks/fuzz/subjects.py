"""The subjects of the comparison: commands of `wf`, their drawn inputs, and the models that answer."""
import random
from collections.abc import Callable
from dataclasses import dataclass

from wfdev.checks.captures import air, model
from wfdev.checks.fuzz import damage, scripts, traces
from wfdev.checks.uplinks.__main__ import script
from wfdev.model import text
from wfdev.model.text import BAD_INPUT, WELL

STARTS = (0, 4094, 4095)
WINDOWS = (1, 63, 64, 65, 256)
Ended = tuple[bytes, int]  # the output, and the status


@dataclass(frozen=True)
class Subject:
    """A command with its inputs, and its turns in a round. An input has lines, or is a capture."""

    name: str
    command: tuple[str, ...]
    draw: Callable[[random.Random], bytes]
    answer: Callable[[bytes], Ended]
    share: int
    has_lines: bool = True


def replay(octets: bytes) -> Ended:
    """Returns how `wf replay` ends."""
    written, status = text.replay(octets)
    return written.encode(), status


def replay_pcap(octets: bytes) -> Ended:
    """Returns how `wf replay --pcap` ends."""
    written, status = text.replay(octets)
    return model.capture(air.on_air(octets.decode("latin-1"), written)), status


def frames(octets: bytes) -> Ended:
    """Returns how `wf frames` ends."""
    lines = model.listing(octets)
    status = BAD_INPUT if lines[-1].startswith("fault") else WELL
    return "".join(line + "\n" for line in lines).encode(), status


def long_trace(draw: random.Random) -> bytes:
    """Returns a trace of some thousand calls."""
    return traces.made(draw, draw.choice((300, 1000, 3000)))


def short_trace(draw: random.Random) -> bytes:
    """Returns a trace of a few calls."""
    return traces.made(draw, draw.choice((1, 5, 20, 60)))


def damaged_trace(draw: random.Random) -> bytes:
    """Returns a damaged trace, which may have too many calls for its settings."""
    octets = short_trace(draw)
    if draw.random() < 0.1:
        octets = octets.replace(b"\n", f" calls={draw.randint(1, 20)}\n".encode(), 1)
    return damage.damaged(draw, octets)


def capture(draw: random.Random) -> bytes:
    """Returns a capture of a trace in any form, which may be damaged."""
    octets = short_trace(draw)
    packets = air.on_air(octets.decode("ascii"), text.replay(octets)[0])
    magic = draw.choice((model.MICROSECONDS, model.NANOSECONDS))
    made = bytearray(model.capture(packets, draw.choice("<>"), magic))
    for _ in range(draw.choice((0, 1, 1, 4, 20))):
        made[draw.randrange(len(made))] = draw.choice((0, 1, 255, draw.randrange(256)))
    return bytes(made[: draw.randrange(len(made))] if draw.random() < 0.2 else made)


def uplink_script(draw: random.Random) -> bytes:
    """Returns a script of an uplink."""
    events = script(draw.randrange(2**32), draw.choice((30, 300, 1500)))
    return "".join(event.line + "\n" for event in events).encode()


def session_event(draw: random.Random, sent: int) -> str:
    """Returns an event of a session, after about this many messages of an end."""
    kind = draw.random()
    if kind < 0.1:
        window, start = draw.randint(1, 256), draw.randint(0, 4095)
        return f"ask {draw.choice((*WINDOWS, window))} {draw.choice((*STARTS, start))}"
    if kind < 0.2:
        return "again"
    if kind < 0.9:
        return f"to {draw.choice('ab')} {max(0, sent - int(draw.expovariate(0.3)))}"
    return f"{draw.choice(('close', 'close', 'restart'))} {draw.choice('ab')}"


def session_script(draw: random.Random) -> bytes:
    """Returns a script of a session."""
    count, pace = draw.choice((5, 50, 500, 4000)), draw.choice((0.1, 0.2, 0.4))
    events = [session_event(draw, int(pace * at)) for at in range(count)]
    return "".join(event + "\n" for event in [*events, "end"]).encode()


def damaged_script(draw: random.Random) -> bytes:
    """Returns a damaged script of a session, or of an uplink; each command reads both."""
    make = draw.choice((session_script, uplink_script))
    lines = make(draw).split(b"\n")
    return damage.damaged(draw, b"\n".join([*lines[:20], b"end", b""]))


ALL = [
    Subject("traces", ("replay",), long_trace, replay, 10),
    Subject("damaged traces", ("replay",), damaged_trace, replay, 60),
    Subject("captures of traces", ("replay", "--pcap"), short_trace, replay_pcap, 10),
    Subject("captures of damaged traces", ("replay", "--pcap"), damaged_trace, replay_pcap, 5),
    Subject("lists of captures", ("frames",), capture, frames, 20, has_lines=False),
    Subject("uplinks", ("uplink",), uplink_script, scripts.uplink, 3),
    Subject("damaged uplinks", ("uplink",), damaged_script, scripts.uplink, 10),
    Subject("sessions", ("session",), session_script, scripts.session, 5),
    Subject("damaged sessions", ("session",), damaged_script, scripts.session, 10),
]
