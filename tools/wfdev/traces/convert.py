"""Converts a capture into one that `wf frames` reads: of libpcap's format, with IEEE 802.11 frames alone. Radiotap
fields are removed, and so is the frame check sequence if they say that a frame has it."""
from __future__ import annotations

import dataclasses
import struct
from typing import BinaryIO, Protocol

from . import radiotap
from .packets import UNITS, CaptureFault, Packet, packets

PLAIN, RADIOTAP = 105, 127
MAGIC = {units: magic for magic, units in UNITS.items()}
MILLION, BILLION = 10**6, 10**9
MOST_SECONDS = 1 << 32


@dataclasses.dataclass
class Converted:
    """How many packets were converted, with radiotap fields, and with a frame check sequence."""

    packets: int = 0
    fields: int = 0
    checks: int = 0

    def told(self) -> str:
        """Returns the counts in words."""
        return f"{self.packets} packets; radiotap fields removed from {self.fields}, frame check sequences from {self.checks}"


def head(units: int) -> bytes:
    """Returns the file header of a capture with this many units of time in a second."""
    return struct.pack("<IHHIIII", MAGIC[units], 2, 4, 0, 0, 65535, PLAIN)


def frame(packet: Packet, number: int, has_check: bool, count: Converted) -> tuple[bytes, int]:
    """Returns the frame of a packet, as it was captured, and its length on the air."""
    octets, length = packet.octets, packet.length
    if packet.link == RADIOTAP:
        try:
            octets, flagged = radiotap.frame_of(octets)
        except radiotap.Malformed:
            raise CaptureFault(f"the radiotap fields of packet {number} are malformed") from None
        length -= len(packet.octets) - len(octets)
        has_check = has_check or flagged
        count.fields += 1
    elif packet.link != PLAIN:
        raise CaptureFault(f"packet {number} has link type {packet.link}: expected 105 or 127, IEEE 802.11 frames")
    if has_check and length >= radiotap.FCS_OCTETS:
        length -= radiotap.FCS_OCTETS
        octets = octets[:length]
        count.checks += 1
    return octets, length


class Target(Protocol):
    """Where octets are written."""

    def write(self, octets: bytes, /) -> int:
        """Writes octets."""


def convert(source: BinaryIO, target: Target, has_check: bool = False) -> Converted:
    """Writes the frames of a capture as a capture. With `has_check` each of them ends with its frame check sequence.

    Times are in microseconds if those of the first packet are, and else in nanoseconds.
    """
    count = Converted()
    units = MILLION
    for number, packet in enumerate(packets(source), 1):
        if number == 1:
            units = MILLION if packet.units == MILLION else BILLION
            target.write(head(units))
        octets, length = frame(packet, number, has_check, count)
        seconds, fraction = divmod(packet.time * units // packet.units, units)
        if seconds >= MOST_SECONDS:
            raise CaptureFault(f"packet {number} is {seconds} seconds after 1970: expected fewer than 2^32")
        target.write(struct.pack("<IIII", seconds, fraction, len(octets), length) + octets)
        count.packets = number
    if not count.packets:
        target.write(head(units))
    return count
