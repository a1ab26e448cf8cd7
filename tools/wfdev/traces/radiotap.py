"""Radiotap fields (radiotap.org), which monitor mode puts before each frame: their length, and whether the frame
has its frame check sequence."""
from __future__ import annotations

FCS_OCTETS = 4
LEAST = 8
TSFT, FLAGS, MORE_WORDS = 1 << 0, 1 << 1, 1 << 31
HAS_FCS = 0x10


class Malformed(Exception):
    """The fields do not fit the packet."""


def _word(octets: bytes, at: int) -> int:
    """Returns a little-endian number of 32 bits."""
    if at + 4 > len(octets):
        raise Malformed
    return int.from_bytes(octets[at : at + 4], "little")


def length_of(packet: bytes) -> int:
    """Returns how many octets the fields of a packet have."""
    length = int.from_bytes(packet[2:4], "little")
    if len(packet) < LEAST or packet[0] != 0 or not LEAST <= length <= len(packet):
        raise Malformed
    return length


def flags_of(fields: bytes) -> int:
    """Returns the field Flags, or 0 if there is none. It stands after the words that say which fields are present,
    and after the field TSFT, which has 8 octets on a border of 8."""
    at = 4
    present = _word(fields, at)
    while _word(fields, at) & MORE_WORDS:
        at += 4
    at += 4
    if not present & FLAGS:
        return 0
    if present & TSFT:
        at = (at + 7) // 8 * 8 + 8
    if at >= len(fields):
        raise Malformed
    return fields[at]


def frame_of(packet: bytes) -> tuple[bytes, bool]:
    """Returns the frame of a packet, and whether the fields say that its frame check sequence ends it."""
    length = length_of(packet)
    return packet[length:], bool(flags_of(packet[:length]) & HAS_FCS)
