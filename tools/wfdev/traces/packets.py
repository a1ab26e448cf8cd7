"""The packets of capture files: of libpcap's format, with microseconds or nanoseconds, and of pcapng."""
from __future__ import annotations

import dataclasses
import struct
from collections.abc import Iterator
from typing import BinaryIO

MOST = 1 << 18  # octets of a packet, as for `wf frames`
MOST_BLOCK = 1 << 24  # octets of a block of pcapng
UNITS = {0xA1B2C3D4: 10**6, 0xA1B23C4D: 10**9}
# The kinds of blocks of pcapng that are read, and the number by which a section shows its byte order.
SECTION, INTERFACE, SIMPLE, ENHANCED = 0x0A0D0D0A, 1, 3, 6
BORDER = 0x1A2B3C4D
RESOLUTION = 9  # the option if_tsresol of an interface


class CaptureFault(Exception):
    """The file is no capture that can be read. The message says what is wrong, and where."""


@dataclasses.dataclass(frozen=True)
class Packet:
    """A packet: its link type, its time and the units of it in a second, what was captured, and its length on the air."""

    link: int
    time: int
    units: int
    octets: bytes
    length: int


@dataclasses.dataclass(frozen=True)
class Interface:
    """An interface of a section of pcapng: its link type, and the units of time in a second."""

    link: int
    units: int


def packets(file: BinaryIO) -> Iterator[Packet]:
    """Yields the packets of a capture."""
    head = _octets(file, 4, "the file header")
    order = next((order for order in "<>" if struct.unpack(f"{order}I", head)[0] in UNITS), None)
    if order is not None:
        yield from _of_libpcap(file, order, UNITS[struct.unpack(f"{order}I", head)[0]])
    elif int.from_bytes(head, "big") == SECTION:
        yield from _of_pcapng(file, head)
    else:
        raise CaptureFault(f"it begins with the octets {head.hex(' ')}: expected a capture of the format of libpcap, or pcapng")


def _octets(file: BinaryIO, count: int, what: str) -> bytes:
    """Reads octets, which have to be there."""
    octets = file.read(count)
    if len(octets) < count:
        raise CaptureFault(f"it ends inside {what}: the capture is cut off")
    return octets


def _of_libpcap(file: BinaryIO, order: str, units: int) -> Iterator[Packet]:
    """Yields the packets of a file of libpcap's format, whose first number was read."""
    major, minor, _, _, _, link = struct.unpack(f"{order}HHIIII", _octets(file, 20, "the file header"))
    if (major, minor) != (2, 4):
        raise CaptureFault(f"it has version {major}.{minor} of the format of libpcap: expected 2.4")
    number = 0
    while head := file.read(16):
        number += 1
        head += _octets(file, 16 - len(head), f"packet {number}")
        seconds, fraction, captured, length = struct.unpack(f"{order}IIII", head)
        if captured > MOST:
            raise CaptureFault(f"packet {number} has a captured length of {captured}: expected at most {MOST}")
        octets = _octets(file, captured, f"packet {number}")
        yield Packet(link & 0xFFFF, seconds * units + fraction, units, octets, max(length, captured))


def _of_pcapng(file: BinaryIO, begin: bytes) -> Iterator[Packet]:
    """Yields the packets of a file of the format pcapng, whose first number was read."""
    interfaces: list[Interface] = []
    number = 0
    for order, kind, body in _blocks(file, begin):
        if kind == SECTION:
            interfaces = []
        elif kind == INTERFACE:
            interfaces.append(_interface(body, order))
        elif kind in (ENHANCED, SIMPLE):
            number += 1
            try:
                yield _packet(kind, body, order, interfaces)
            except (struct.error, IndexError):
                raise CaptureFault(f"the block of packet {number} is malformed, or its interface is missing") from None


def _blocks(file: BinaryIO, begin: bytes) -> Iterator[tuple[str, int, bytes]]:
    """Yields the byte order, the kind and the body of each block of pcapng. `begin` is the first number."""
    order, number = "<", 0
    while begin:
        number += 1
        where = f"block {number}"
        head = begin + _octets(file, 8 - len(begin), where)
        border = b""
        if head[:4] == SECTION.to_bytes(4, "big"):
            border = _octets(file, 4, where)
            order = _section_order(border)
        kind, length = struct.unpack(f"{order}II", head)
        if length % 4 or not 12 + len(border) <= length <= MOST_BLOCK:
            raise CaptureFault(f"{where} has a length of {length}: expected 12 to {MOST_BLOCK}, a multiple of 4")
        yield order, kind, border + _octets(file, length - 12 - len(border), where)
        _octets(file, 4, where)
        begin = file.read(4)


def _section_order(border: bytes) -> str:
    """Returns the byte order of a section of pcapng."""
    order = next((order for order in "<>" if struct.unpack(f"{order}I", border)[0] == BORDER), None)
    if order is None:
        raise CaptureFault(f"a section begins with the octets {border.hex(' ')}: expected 1a 2b 3c 4d, or these in reverse order")
    return order


def _interface(body: bytes, order: str) -> Interface:
    """Returns the interface of a block."""
    link, units, at = struct.unpack(f"{order}H", body[:2])[0], 10**6, 8
    while at + 4 <= len(body):
        code, size = struct.unpack(f"{order}HH", body[at : at + 4])
        value = body[at + 4 : at + 4 + size]
        if code == RESOLUTION and value:
            units = 1 << (value[0] & 0x7F) if value[0] & 0x80 else 10 ** value[0]
        at += 4 + (size + 3) // 4 * 4
    return Interface(link, units)


def _packet(kind: int, body: bytes, order: str, interfaces: list[Interface]) -> Packet:
    """Returns the packet of a block. A simple block has no time, and is of the first interface."""
    if kind == SIMPLE:
        (length,) = struct.unpack(f"{order}I", body[:4])
        return Packet(interfaces[0].link, 0, interfaces[0].units, body[4 : 4 + length], length)
    place, high, low, captured, length = struct.unpack(f"{order}IIIII", body[:20])
    interface = interfaces[place]
    if captured > min(MOST, len(body) - 20):
        raise struct.error
    return Packet(interface.link, high << 32 | low, interface.units, body[20 : 20 + captured], max(length, captured))
