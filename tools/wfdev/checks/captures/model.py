"""Captures and the list of `wf frames`, by a model that is written independently of the program."""
import struct
from collections.abc import Iterable, Iterator
from dataclasses import dataclass

MOST, LONGEST = 2**40, 262_144  # octets of an input, and of a packet
FILE_HEADER, PACKET_HEADER = 24, 16
MICROSECONDS, NANOSECONDS = 0xA1B2C3D4, 0xA1B23C4D
VERSION, LINK_TYPE = (2, 4), 105
DATA_KIND, REQUEST_KIND, BLOCK_ACK_KIND, ACK_KIND, GROUP_KIND, BEACON_KIND = 0x88, 0x84, 0x94, 0xD4, 0x08, 0x80
HEADER_OCTETS, ELEMENTS_AT, TIM_NUMBER = 24, 36, 5  # of a frame without QoS, and of a beacon
REQUEST_OCTETS, NARROW_OCTETS, WIDE_OCTETS = 20, 28, 52

ADDRESSES = bytes.fromhex("020000000000" "020000010000")
BLOCK_ACK = bytes.fromhex("94000000") + ADDRESSES + bytes.fromhex("0400" "4006" "0100000000000000")
WIDE_BLOCK_ACK = bytes.fromhex("94000000") + ADDRESSES + bytes.fromhex("0430" "4406") + bytes(32)
REQUEST = bytes.fromhex("84000000") + ADDRESSES + bytes.fromhex("0450" "f0ff")
DATA = bytes.fromhex("88023000") + ADDRESSES + bytes.fromhex("020000020000" "4006" "0700") + bytes(14)
ACK = bytes.fromhex("d4000000") + ADDRESSES[:6]


@dataclass(frozen=True)
class Beacon:
    """A beacon of a trace: the DTIM count and period, the bit for group frames, and the AIDs of its TIM, rising."""

    count: int
    period: int
    group: int
    aids: list[int]


@dataclass(frozen=True)
class Packet:
    """A packet: its time, in two parts, and its octets. `missing` octets of it were on the air and not captured. A beacon of a
    trace has what it says."""

    seconds: int
    fraction: int
    octets: bytes
    missing: int = 4
    beacon: Beacon | None = None

    def packed(self, order: str) -> bytes:
        """Returns the packet as a capture has it."""
        size = len(self.octets)
        return struct.pack(order + "IIII", self.seconds, self.fraction, size, size + self.missing) + self.octets


FIVE = [
    Packet(0, 0, DATA),
    Packet(0, 1976, BLOCK_ACK),
    Packet(2, 100, REQUEST),
    Packet(2, 148, WIDE_BLOCK_ACK),
    Packet(3, 0, ACK),
]


def header(order: str = "<", magic: int = MICROSECONDS) -> bytes:
    """Returns the header of a capture."""
    return struct.pack(order + "IHHIIII", magic, *VERSION, 0, 0, 65535, LINK_TYPE)


def capture(packets: Iterable[Packet], order: str = "<", magic: int = MICROSECONDS) -> bytes:
    """Returns a capture of these packets."""
    return header(order, magic) + b"".join(packet.packed(order) for packet in packets)


def is_data(octets: bytes) -> bool:
    """Returns whether octets are QoS Data in the form that the program reads."""
    if len(octets) < 26 or octets[0] != DATA_KIND:
        return False
    has_four_addresses = octets[1] & 3 == 3
    return not (has_four_addresses or octets[1] & 0xC4 or octets[22] & 15 or octets[24] & 0x80)


def block_name(octets: bytes) -> str | None:
    """Returns `bar` or `ba` if octets are a block frame in the form that the program reads."""
    if len(octets) not in (REQUEST_OCTETS, NARROW_OCTETS, WIDE_OCTETS):
        return None
    fragment = 4 if len(octets) == WIDE_OCTETS else 0
    kind = REQUEST_KIND if len(octets) == REQUEST_OCTETS else BLOCK_ACK_KIND
    if octets[0] != kind or octets[16] & 6 != 4 or octets[18] & 15 != fragment:
        return None
    return "bar" if kind == REQUEST_KIND else "ba"


def tim_among(elements: bytes) -> bytes | None:
    """Returns the body of the first TIM element of a beacon, if there is one, it is complete, and so are those before it."""
    while len(elements) >= 2:
        number, length, body = elements[0], elements[1], elements[2 : 2 + elements[1]]
        if len(body) < length:
            return None
        if number == TIM_NUMBER:
            return body if length >= 4 else None
        elements = elements[2 + length :]
    return None


def name_without_qos(octets: bytes) -> str:
    """Returns how the list names a beacon, a group frame or another packet."""
    if len(octets) >= HEADER_OCTETS:
        seq = int.from_bytes(octets[22:24], "little") >> 4
        tim = tim_among(octets[ELEMENTS_AT:]) if octets[0] == BEACON_KIND else None
        if tim is not None:
            return f"beacon seq {seq} count {tim[0]} period {tim[1]} group {tim[2] & 1}"
        if octets[0] == GROUP_KIND and octets[4] & 1:
            return f"group seq {seq}"
    return "other"


def name_of(octets: bytes) -> str:
    """Returns how the list names a packet's octets."""
    if is_data(octets):
        return f"data tid {octets[24] & 15} seq {int.from_bytes(octets[22:24], 'little') >> 4}"
    name = block_name(octets)
    if name:
        return f"{name} tid {octets[17] >> 4} start {int.from_bytes(octets[18:20], 'little') >> 4}"
    return name_without_qos(octets)


def order_of(octets: bytes) -> str | None:
    """Returns the byte order of a capture, or None if its first number is no magic number in either order."""
    return next((order for order in "<>" if struct.unpack(order + "I", octets[:4])[0] in (MICROSECONDS, NANOSECONDS)), None)


def header_fault(octets: bytes) -> str | None:
    """Returns the fault of a capture's header, if any."""
    if len(octets) < FILE_HEADER:
        return "short"
    order = order_of(octets)
    if order is None:
        return "magic"
    _, major, minor, _, _, _, link = struct.unpack(order + "IHHIIII", octets[:FILE_HEADER])
    if (major, minor) != VERSION:
        return "version"
    return None if link % 65536 == LINK_TYPE else "link"


def packet_fault(octets: bytes, place: int, captured: int) -> str | None:
    """Returns the fault of the packet at this place whose header was read, if any."""
    end = place + PACKET_HEADER + captured
    if len(octets) > MOST and end > MOST:
        return "too-big"
    if captured > LONGEST:
        return "long"
    return "short" if end > len(octets) else None


def packet_lines(octets: bytes, first: int) -> Iterator[str]:
    """Yields the lines of the packets of a capture with a good header; the first packet has this number."""
    order, place, number = order_of(octets), FILE_HEADER, first
    while place < len(octets):
        if len(octets) - place < PACKET_HEADER:
            yield f"fault packet {number} short"
            return
        seconds, fraction, captured, _ = struct.unpack(f"{order}IIII", octets[place : place + PACKET_HEADER])
        fault = packet_fault(octets, place, captured)
        if fault:
            yield f"fault packet {number} {fault}"
            return
        body = place + PACKET_HEADER
        yield f"{seconds} {fraction} len {captured} {name_of(octets[body : body + captured])}"
        place, number = body + captured, number + 1
    yield f"packets {number - 1}"


def listing(octets: bytes, first: int = 1) -> list[str]:
    """Returns the list of a capture. A capture of 2^40 octets does not fit here, so `too-big` does not occur."""
    fault = header_fault(octets)
    return [f"fault packet 0 {fault}"] if fault else list(packet_lines(octets, first))
