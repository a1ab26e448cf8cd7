"""Has tshark and scapy read captures, and text2pcap, editcap and scapy write some."""
import importlib.util
import logging
import shutil
import subprocess
from collections.abc import Sequence
from dataclasses import dataclass
from pathlib import Path

from wfdev.checks.captures.air import MICROSECONDS
from wfdev.checks.captures.model import (
    ACK,
    ACK_KIND,
    BEACON_KIND,
    BLOCK_ACK_KIND,
    DATA_KIND,
    GROUP_KIND,
    REQUEST,
    REQUEST_KIND,
    Beacon,
    Packet,
    name_of,
)
from wfdev.harness.script import Difference, expect

# The time and the fields of every frame, of data frames, of block frames, of BlockAcks, of beacons and of group frames, and tshark's
# complaints.
HEAD_FIELDS = "frame.time_epoch wlan.fc.type_subtype wlan.fc.retry wlan.fc.moredata wlan.qos.eosp _ws.malformed _ws.expert.severity"
TIM_FIELDS = "wlan.tim.dtim_count wlan.tim.dtim_period wlan.tim.bmapctl.multicast wlan.tim.bmapctl.offset wlan.tim.partial_virtual_bitmap"
NUMBER_FIELDS = "wlan.qos.tid wlan.seq wlan.ba.basic.tidinfo wlan.fixed.ssc.sequence wlan.fixed.ssc.fragment"
FIELDS = f"{HEAD_FIELDS} {NUMBER_FIELDS} wlan.ba.bm {TIM_FIELDS} wlan.da".split()
ERROR = 0x800000
KINDS = {DATA_KIND: 0x28, REQUEST_KIND: 0x18, BLOCK_ACK_KIND: 0x19, ACK_KIND: 0x1D, GROUP_KIND: 0x20, BEACON_KIND: 0x08}
EVERYONE = "ff:ff:ff:ff:ff:ff"
WORDS = {"": None, "True": 1, "False": 0}


@dataclass(frozen=True)
class Capture:
    """A capture with its packets."""

    name: str
    octets: bytes
    packets: Sequence[Packet]


def has_scapy() -> bool:
    """Returns whether scapy is installed."""
    logging.getLogger("scapy").setLevel(logging.ERROR)
    return importlib.util.find_spec("scapy") is not None


def number_in(text: str) -> int | None:
    """Returns a field of tshark's as a number, or None if it is missing."""
    return WORDS[text] if text in WORDS else int(text, 0)


def numbers_of(octets: bytes) -> list[int | None]:
    """Returns the numbers that tshark lists of a frame: those of data, and those of a block frame. A beacon and a group frame have
    one, and an Ack has none."""
    if octets[0] == ACK_KIND:
        return [None] * 5
    listed = [int(word) for word in name_of(octets).split() if word.isdigit()]
    if octets[0] in (BEACON_KIND, GROUP_KIND):
        return [None, listed[0], None, None, None]
    return [*listed, None, None, None] if octets[0] == DATA_KIND else [None, None, *listed, octets[18] & 15]


def expect_beacon(where: str, fields: Sequence[str], said: Beacon | None) -> None:
    """Compares the fields of a TIM with what the trace's beacon says."""
    if said is None:
        raise Difference(f"{where}: tshark reads a beacon that the trace does not have")
    count, period, bit, offset = [number_in(field) for field in fields[:4]]
    bitmap = bytes.fromhex(fields[4].replace(":", ""))
    first = 8 * (offset or 0)
    aids = [first + 8 * at + nth for at, octet in enumerate(bitmap) for nth in range(8) if octet >> nth & 1]
    expect(f"{where}, DTIM count, period and bit", (count, period, bit), (said.count, said.period, said.group))
    expect(f"{where}, AIDs", aids, said.aids)


def expect_line(where: str, line: str, packet: Packet) -> None:
    """Compares a line of tshark with its packet."""
    octets = packet.octets
    time, *others = line.split(";")
    fields, bitmap, tim, destination = others[:11], others[11], others[12:17], others[17]
    expect(f"{where}, time", round(float(time) * MICROSECONDS), packet.seconds * MICROSECONDS + packet.fraction)
    kind, retry, more, ends_service, malformed, severity, *numbers = [number_in(field) for field in fields]
    if malformed is not None or (severity or 0) >= ERROR:
        raise Difference(f"{where}: tshark reports an error: {line}")
    expect(f"{where}, bits Retry and More Data", (retry, more), (octets[1] >> 3 & 1, octets[1] >> 5 & 1))
    expect(f"{where}, bit EOSP", ends_service, octets[24] >> 4 & 1 if octets[0] == DATA_KIND else None)
    expect(f"{where}, kind", kind, KINDS[octets[0]])
    expect(f"{where}, numbers", numbers, numbers_of(octets))
    if octets[0] == BLOCK_ACK_KIND:
        expect(f"{where}, bitmap", bytes.fromhex(bitmap.replace(":", "")), octets[20:])
    if octets[0] == BEACON_KIND:
        expect_beacon(where, tim, packet.beacon)
    if octets[0] in (BEACON_KIND, GROUP_KIND):
        expect(f"{where}, destination", destination, EVERYONE)


def read_by_tshark(capture: Capture, path: Path) -> None:
    """Has tshark read a capture."""
    words = ["tshark", "-r", str(path), "--disable-protocol", "llc", "-T", "fields", "-E", "separator=;", "-E", "occurrence=f"]
    words += [word for name in FIELDS for word in ("-e", name)]
    lines = subprocess.run(words, capture_output=True, check=True, text=True).stdout.splitlines()
    expect(f"{capture.name}: packets read by tshark", len(lines), len(capture.packets))
    for number, (line, packet) in enumerate(zip(lines, capture.packets, strict=True), 1):
        expect_line(f"{capture.name}, packet {number}", line, packet)


def read_by_scapy(capture: Capture, path: Path) -> None:
    """Has scapy read a capture."""
    from scapy.all import Dot11, Dot11QoS, rdpcap

    for read, packet in zip(rdpcap(str(path)), capture.packets, strict=True):
        octets = packet.octets
        expect(f"{capture.name}: octets", bytes(read), octets)
        expect(f"{capture.name}: time", read.time * MICROSECONDS, packet.seconds * MICROSECONDS + packet.fraction)
        expect(f"{capture.name}: bit Retry", int(bool(read[Dot11].FCfield.retry)), octets[1] >> 3 & 1)
        if octets[0] == DATA_KIND:
            numbers = int.from_bytes(octets[22:24], "little") >> 4, octets[24] & 15
            expect(f"{capture.name}: sequence number and TID", (read[Dot11].SC >> 4, read[Dot11QoS].TID), numbers)


def dump(packets: Sequence[Packet]) -> str:
    """Returns packets in the form that text2pcap reads."""
    lines = [f"{at:06x} {packet.octets[at:at + 16].hex(' ')}" for packet in packets for at in range(0, len(packet.octets), 16)]
    return "".join(line + "\n" for line in lines)


def by_text2pcap(packets: Sequence[Packet], folder: Path) -> Path | None:
    """Returns a capture of these packets that text2pcap wrote, or None if it is missing."""
    if shutil.which("text2pcap") is None:
        return None
    text, made = folder / "dump.txt", folder / "made.pcap"
    text.write_text(dump(packets), encoding="ascii")
    subprocess.run(["text2pcap", "-q", "-F", "pcap", "-l", "105", text, made], capture_output=True, check=True)
    return made


def by_editcap(made: Path, folder: Path) -> Path | None:
    """Returns a capture turned to nanoseconds by editcap, or None if it is missing."""
    if shutil.which("editcap") is None:
        return None
    turned = folder / "turned.pcap"
    subprocess.run(["editcap", "-F", "nsecpcap", made, turned], capture_output=True, check=True)
    return turned


def by_scapy(folder: Path) -> Path | None:
    """Returns a capture that scapy wrote, of a data frame, a request and an Ack, or None if it is missing."""
    if not has_scapy():
        return None
    from scapy.all import Dot11, Dot11QoS, Raw, wrpcap

    made = folder / "scapy.pcap"
    addresses = {"addr1": "02:00:00:01:00:00", "addr2": "02:00:00:00:00:00", "addr3": "02:00:00:02:00:00"}
    frame = Dot11(type=2, subtype=8, FCfield="from-DS", SC=16 * 777, **addresses)
    wrpcap(str(made), [frame / Dot11QoS(TID=6) / Raw(b"hello"), Raw(REQUEST), Raw(ACK)], linktype=105)
    return made
