"""Writes captures as a device in monitor mode gives them, into the folder that is given: `python3 devices.py FOLDER`.

There are the subframes of an A-MPDU, a BlockAckReq, a BlockAck, an Ack and a beacon, after radiotap fields of different
lengths: `tap.pcap` without frame check sequences, and `tap-fcs.pcap` with them, except for the last packet.
"""
import sys
import zlib
from pathlib import Path

from scapy.all import Dot11, Dot11Beacon, Dot11Elt, Dot11QoS, RadioTap, Raw, wrpcap

POINT, STATION, SOURCE = "02:00:00:00:00:00", "02:00:00:01:00:03", "02:00:00:02:00:00"
TO_STATION = bytes.fromhex("020000010003" "020000000000")
TO_POINT = bytes.fromhex("020000000000" "020000010003")
RADIOTAP = 127


def data(seq: int, length: int) -> bytes:
    """Returns QoS Data of TID 5."""
    head = Dot11(type=2, subtype=8, FCfield="from-DS", ID=48, addr1=STATION, addr2=POINT, addr3=SOURCE, SC=16 * seq)
    return bytes(head / Dot11QoS(TID=5) / Raw(bytes(at % 256 for at in range(length))))


def beacon() -> bytes:
    """Returns a beacon."""
    head = Dot11(type=0, subtype=8, addr1="ff:ff:ff:ff:ff:ff", addr2=POINT, addr3=POINT)
    return bytes(head / Dot11Beacon() / Dot11Elt(ID=0, info=b"net"))


def frames() -> list[bytes]:
    """Returns the frames."""
    return [
        *(data(4094 + index if index < 2 else index - 2, 40 + index) for index in range(4)),
        bytes.fromhex("84000000") + TO_STATION + bytes.fromhex("0450" "f0ff"),
        bytes.fromhex("94000000") + TO_POINT + bytes.fromhex("0450" "e0ff" "0f00000000000000"),
        bytes.fromhex("d4000000") + TO_POINT[:6],
        beacon(),
    ]


def fields(number: int, has_check: bool) -> bytes:
    """Returns the radiotap fields of a frame: data frames also have the time, the channel and the A-MPDU's status."""
    flags = "FCS" if has_check else 0
    if number < 4:
        tap = RadioTap(present="TSFT+Flags+Rate+Channel+A_MPDU", mac_timestamp=1000 + number, Flags=flags, Rate=12)
        tap.ChannelFrequency, tap.ChannelFlags, tap.A_MPDU_ref = 5180, 0x140, 7
        return bytes(tap)
    if number == 4:
        return bytes(RadioTap(present="Rate", Rate=12)) if not has_check else bytes(RadioTap(present="Flags", Flags=flags))
    return bytes(RadioTap(present="TSFT+Flags", mac_timestamp=1000 + number, Flags=flags))


def packets(has_check: bool) -> list[Raw]:
    """Returns the packets of a capture."""
    found = []
    for number, frame in enumerate(frames()):
        checked = has_check and number < 7
        octets = fields(number, checked) + frame + (zlib.crc32(frame).to_bytes(4, "little") if checked else b"")
        packet = Raw(octets)
        packet.time = 10 + number / 1000
        found.append(packet)
    return found


if __name__ == "__main__":
    folder = Path(sys.argv[1])
    wrpcap(str(folder / "tap.pcap"), packets(False), linktype=RADIOTAP)
    wrpcap(str(folder / "tap-fcs.pcap"), packets(True), linktype=RADIOTAP)
