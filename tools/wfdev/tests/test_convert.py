"""Tests of the conversion of captures: radiotap fields, frame check sequences, and the format pcapng."""
from __future__ import annotations

import io
import struct
import unittest

from wfdev.traces import radiotap
from wfdev.traces.convert import Converted, convert
from wfdev.traces.packets import CaptureFault, packets

FRAME, CHECK = b"\xd4\x00\x00\x00\x02\x00\x00\x00\x00\x00", b"\x01\x02\x03\x04"
PLAIN, RADIOTAP = 105, 127


def tap(present: int, *parts: bytes, more: tuple[int, ...] = ()) -> bytes:
    """Returns radiotap fields."""
    words = [present | (1 << 31 if more else 0), *(word | (1 << 31 if word != more[-1] else 0) for word in more)]
    body = b"".join(struct.pack("<I", word) for word in words) + b"".join(parts)
    return struct.pack("<BBH", 0, 0, 4 + len(body)) + body


def pcap(*frames: bytes, link: int = RADIOTAP, order: str = "<", magic: int = 0xA1B2C3D4, missing: int = 0) -> bytes:
    """Returns a capture of libpcap's format; packet n has the time n seconds and 5 units."""
    head = struct.pack(f"{order}IHHIIII", magic, 2, 4, 0, 0, 65535, link)
    heads = [struct.pack(f"{order}IIII", at, 5, len(frame), len(frame) + missing) for at, frame in enumerate(frames)]
    return head + b"".join(head + frame for head, frame in zip(heads, frames))


def block(order: str, kind: int, body: bytes) -> bytes:
    """Returns a block of pcapng."""
    body += bytes(-len(body) % 4)
    size = struct.pack(f"{order}I", len(body) + 12)
    return struct.pack(f"{order}I", kind) + size + body + size


def section(order: str) -> bytes:
    """Returns the block that begins a section."""
    return block(order, 0x0A0D0D0A, struct.pack(f"{order}IHHq", 0x1A2B3C4D, 1, 0, -1))


def interface(order: str, link: int, resolution: int | None = None) -> bytes:
    """Returns the block of an interface."""
    option = b"" if resolution is None else struct.pack(f"{order}HHB3xHH", 9, 1, resolution, 0, 0)
    return block(order, 1, struct.pack(f"{order}HHI", link, 0, 65535) + option)


def enhanced(order: str, place: int, time: int, frame: bytes) -> bytes:
    """Returns the block of a packet."""
    return block(order, 6, struct.pack(f"{order}IIIII", place, time >> 32, time & 0xFFFFFFFF, len(frame), len(frame)) + frame)


def made_of(octets: bytes, has_check: bool = False) -> tuple[bytes, Converted]:
    """Returns the converted capture, and the counts."""
    target = io.BytesIO()
    count = convert(io.BytesIO(octets), target, has_check)
    return target.getvalue(), count


class Fields(unittest.TestCase):
    def test_flags_stand_after_all_words_and_the_time(self) -> None:
        self.assertEqual(radiotap.flags_of(tap(0b10, b"\x10")), 0x10)
        self.assertEqual(radiotap.flags_of(tap(0b11, bytes(8), b"\x10")), 0x10)
        self.assertEqual(radiotap.flags_of(tap(0b11, bytes(4), bytes(8), b"\x10", more=(1,))), 0x10)
        self.assertEqual(radiotap.flags_of(tap(0b100, b"\x10")), 0)

    def test_fields_that_do_not_fit_are_malformed(self) -> None:
        whole = tap(0b10, b"\x10")
        for octets in (b"", whole[:7], b"\1" + whole[1:], whole[:2] + b"\xff\0" + whole[4:], whole[:2] + b"\4\0" + whole[4:], tap(0b10)):
            with self.assertRaises(radiotap.Malformed):
                radiotap.frame_of(octets)


class Conversion(unittest.TestCase):
    def test_fields_and_check_sequences_are_removed(self) -> None:
        made, count = made_of(pcap(tap(0b10, b"\x10") + FRAME + CHECK, tap(0b10, b"\0") + FRAME))
        self.assertEqual(made, pcap(FRAME, FRAME, link=PLAIN))
        self.assertEqual((count.packets, count.fields, count.checks), (2, 2, 1))

    def test_without_fields_check_sequences_are_removed_if_asked(self) -> None:
        self.assertEqual(made_of(pcap(FRAME + CHECK, link=PLAIN), has_check=True)[0], pcap(FRAME, link=PLAIN))
        self.assertEqual(made_of(pcap(FRAME, link=PLAIN))[0], pcap(FRAME, link=PLAIN))

    def test_a_check_sequence_that_was_not_captured(self) -> None:
        made, _ = made_of(pcap(tap(0b10, b"\x10") + FRAME, missing=4))
        self.assertEqual(made, pcap(FRAME, link=PLAIN))

    def test_byte_orders_and_units(self) -> None:
        for magic in (0xA1B2C3D4, 0xA1B23C4D):
            for order in "<>":
                made, _ = made_of(pcap(FRAME, link=PLAIN, order=order, magic=magic))
                self.assertEqual(made, pcap(FRAME, link=PLAIN, magic=magic))

    def test_pcapng_with_two_sections_and_interfaces(self) -> None:
        octets = b"".join(
            [section("<"), interface("<", RADIOTAP), block("<", 0x0BAD, b"name"), enhanced("<", 0, 5, tap(0) + FRAME)]
            + [section(">"), interface(">", PLAIN, 9), interface(">", PLAIN, 0x8A), enhanced(">", 0, 10**9 + 5000, FRAME)]
            + [enhanced(">", 1, 2048 + 512, FRAME), block(">", 3, struct.pack(">I", len(FRAME)) + FRAME)]
        )
        times = [(packet.link, packet.time * 10**6 // packet.units) for packet in packets(io.BytesIO(octets))]
        self.assertEqual(times, [(RADIOTAP, 5), (PLAIN, 10**6 + 5), (PLAIN, 2_500_000), (PLAIN, 0)])
        made, count = made_of(octets)
        self.assertEqual((made[:24], count.packets), (pcap(link=PLAIN), 4))
        self.assertEqual(made[24:66], pcap(FRAME, FRAME, link=PLAIN)[24:66])

    def test_faults_name_the_place(self) -> None:
        whole = pcap(tap(0) + FRAME)
        for octets, wanted in (
            (b"", "ends inside the file header"),
            (b"text", "begins with the octets 74 65 78 74"),
            (whole[:-1], "ends inside packet 1"),
            (whole[:30], "ends inside packet 1"),
            (whole[:4] + b"\3" + whole[5:], "version 3.4"),
            (whole[:32] + b"\xff\xff\xff\xff" + whole[36:], "packet 1 has a captured length of 4294967295"),
            (pcap(FRAME, link=1), "packet 1 has link type 1: expected 105 or 127"),
            (pcap(FRAME), "radiotap fields of packet 1 are malformed"),
            (section("<")[:20], "ends inside block 1"),
            (section("<") + enhanced("<", 0, 5, FRAME), "packet 1 is malformed, or its interface is missing"),
            (section("<") + struct.pack("<II", 6, 13), "block 2 has a length of 13"),
            (section("<")[:8] + bytes(20), "a section begins with the octets 00 00 00 00"),
        ):
            with self.assertRaises(CaptureFault) as raised:
                made_of(octets)
            self.assertIn(wanted, str(raised.exception))

    def test_a_capture_without_packets(self) -> None:
        self.assertEqual(made_of(pcap())[0], pcap(link=PLAIN))


if __name__ == "__main__":
    unittest.main()
