"""The cause and the remedy of each fault of a capture that `wf frames` reports (docs/CAPTURES.md)."""
from __future__ import annotations

FILE_HEADER = 24
# The octets that are looked at.
LOOKED_AT = FILE_HEADER
ORDERS = {
    b"\xd4\xc3\xb2\xa1": "little",
    b"\x4d\x3c\xb2\xa1": "little",
    b"\xa1\xb2\xc3\xd4": "big",
    b"\xa1\xb2\x3c\x4d": "big",
}
RADIOTAP = 127
CONVERT = "convert it with 'editcap -F pcap IN OUT'"
OURS = "convert it with './wf convert IN OUT'"
FORMATS = {
    b"\x0a\x0d\x0d\x0a": f"it is a file of the format pcapng; {OURS}",
    b"\xa1\xb2\xcd\x34": f"it is a file of a modified format of libpcap; {CONVERT}",
    b"\x34\xcd\xb2\xa1": f"it is a file of a modified format of libpcap; {CONVERT}",
    b"\x1f\x8b": "it is compressed with gzip; use 'gunzip -c FILE | ./wf frames'",
    b"\x28\xb5\x2f\xfd": "it is compressed with zstd; use 'zstd -dc FILE | ./wf frames'",
}
LINKS = {
    0: "of BSD loopback",
    1: "of Ethernet",
    101: "of IP",
    113: "of Linux cooked captures",
    119: "with Prism headers",
    163: "with AVS headers",
    192: "with PPI headers",
    276: "of Linux cooked captures",
}


def explained(kind: str, packet: int, head: bytes) -> str:
    """Returns the cause and the remedy of a fault, given the kind of a fault, its packet, and the first
    octets of the input."""
    if kind == "magic":
        return magic(head)
    if kind == "version":
        return f"the file has version {version(head)}: expected 2.4; {CONVERT}"
    if kind == "link":
        return link(head)
    if kind == "short" and packet == 0:
        return (
            f"the input has {len(head)} octets: expected a file header of {FILE_HEADER}; give a whole "
            "capture in the format of libpcap"
        )
    if kind == "short":
        return (
            f"the input ends inside packet {packet}: the capture is cut off; the packets before it are listed"
        )
    if kind == "long":
        return (
            f"the header of packet {packet} has a captured length above 262144: the file is damaged there; "
            "the packets before are listed"
        )
    return (
        f"packet {packet} does not end within the first 2^40 octets; split the capture with 'editcap -c N IN "
        "OUT'"
    )


def magic(head: bytes) -> str:
    """Returns what a file is that does not begin with a magic number."""
    for begin, said in FORMATS.items():
        if head.startswith(begin):
            return said
    if head.strip() and all(octet in b"\t\r\n" or 32 <= octet < 127 for octet in head):
        return "it is a text: expected a capture; './wf replay' reads traces"
    return (
        f"the input begins with the octets {head[:4].hex(' ')}: expected a capture in the format of libpcap, "
        "such as 'tcpdump -w' writes"
    )


def number(head: bytes, at: int, size: int) -> int:
    """Returns a number of the capture, in its byte order."""
    order = ORDERS.get(head[:4], "little")
    return int.from_bytes(head[at : at + size], "little" if order == "little" else "big")


def version(head: bytes) -> str:
    """Returns the version of a file."""
    return f"{number(head, 4, 2)}.{number(head, 6, 2)}"


def link(head: bytes) -> str:
    """Returns what the packets of a file are that are not IEEE 802.11 frames without radio fields."""
    found = number(head, 20, 4) & 0xFFFF
    if found != RADIOTAP:
        what = LINKS.get(found, "of another kind")
        return (
            f"the link type is {found}, packets {what}: expected 105, IEEE 802.11 frames; capture in monitor "
            "mode"
        )
    return f"the link type is 127: each packet begins with radiotap fields; {OURS}"
