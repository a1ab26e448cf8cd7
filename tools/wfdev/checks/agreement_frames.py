"""Has tshark read ADDBA requests, their responses and DELBAs, each after a management header.

Three frames are those that the tests of the crate wf_session have too; the others are all messages of the worked events of its
proofs/Rows, event by event.
"""
import re
import struct
import subprocess
import sys
import tempfile
from collections.abc import Iterable, Mapping, Sequence
from dataclasses import dataclass

from wfdev.harness.script import Difference, Script, expect
from wfdev.repo import paths

SCRIPT = Script("agreement-frames")
HEADER = bytes.fromhex("d000" "0000" "020000000001" "020000000000" "020000000000" "0000")
ROWS = paths.CRATES / "wf_session" / "proofs" / "Rows.antt"
LINK_TYPE = 105
MAGIC = 0xA1B2C3D4
# What the fields are called here, and in versions of tshark.
FIELDS = {
    "action": ["wlan.fixed.action_code"],
    "token": ["wlan.fixed.dialog_token"],
    "status": ["wlan.fixed.status_code"],
    "tid": ["wlan.fixed.baparams.tid"],
    "window": ["wlan.fixed.baparams.buffersize"],
    "start": ["wlan.fixed.ssc.sequence", "wlan.fixed.sequence"],
    "delba tid": ["wlan.fixed.delba.param.tid"],
    "initiator": ["wlan.fixed.delba.param.initiator"],
    "reason": ["wlan.fixed.reason_code"],
}


@dataclass(frozen=True)
class Frame:
    """The octets of a frame after the header, and the fields that they have."""

    octets: bytes
    fields: Mapping[str, int]


def request(token: int, window: int, start: int, tid: int = 0) -> dict[str, int]:
    """Returns the fields of an ADDBA request."""
    return {"action": 0, "token": token, "tid": tid, "window": window, "start": start}


def response(token: int, window: int) -> dict[str, int]:
    """Returns the fields of an ADDBA response."""
    return {"action": 1, "token": token, "status": 0, "tid": 0, "window": window}


def teardown(initiator: int, tid: int = 0) -> dict[str, int]:
    """Returns the fields of a DELBA."""
    return {"action": 2, "delba tid": tid, "initiator": initiator, "reason": 1}


FRAMES = [
    Frame(bytes.fromhex("03000102200000401f"), request(1, 128, 500)),
    Frame(bytes.fromhex("030101000002100000"), response(1, 64)),
    Frame(bytes.fromhex("030200580100"), teardown(1, tid=5)),
]
# The fields of the messages of the worked events, in order.
OF_EVENTS = [
    request(1, 128, 500),
    response(1, 64),
    request(1, 128, 500),
    response(1, 64),
    teardown(1),
    request(2, 10, 4095),
    response(2, 10),
    teardown(0),
    request(3, 256, 0),
]


def capture(frames: Iterable[bytes]) -> bytes:
    """Returns a capture of these frames."""
    packets = b"".join(struct.pack("<IIII", 0, 0, len(octets), len(octets)) + octets for octets in frames)
    return struct.pack("<IHHIIII", MAGIC, 2, 4, 0, 0, 65535, LINK_TYPE) + packets


def number(word: str) -> int | None:
    """Returns a field of tshark's as a number, or None if it is missing."""
    if not word[:1].isdigit():
        return {"true": 1, "false": 0}.get(word.lower())
    return int(word, 0)


def known_fields() -> dict[str, str]:
    """Returns the name that this tshark has for each field."""
    listed = subprocess.run(["tshark", "-G", "fields"], capture_output=True, text=True, check=True).stdout
    names = {line.split("\t")[2] for line in listed.splitlines() if line.startswith("F\t")}
    return {field: next(name for name in choices if name in names) for field, choices in FIELDS.items()}


def messages_of_events() -> list[bytes]:
    """Returns the octets of the messages that the worked events send: each list of the row that is not empty."""
    _, row = paths.read(ROWS).split("pub response_lost_and_closed :")
    row, _ = row.split("unfolding", 1)
    return [bytes(int(octet) for octet in octets.split("∷")) for octets in re.findall(r"\(([0-9 ∷]+) ∷ \[\]\)", row)]


def compare(frames: Sequence[Frame]) -> None:
    """Compares what tshark reads with the fields of the frames."""
    fields = known_fields()
    with tempfile.NamedTemporaryFile(suffix=".pcap") as file:
        file.write(capture(HEADER + frame.octets for frame in frames))
        file.flush()
        words = ["tshark", "-r", file.name, "-T", "fields", *(word for name in fields.values() for word in ("-e", name))]
        lines = subprocess.run(words, capture_output=True, text=True, check=True).stdout.splitlines()
    for frame, line in zip(frames, lines, strict=True):
        read = dict(zip(fields, line.split("\t"), strict=True))
        for field, value in frame.fields.items():
            expect(f"{frame.octets.hex()}: {field}", number(read[field]), value)


def main(words: Sequence[str] | None = None) -> int:
    """Compares all frames and returns the exit status."""
    SCRIPT.parser(__doc__).parse_args(words)
    SCRIPT.require("tshark")
    frames = FRAMES + [Frame(octets, fields) for octets, fields in zip(messages_of_events(), OF_EVENTS, strict=True)]
    try:
        compare(frames)
    except Difference as difference:
        SCRIPT.fail(difference)
    SCRIPT.say(f"tshark reads {len(frames)} frames as they are meant")
    return 0


if __name__ == "__main__":
    sys.exit(main())
