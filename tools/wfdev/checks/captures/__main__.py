"""Has `wf frames` list captures and `wf replay --pcap` write them, and compares each with an independent model.

Listed are: a capture of five packets in both byte orders and both parts of a second; each of its prefixes; each of its octets
changed to 0, to 255 and to its complement; captures that go past 2^28 and 2^32 octets, which end in different ways; and, if
text2pcap, editcap or scapy is installed, captures that these wrote. No capture here reaches the limit of 2^40 octets.

Written are: captures of the example traces and of 1,000 generated ones of a few calls each, octet by octet by the answers that
`wf replay` gives. If tshark or scapy is installed, it reads those of the example traces, and those of the generated ones in one
file: times, kinds, Retry, More Data and EOSP bits, TIDs, sequence numbers, starts, fragment numbers and bitmaps have to equal
the model's, and of beacons the DTIM counts, periods, bits and AIDs. tshark finds no malformed field and reports no error. There
are some 4,000 runs.

Converted are captures as devices give them, if tshark is installed: with radiotap fields, with and without frame check
sequences (scapy), of the format pcapng, also with two link types (editcap, mergecap), and of A-MPDUs (ns-3). `./wf convert`
makes captures of which `wf frames` lists what tshark lists of the originals: times, lengths, kinds and numbers.
"""
import contextlib
import itertools
import os
import shutil
import struct
import subprocess
import sys
import tempfile
from collections.abc import Mapping, Sequence
from dataclasses import dataclass
from pathlib import Path

from wfdev.checks.captures import air, devices, model, readers
from wfdev.checks.captures.readers import Capture
from wfdev.harness.script import Difference, Script, expect, words_of
from wfdev.repo import paths

SCRIPT = Script("captures")
MADE_TRACES = 1000
SHOWN = 2000
BAD_INPUT = 2
# The variable that is set if the check has gone on in another Python.
SECOND = "WF_CHECK_IS_SECOND"
BLOCK = model.Packet(1, 2, bytes(model.LONGEST))
# How many blocks go past this many octets.
PAST_28_BITS, PAST_32_BITS = (2**bits // (model.LONGEST + model.PACKET_HEADER) + 1 for bits in (28, 32))
BY_SCAPY = ["data tid 6 seq 777", "bar tid 5 start 4095", "other"]


@dataclass(frozen=True)
class Wf:
    """The built program. (The script ./wf compares the time of each source, which takes too long for thousands of runs.)"""

    path: Path

    def run(self, words: Sequence[str], octets: bytes) -> tuple[int, bytes]:
        """Runs the program and returns its status and its output."""
        done = subprocess.run([self.path, *words], input=octets, capture_output=True, check=False)
        return done.returncode, done.stdout


def compare(name: str, ended: tuple[int, bytes], wanted: Sequence[str]) -> None:
    """Compares how `wf frames` ended with the list of the model."""
    status, written = ended
    text = "".join(line + "\n" for line in wanted)
    if written.decode() != text:
        raise Difference(f"{name}\n--- wanted\n{text[-SHOWN:]}--- written\n{written.decode()[-SHOWN:]}")
    expect(f"{name}: status", status, BAD_INPUT if wanted[-1].startswith("fault") else 0)


def list_alike(wf: Wf, name: str, octets: bytes) -> None:
    """Compares the list of a capture with that of the model."""
    compare(name, wf.run(["frames"], octets), model.listing(octets))


def small(wf: Wf) -> None:
    """Lists a small capture in each form, its prefixes, and its copies with one octet changed."""
    for order, magic in itertools.product("<>", (model.MICROSECONDS, model.NANOSECONDS)):
        list_alike(wf, f"{order} {magic:x}", model.capture(model.FIVE, order, magic))
    whole, changes = model.capture(model.FIVE), 0
    for size in range(len(whole)):
        list_alike(wf, f"the first {size} octets", whole[:size])
        for other in {0, 255, 255 - whole[size]} - {whole[size]}:
            list_alike(wf, f"octet {size} changed to {other}", whole[:size] + bytes([other]) + whole[size + 1 :])
            changes += 1
    SCRIPT.say(f"four forms, {len(whole)} prefixes and {changes} changes are listed alike")


def ends() -> Mapping[str, bytes]:
    """Returns what follows the blocks of a large capture, by its name."""
    last = model.Packet(3, 4, bytes(100)).packed("<")
    return {
        "no more": b"",
        "a packet": last,
        "a packet and an octet": last + b"\0",
        "a packet without its last octet": last[:-1],
        "a header without its last octet": last[: model.PACKET_HEADER - 1],
        "a packet that is too long": struct.pack("<IIII", 0, 0, 2**32 - 1, 0) + bytes(100),
        "a packet that is an octet too long": struct.pack("<IIII", 0, 0, model.LONGEST + 1, 0) + bytes(model.LONGEST + 1),
    }


def list_large(wf: Wf, name: str, blocks: int, tail: bytes) -> None:
    """Compares the list of this many blocks and a tail, which are written piece by piece."""
    block = BLOCK.packed("<")
    with tempfile.TemporaryFile() as out:
        run = subprocess.Popen([wf.path, "frames"], stdin=subprocess.PIPE, stdout=out, stderr=subprocess.DEVNULL)
        assert run.stdin is not None
        # (the program ends early after a fault)
        with contextlib.suppress(BrokenPipeError), run.stdin as given:
            given.writelines(itertools.chain([model.header()], itertools.repeat(block, blocks), [tail]))
        run.wait()
        out.seek(0)
        line = model.listing(model.capture([BLOCK]))[0]
        compare(name, (run.returncode, out.read()), [line] * blocks + model.listing(model.header() + tail, blocks + 1))


def large(wf: Wf) -> None:
    """Lists captures of more octets than 28 and 32 bits count."""
    cases = [(PAST_28_BITS, name, tail) for name, tail in ends().items()] + [(PAST_32_BITS, "a packet", ends()["a packet"])]
    for blocks, name, tail in cases:
        list_large(wf, f"{blocks} large packets and {name}", blocks, tail)
    SCRIPT.say(f"{len(cases)} large captures are listed alike")


def of_other_programs(wf: Wf, folder: Path) -> None:
    """Lists captures that other programs wrote."""
    made = readers.by_text2pcap(model.FIVE, folder)
    turned = readers.by_editcap(made, folder) if made else None
    by_scapy = readers.by_scapy(folder)
    for name, path in {"text2pcap": made, "editcap": turned, "scapy": by_scapy}.items():
        if path is None:
            SCRIPT.say(f"there is no {name}, so no capture of it is listed")
        else:
            list_alike(wf, name, path.read_bytes())
            SCRIPT.say(f"{name}: listed alike")
    if by_scapy:
        names = [line.split(" ", 4)[4] for line in model.listing(by_scapy.read_bytes())[:-1]]
        expect("the capture of scapy", names, BY_SCAPY)


def written_alike(wf: Wf, name: str, trace: str) -> Capture:
    """Compares the capture of a trace with the model's, and its list."""
    status, answers = wf.run(["replay"], trace.encode())
    packets = air.on_air(trace, answers.decode())
    wanted = model.capture(packets)
    if wf.run(["replay", "--pcap"], trace.encode()) != (status, wanted):
        raise Difference(f"{name}: the capture differs from the model's")
    list_alike(wf, name, wanted)
    return Capture(name, wanted, packets)


def joined(name: str, captures: Sequence[Capture]) -> Capture:
    """Returns the packets of many captures in one."""
    octets = model.header() + b"".join(one.octets[model.FILE_HEADER :] for one in captures)
    return Capture(name, octets, [packet for one in captures for packet in one.packets])


def written(wf: Wf) -> list[Capture]:
    """Compares all captures that the program writes, and returns those that other programs are to read."""
    made = [written_alike(wf, f"generated trace {seed}", air.made_trace(seed)) for seed in range(MADE_TRACES)]
    SCRIPT.say(f"{MADE_TRACES} generated traces: their captures are the model's, and are listed alike")
    found = [written_alike(wf, path.name, path.read_text(encoding="ascii")) for path in sorted(paths.EXAMPLES.glob("*.trace"))]
    return [*found, joined("generated traces", made)]


def read_by_others(captures: Sequence[Capture], folder: Path) -> None:
    """Has other programs read captures."""
    is_there = {"tshark": shutil.which("tshark") is not None, "scapy": readers.has_scapy()}
    for capture in captures:
        path = folder / "made.pcap"
        path.write_bytes(capture.octets)
        if is_there["tshark"]:
            readers.read_by_tshark(capture, path)
        if is_there["scapy"]:
            readers.read_by_scapy(capture, path)
    for name, found in is_there.items():
        SCRIPT.say(f"{len(captures)} captures: " + (f"read alike by {name}" if found else f"there is no {name} to read them"))


def go_on_with_scapy(words: Sequence[str]) -> None:
    """Goes on in another Python if that one has scapy and this one does not: a distribution brings scapy for its own Python."""
    other = None if readers.has_scapy() or SECOND in os.environ else devices.python_with_scapy()
    if other is not None:
        os.execve(other, [other, "-P", "-m", "wfdev.checks.captures", *words], {**os.environ, SECOND: "1"})


def main(words: Sequence[str] | None = None) -> int:
    """Compares all captures and returns the exit status."""
    parser = SCRIPT.parser(__doc__)
    parser.add_argument("--devices", action="store_true", help="only the captures of devices")
    asked = parser.parse_args(words)
    go_on_with_scapy(words_of(words))
    wf = Wf(SCRIPT.program().path)
    try:
        with tempfile.TemporaryDirectory(prefix="wf-captures-") as folder:
            if not asked.devices:
                small(wf)
                large(wf)
                of_other_programs(wf, Path(folder))
                read_by_others(written(wf), Path(folder))
            devices.check(SCRIPT, lambda octets: wf.run(["frames"], octets), Path(folder))
    except Difference as difference:
        SCRIPT.fail(difference)
    SCRIPT.say("all captures are as the model has them")
    return 0


if __name__ == "__main__":
    sys.exit(main())
