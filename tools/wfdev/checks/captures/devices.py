"""Captures as devices give them: with radiotap fields, of the format pcapng, and of ns-3. `./wf convert` makes captures of them that
`wf frames` lists as tshark lists the originals."""
import os
import shutil
import subprocess
import sys
from collections.abc import Callable, Iterator
from pathlib import Path

from wfdev.checks.captures import model
from wfdev.harness.script import Difference, Script, expect
from wfdev.repo import paths

NS3 = ["applications", "internet", "wifi", "mobility", "network", "core"]
FIELDS = (
    "frame.time_epoch frame.cap_len radiotap.length radiotap.flags.fcs wlan.fc.type_subtype wlan.seq wlan.frag wlan.qos.tid"
    " wlan.qos.amsdupresent wlan.fixed.ssc.sequence wlan.ba.basic.tidinfo wlan.tim.dtim_count wlan.tim.dtim_period"
    " wlan.tim.bmapctl.multicast wlan.ra"
).split()
DATA, REQUEST, BLOCK_ACK, GROUP, BEACON = 0x28, 0x18, 0x19, 0x20, 0x08
FCS_OCTETS = 4
NANOSECONDS = 10**9
WORDS = {"": 0, "True": 1, "False": 0}
LEAST = 8  # packets of a capture of devices.py
LEAST_OF_NS3 = 300
MESSAGES = {"tap.pcap": "link type is 127", "tap.pcapng": "of the format pcapng"}


def python_with_scapy() -> str | None:
    """Returns a Python that has scapy, if any."""
    for python in dict.fromkeys([sys.executable, shutil.which("python3") or "", "/usr/bin/python3"]):
        if python and subprocess.run([python, "-c", "import scapy"], capture_output=True, check=False).returncode == 0:
            return python
    return None


def by_scapy(script: Script, folder: Path) -> list[Path]:
    """Returns captures with radiotap fields that scapy wrote."""
    python = python_with_scapy()
    if python is None:
        script.say("there is no scapy, so no capture with radiotap fields is made by it")
        return []
    subprocess.run([python, script.folder / "devices.py", folder], capture_output=True, check=True)
    return [folder / "tap.pcap", folder / "tap-fcs.pcap"]


def by_ns3(script: Script, folder: Path) -> list[Path]:
    """Returns a capture of A-MPDUs that ns-3 wrote."""
    compiler = os.environ.get("CXX", "c++")
    asked = ["pkg-config", "--cflags", "--libs-only-L", "--libs-only-l", *(f"ns3-{name}" for name in NS3)]
    if not shutil.which(compiler) or not shutil.which("pkg-config"):
        script.say("there is no C++ compiler or no pkg-config, so no capture is made by ns-3")
        return []
    found = subprocess.run(asked, capture_output=True, text=True, check=False)
    if found.returncode:
        script.say("there is no ns-3, so no capture is made by it")
        return []
    built = folder / "ampdu"
    subprocess.run([compiler, "-std=c++17", script.folder / "ampdu.cc", *found.stdout.split(), "-o", built], check=True)
    subprocess.run([built, folder], check=True)
    return [folder / "point-0-0.pcap"]


def as_pcapng(made: list[Path], folder: Path) -> list[Path]:
    """Returns captures of the format pcapng: each of these turned by editcap, and all of them merged by mergecap, with two link types."""
    turned = []
    for path in made if shutil.which("editcap") else []:
        turned.append(path.with_suffix(".pcapng"))
        subprocess.run(["editcap", "-F", "pcapng", path, turned[-1]], capture_output=True, check=True)
    if shutil.which("mergecap") and made:
        plain, merged = folder / "plain.pcap", folder / "merged.pcapng"
        plain.write_bytes(model.capture(model.FIVE[:3]))
        subprocess.run(["mergecap", "-F", "pcapng", "-w", merged, *made, plain], capture_output=True, check=True)
        turned.append(merged)
    return turned


def listed_by_tshark(path: Path) -> Iterator[str]:
    """Yields what tshark reads of each packet, in the words of `wf frames`, with the time in nanoseconds."""
    words = ["tshark", "-r", str(path), "--disable-protocol", "llc", "-T", "fields", "-E", "separator=;", "-E", "occurrence=f"]
    words += [word for name in FIELDS for word in ("-e", name)]
    for line in subprocess.run(words, capture_output=True, check=True, text=True).stdout.splitlines():
        time, *rest = line.split(";")
        length, tap, fcs, kind, seq, fragment, tid, has_more_frames, start, tid_info, count, period, bit = map(number, rest[:-1])
        size = length - tap - FCS_OCTETS * fcs
        name = "other"
        if kind == DATA and not fragment and not has_more_frames:
            name = f"data tid {tid} seq {seq}"
        elif kind in (REQUEST, BLOCK_ACK):
            name = f"{'bar' if kind == REQUEST else 'ba'} tid {tid_info & 15} start {start}"
        elif kind == BEACON and rest[-4]:
            name = f"beacon seq {seq} count {count} period {period} group {bit}"
        elif kind == GROUP and int(rest[-1][:2], 16) & 1:
            name = f"group seq {seq}"
        seconds, fraction = time.split(".")
        yield f"{int(seconds) * NANOSECONDS + int(fraction.ljust(9, '0'))} len {size} {name}"


def number(text: str) -> int:
    """Returns a field of tshark's as a number: 0 if it is missing."""
    return WORDS[text] if text in WORDS else int(text, 0)


def listed_by_us(octets: bytes, written: str) -> list[str]:
    """Returns the list of `wf frames`, with times in nanoseconds."""
    units = NANOSECONDS if octets[:4] == model.NANOSECONDS.to_bytes(4, "little") else 10**6
    lines = [line.split(" ", 2) for line in written.splitlines()[:-1]]
    return [f"{(int(seconds) * units + int(fraction)) * (NANOSECONDS // units)} {rest}" for seconds, fraction, rest in lines]


def converted(path: Path, folder: Path) -> Path:
    """Returns a capture that `./wf convert` made."""
    plain = folder / "converted.pcap"
    done = subprocess.run([paths.TOP / "wf", "convert", path, plain], capture_output=True, text=True, check=False)
    if done.returncode:
        raise Difference(f"./wf convert {path.name}: status {done.returncode}: {done.stderr}")
    return plain


def check_message(path: Path, wanted: str) -> None:
    """Checks that `./wf frames` says how to convert a capture that it does not read."""
    done = subprocess.run([paths.TOP / "wf", "frames", path], capture_output=True, text=True, check=False)
    expect(f"./wf frames {path.name}: status", done.returncode, 2)
    for part in (wanted, "convert it with './wf convert IN OUT'"):
        if part not in done.stderr:
            raise Difference(f"./wf frames {path.name} says {done.stderr!r}: expected {part!r}")


def check(script: Script, run: Callable[[bytes], tuple[int, bytes]], folder: Path) -> None:
    """Compares the list of each capture with tshark's. `run` lists a capture."""
    if not shutil.which("tshark"):
        script.say("there is no tshark to read captures of devices")
        return
    made, of_ns3 = by_scapy(script, folder), by_ns3(script, folder)
    for path in [*made, *as_pcapng(made, folder), *of_ns3]:
        octets = converted(path, folder).read_bytes()
        status, written = run(octets)
        found, wanted = listed_by_us(octets, written.decode()), list(listed_by_tshark(path))
        expect(f"{path.name}: status", status, 0)
        expect(f"{path.name}: enough packets", len(wanted) >= (LEAST_OF_NS3 if path in of_ns3 else LEAST), True)
        expect(f"{path.name}: packets", len(found), len(wanted))
        for place, (ours, theirs) in enumerate(zip(found, wanted, strict=True), 1):
            expect(f"{path.name}, packet {place}", ours, theirs)
        if path.name in MESSAGES:
            check_message(path, MESSAGES[path.name])
        script.say(f"{path.name}: {len(found)} packets are listed as by tshark")
