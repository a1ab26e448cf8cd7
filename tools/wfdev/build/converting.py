"""The word `convert`: makes a capture that `wf frames` reads."""
# ruff: noqa: PTH
from __future__ import annotations

import os
import pathlib
import tempfile
from typing import BinaryIO

from wfdev.traces.convert import Converted
from wfdev.traces.convert import convert as convert_packets
from wfdev.traces.packets import CaptureFault

from .files import ASIDE, place
from .report import Failure, Notes, Refusal, complain, show_octets
from .words import BY_NAME

FAULT = 2
FCS = "--fcs"
STANDARD = "-"


def convert(words: list[str]) -> int:
    """Converts the capture that the words name, and returns the status."""
    names = [word for word in words if word == STANDARD or not word.startswith("-")]
    options = [word for word in words if word not in names]
    if len(names) != 2 or "" in names or options not in ([], [FCS]):
        raise Refusal(f"usage: ./wf {BY_NAME['convert'].usage}")
    with source_of(names[0]) as source:
        try:
            count = (to_output if names[1] == STANDARD else to_file)(source, names[1], bool(options))
        except CaptureFault as fault:
            complain(f"{names[0]}: {fault}")
            return FAULT
    Notes.say(count.told())
    return 0


def source_of(name: str) -> BinaryIO:
    """Opens the capture to be read."""
    try:
        return open(0 if name == STANDARD else name, "rb", closefd=name != STANDARD)
    except (OSError, ValueError) as fault:
        raise Failure(f"{name}: {getattr(fault, 'strerror', None) or fault}; expected the name of a capture") from None


def to_output(source: BinaryIO, _: str, has_check: bool) -> Converted:
    """Writes the capture to standard output, packet by packet."""
    return convert_packets(source, Output(), has_check)


def to_file(source: BinaryIO, name: str, has_check: bool) -> Converted:
    """Writes the capture to a file, which is replaced whole at the end."""
    path = pathlib.Path(os.path.abspath(name))
    if not path.parent.is_dir() or path.is_dir():
        raise Failure(f"{name}: no capture can be written there; expected the name of a file in a folder that exists")
    with tempfile.TemporaryDirectory(prefix=ASIDE, dir=path.parent) as folder:
        made = pathlib.Path(folder) / "capture"
        with made.open("wb") as target:
            count = convert_packets(source, target, has_check)
        place(made, path)
    return count


class Output:
    """Standard output, without a buffer."""

    def write(self, octets: bytes) -> int:
        """Writes octets whole."""
        show_octets(octets)
        return len(octets)
