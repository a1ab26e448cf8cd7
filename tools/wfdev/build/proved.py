"""Builds the proved program and the proved static library, and proves nothing twice.

`rt ci` keeps its proofs on this machine, and a later run takes them. It runs here on a copy of the crates that are needed, so the proofs
of the gate are taken, and the proofs of a build are kept for the gate. The copy has no must-fail edits, which no build needs.
"""
from __future__ import annotations

import pathlib
import re
import sys
from collections.abc import Sequence

from . import children, crates, kernel, snapshot
from .kit import find_kit
from .report import Failure, Notes
from .unproved import add_heap, heap_objects

KEPT = re.compile(r"^rt: (\w+) is kept: ")
PROVED = re.compile(r"^rt: (\w+) proved$")
NOT_PROVED = re.compile(r"^rt: (\w+) NOT PROVED")
OVER_KEPT = pathlib.Path(__file__).with_name("over_kept.py")
OTHER_KIT = 3


class Progress:
    """What `rt ci` reports of each crate, as notes."""

    def __init__(self, log: pathlib.Path, count: int) -> None:
        self.log = log
        self.left = count
        self.kept = 0
        self.failed: list[str] = []
        self.at = log.stat().st_size if log.exists() else 0

    def look(self) -> None:
        """Reads the lines that are new in the log."""
        with open(self.log, "rb") as file:
            file.seek(self.at)
            text = file.read()
        end = text.rfind(b"\n") + 1
        self.at += end
        for line in text[:end].decode(errors="replace").splitlines():
            self._read(line)

    def _read(self, line: str) -> None:
        if KEPT.match(line):
            self.kept += 1
            self.left -= 1
        elif found := PROVED.match(line):
            self.left -= 1
            Notes.say(f"proved {found[1]}, {self.left} left")
        elif found := NOT_PROVED.match(line):
            self.failed.append(found[1])


def prove(copy: pathlib.Path, log: pathlib.Path, names: list[str]) -> None:
    """Runs `rt ci` over a copy that has these crates."""
    temporary = copy.parent / "temporary"
    temporary.mkdir(exist_ok=True)
    snapshot.is_top(copy)
    progress = Progress(log, len(names))
    status = children.run(["rt", "ci"], copy, log, {"TMPDIR": str(temporary)}, progress.look)
    if progress.kept:
        Notes.say(f"{progress.kept} of {len(names)} crates were proved by earlier runs of 'rt ci' on this machine")
    if status:
        said = _in_checkout(children.last_lines(log), copy)
        failed = ", ".join(progress.failed[:3]) or "a run"
        raise Failure(f"'rt ci': {failed} did not pass", said)


def _in_checkout(text: str, copy: pathlib.Path) -> str:
    """Returns messages about a copy with the paths of the checkout."""
    return text.replace(f"{copy}/", "")


def build_program(copy: pathlib.Path, crate: str, top: pathlib.Path, log: pathlib.Path) -> pathlib.Path:
    """Builds the program of a crate in a copy of the sources, and returns its path."""
    names = crates.below(crates.read(copy / "crates.txt"), crate)
    snapshot.keep_only(copy, names)
    snapshot.add_run_files(top, copy, crate)
    prove(copy, log, names)
    return copy / "crates" / crate / "out" / crate


def build_library(copy: pathlib.Path, crate: str, log: pathlib.Path, is_kernel: bool = False) -> pathlib.Path:
    """Builds the static library of a crate in a copy of the sources, and returns its path. `rt ci` proves the crates below; the call that
    compiles the library proves the crate itself. A library for a kernel module is compiled by the kit's LLVM, with more words."""
    kit = find_kit()
    known = crates.read(copy / "crates.txt")
    names = crates.below(known, crate)
    snapshot.keep_only(copy, names)
    snapshot.write_lines(copy, [known[name].line for name in names if name != crate])
    prove(_without(copy, crate), log, names[:-1] if names[-1] == crate else names)
    snapshot.write_lines(copy, [known[name].line for name in names])
    folder = _with(copy, crate)
    Notes.say(f"proving and compiling {crate}")
    made = folder / "out" / f"lib{crate}.a"
    if is_kernel:
        shaping = kernel.make_frame(kit, copy.parent / "shaping")
        compile_library(folder, shaping, log, copy.parent / "temporary", ["--backend", "llvm"])
        heap = [kernel.compile_heap(kit.tool("clang"), folder / "out", log)]
    else:
        compile_library(folder, kit.folder, log, copy.parent / "temporary")
        add_heap(kit, folder / "out", log)
        heap = heap_objects(folder / "out")
    if children.run([kit.tool("llvm-ar"), "rs", made, *heap], folder / "out", log) != 0:
        raise Failure("the heap object could not be added to the library", children.last_lines(log))
    return made


def _without(copy: pathlib.Path, crate: str) -> pathlib.Path:
    """Moves a crate out of a copy: `rt ci` refuses sources that no line of crates.txt names."""
    (copy / "crates" / crate).rename(copy.parent / crate)
    return copy


def _with(copy: pathlib.Path, crate: str) -> pathlib.Path:
    """Moves the crate back, and returns its folder."""
    return (copy.parent / crate).rename(copy / "crates" / crate)


def compile_library(
    folder: pathlib.Path, kit: pathlib.Path, log: pathlib.Path, temporary: pathlib.Path, flags: Sequence[str] = ()
) -> None:
    """Compiles a static library over what `rt ci` left, with these flags, or by `rt lib` if the kit is another one and there are none."""
    variables = {"TMPDIR": str(temporary)}
    status = children.run([sys.executable, OVER_KEPT, str(kit), *flags], folder, log, variables)
    if status == OTHER_KIT and not flags:
        Notes.say("this kit compiles no library over what 'rt ci' kept: 'rt lib' proves every crate below it again")
        status = children.run(["rt", "lib"], folder, log, variables)
    if status:
        raise Failure(f"{folder.name} is not proved", _in_checkout(children.last_lines(log), folder.parent.parent))
