"""Whether a built file is made from the sources as they are now.

A build leaves a record next to the file that it makes: the checksum of the sources, the kit, and the checksum of the file. The record
also has a sum of the sizes, times and inodes of all these files (quick.sh). While that sum is unchanged, the script ./wf reads no source
and starts no Python. It contains the time of the last change of an inode, which no program can set, so an edit that restores size and
date is noticed.
"""
# ruff: noqa: PTH
from __future__ import annotations

import hashlib
import os
import subprocess
import time
from collections.abc import Iterator

PARTS = ("src", "specs", "proofs")
SINGLE_FILES = ("crates.txt", "HANDLES")
TOP = os.path.dirname(os.path.dirname(os.path.dirname(os.path.dirname(os.path.abspath(__file__)))))
PROGRAM = "crates/wf/out/wf"
UNPROVED_PROGRAM = "crates/wf/out/wf.unproved"
LIBRARY = "crates/wf_c/out/libwf.a"
UNPROVED_LIBRARY = "crates/wf_c/out/libwf.unproved.a"
KERNEL_LIBRARY = "crates/wf_c/out/libwf.kernel.a"
UNPROVED_KERNEL_LIBRARY = "crates/wf_c/out/libwf.kernel.unproved.a"
QUICK_SUM = os.path.join(os.path.dirname(os.path.abspath(__file__)), "quick.sh")
RECORD = ".record"
HEAD = "record of ./wf, version 1"
UNKNOWN = "-"
# Two changes within one tick of the file system's clock have the same time, in nanoseconds.
TICK = 50_000_000


def source_names(top: str) -> list[str]:
    """Returns the names of all sources below the top, in order."""
    names = [name for name in SINGLE_FILES if os.path.exists(os.path.join(top, name))]
    crates = os.path.join(top, "crates")
    for crate in os.listdir(crates) if os.path.isdir(crates) else []:
        for part in PARTS:
            names += files_below(top, f"crates/{crate}/{part}")
    return sorted(names)


def files_below(top: str, folder: str) -> Iterator[str]:
    """Yields the files below a folder, without those that an editor leaves."""
    try:
        entries = list(os.scandir(os.path.join(top, folder)))
    except (FileNotFoundError, NotADirectoryError):
        return
    for entry in entries:
        name = f"{folder}/{entry.name}"
        if entry.is_dir(follow_symlinks=False):
            yield from files_below(top, name)
        elif not entry.name.startswith(".") and not entry.name.endswith("~"):
            yield name


def checksum(top: str, names: list[str]) -> str:
    """Returns a checksum of the names and contents of these files."""
    total = hashlib.sha256()
    for name in names:
        with open(os.path.join(top, name), "rb") as file:
            content = file.read()
        total.update(f"{name}\0{len(content)}\0".encode(errors="surrogateescape"))
        total.update(content)
    return total.hexdigest()


def file_checksum(path: str) -> str:
    """Returns the checksum of one file."""
    with open(path, "rb") as file:
        return hashlib.sha256(file.read()).hexdigest()


def find_on_path(tool: str) -> str | None:
    """Returns the path of a tool that the variable PATH leads to."""
    for folder in os.environ.get("PATH", os.defpath).split(os.pathsep):
        path = os.path.join(folder or ".", tool)
        if os.path.isfile(path) and os.access(path, os.X_OK):
            return path
    return None


def kit_identity() -> str:
    """Returns the line that names the kit, or UNKNOWN if there is no kit."""
    rt = find_on_path("rt")
    if rt is None:
        return UNKNOWN
    try:
        with open(os.path.join(os.path.dirname(os.path.dirname(os.path.realpath(rt))), "KIT-ID"), encoding="utf-8") as file:
            return " ".join(file.read().split()) or UNKNOWN
    except OSError:
        return UNKNOWN


class Record:
    """The content of the file next to a built file."""

    __slots__ = ("sources", "kit", "made", "quick")

    def __init__(self, sources: str, kit: str, made: str, quick: str = UNKNOWN) -> None:
        self.sources = sources
        self.kit = kit
        self.made = made
        self.quick = quick

    def text(self) -> str:
        """Returns the record as the lines of its file."""
        return f"{HEAD}\nsources {self.sources}\nkit {self.kit}\nmade {self.made}\nquick {self.quick}\n"


def read_record(path: str) -> Record | None:
    """Returns the record of a built file, or None if there is none that can be read."""
    try:
        with open(path + RECORD, encoding="utf-8") as file:
            head, *lines = file.read().splitlines()
    except (OSError, UnicodeDecodeError, ValueError):
        return None
    values = dict(line.split(" ", 1) for line in lines if " " in line)
    if head != HEAD or not {"sources", "kit", "made"} <= values.keys():
        return None
    return Record(values["sources"], values["kit"], values["made"], values.get("quick", UNKNOWN))


def write_record(path: str, record: Record) -> None:
    """Writes the record of a built file, whole or not at all."""
    aside = f"{path}{RECORD}.{os.getpid()}"
    try:
        with open(aside, "w", encoding="utf-8") as file:
            file.write(record.text())
        os.replace(aside, path + RECORD)
    except OSError:
        try:
            os.unlink(aside)
        except OSError:
            pass
        raise


class Sources:
    """The sources below a top, as they are now; each fact is computed once."""

    def __init__(self, top: str = TOP) -> None:
        self.top = top
        self.names = source_names(top)
        self.stats = [os.lstat(os.path.join(top, name)) for name in self.names]
        self.kit = kit_identity()
        self.sum = ""

    def checksum(self) -> str:
        """Returns the checksum of the sources."""
        self.sum = self.sum or checksum(self.top, self.names)
        return self.sum

    def folders(self) -> list[str]:
        """Returns the names of the folders that have sources."""
        return sorted({os.path.dirname(name) for name in self.names if "/" in name})

    def latest_change(self) -> int:
        """Returns when a source, or a folder of sources, was changed last, in nanoseconds."""
        folders = [os.lstat(os.path.join(self.top, folder)) for folder in self.folders()]
        return max((stat.st_ctime_ns for stat in [*self.stats, *folders]), default=0)

    def quick_sum(self, name: str) -> str:
        """Returns the quick sum, or UNKNOWN if a change was so recent that another may have the same time."""
        latest = max(self.latest_change(), os.lstat(os.path.join(self.top, name)).st_ctime_ns)
        if latest > time.time_ns() - TICK:
            return UNKNOWN
        done = subprocess.run(["bash", QUICK_SUM, self.top, name], capture_output=True, text=True, check=False)
        return (done.stdout.split() or [UNKNOWN])[0] if done.returncode == 0 else UNKNOWN

    def matches(self, name: str) -> bool:
        """Returns whether a built file with a record is made from these sources by this kit."""
        path = os.path.join(self.top, name)
        record = read_record(path)
        if record is None or UNKNOWN not in (self.kit, record.kit) and self.kit != record.kit:
            return False
        quick = self.quick_sum(name)
        if quick != UNKNOWN and quick == record.quick:
            return True
        if record.made != file_checksum(path) or record.sources != self.checksum():
            return False
        record.quick = quick
        keep_quietly(path, record)
        return True

    def adopts(self, name: str) -> bool:
        """Returns whether `rt ci` left a proved file after the last change of every source. It leaves no record, so one is written."""
        path = os.path.join(self.top, name)
        if self.latest_change() >= os.stat(path).st_mtime_ns:
            return False
        keep_quietly(path, Record(self.checksum(), self.kit, file_checksum(path), self.quick_sum(name)))
        return True

    def is_fresh(self, name: str, may_adopt: bool = False) -> bool:
        """Returns whether the built file of this name is made from these sources."""
        path = os.path.join(self.top, name)
        try:
            if not os.path.isfile(path) or os.path.getsize(path) == 0:
                return False
            return self.matches(name) or may_adopt and self.adopts(name)
        except OSError:
            return False


def keep_quietly(path: str, record: Record) -> None:
    """Writes a record if the folder can be written; otherwise the next look reads the sources again."""
    try:
        write_record(path, record)
    except OSError:
        pass


def find_program(sources: Sources) -> tuple[str, str] | None:
    """Returns whether the program that answers is proved or unproved, and its path, or None if none is fresh."""
    if sources.is_fresh(PROGRAM, may_adopt=True):
        return "proved", os.path.join(sources.top, PROGRAM)
    if sources.is_fresh(UNPROVED_PROGRAM):
        return "unproved", os.path.join(sources.top, UNPROVED_PROGRAM)
    return None


def find_library(sources: Sources) -> tuple[str, str] | None:
    """Returns whether the fresh static library is proved or unproved, and its path, or None if none is fresh."""
    if sources.is_fresh(LIBRARY):
        return "proved", os.path.join(sources.top, LIBRARY)
    if sources.is_fresh(UNPROVED_LIBRARY):
        return "unproved", os.path.join(sources.top, UNPROVED_LIBRARY)
    return None
