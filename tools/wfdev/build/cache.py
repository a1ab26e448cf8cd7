"""The user's cache of proved builds: what one checkout built, every other with the same sources takes.

The cache is the folder lacrossefir of $XDG_CACHE_HOME, or of ~/.cache. It has a folder for each product. An entry is a built file, named by
the checksum of all that it was made from, with its record. An entry that is damaged is ignored, and so is a cache that others can change.
"""
# ruff: noqa: PTH
from __future__ import annotations

import contextlib
import hashlib
import os
import pathlib
import platform
import re
import stat
import time
from collections.abc import Iterable

from . import fresh
from .files import ASIDE, put, reason
from .report import Failure, Notes

FOLDER = "lacrossefir"
# Part of every name: with another version, older entries are no longer found.
FORMAT = "entry of ./wf, version 1"
KEY = re.compile(r"[0-9a-f]{64}")
NEWEST = 4  # entries of each product that stay
LEFT = 86_400  # seconds after which a file that a killed build left aside is removed


def folder() -> pathlib.Path | None:
    """Returns the folder of the cache, or None if this user has no home."""
    named = os.environ.get("XDG_CACHE_HOME", "")
    above = named if os.path.isabs(named) else os.path.expanduser("~/.cache")
    return pathlib.Path(above, FOLDER) if os.path.isabs(above) else None


def path_of(name: str, sources: str, kit: str, shaping: Iterable[pathlib.Path] = ()) -> pathlib.Path | None:
    """Returns the path of the entry of a product that is made from these sources by this kit, and shaped by these files. It is None if
    the kit is unknown or there is no cache."""
    cache = folder()
    if cache is None or fresh.UNKNOWN in (sources, kit):
        return None
    try:
        parts = [FORMAT, name, platform.machine(), sources, kit, *(fresh.file_checksum(str(path)) for path in shaping)]
    except OSError:
        return None
    return cache / name / hashlib.sha256("\n".join(parts).encode()).hexdigest()


def is_private(cache: pathlib.Path) -> bool:
    """Returns whether the cache is this user's, and nobody else can write there."""
    status = cache.stat()
    return status.st_uid == os.geteuid() and not status.st_mode & (stat.S_IWGRP | stat.S_IWOTH)


def record_of(entry: pathlib.Path, sources: str, kit: str) -> fresh.Record | None:
    """Returns the record of an entry, or None if there is no whole one from these sources and this kit."""
    try:
        record = fresh.read_record(str(entry)) if is_private(entry.parent.parent) else None
        if record is None or (record.sources, record.kit) != (sources, kit):
            return None
        return fresh.Record(sources, kit, record.made) if record.made == fresh.file_checksum(str(entry)) else None
    except OSError:
        return None


def take(entry: pathlib.Path, target: pathlib.Path, sources: str, kit: str, when: float) -> bool:
    """Puts the file of an entry in place, dated `when`, and returns whether there is a whole one."""
    record = record_of(entry, sources, kit)
    if record is None:
        return False
    try:
        put(entry, target, record, when)
    except Failure:
        return False
    return True


def keep(made: pathlib.Path, entry: pathlib.Path, record: fresh.Record) -> None:
    """Keeps a proved file with its record, and removes the oldest entries of the product. If it cannot be kept, a note says why."""
    cache = entry.parent.parent
    try:
        cache.mkdir(mode=0o700, parents=True, exist_ok=True)
        if not is_private(cache):
            raise Failure("expected a folder of this user, in which nobody else can write")
        entry.parent.mkdir(exist_ok=True)
        put(made, entry, fresh.Record(record.sources, record.kit, record.made))
        _remove_oldest(entry.parent)
    except (OSError, Failure) as fault:
        why = fault.why if isinstance(fault, Failure) else reason(fault)
        Notes.say(f"no copy of this build is kept in the cache {cache}: {why}")


def _remove_oldest(entries: pathlib.Path) -> None:
    """Removes all entries of a product but the newest ones, and files that killed builds left aside."""
    dates = {path: path.stat().st_mtime for path in entries.iterdir() if KEY.fullmatch(path.name) or path.name.startswith(ASIDE)}
    by_date = sorted((path for path in dates if KEY.fullmatch(path.name)), key=lambda path: dates[path], reverse=True)
    left = [path for path, date in dates.items() if path not in by_date and date < time.time() - LEFT]
    for path in [*by_date[NEWEST:], *left]:
        for name in (path.name + fresh.RECORD, path.name):
            with contextlib.suppress(FileNotFoundError):
                (entries / name).unlink()
