"""Temporary folders, and files that are put in place whole or not at all."""
# ruff: noqa: PTH
from __future__ import annotations

import contextlib
import errno
import fcntl
import os
import pathlib
import shutil
import tempfile
from collections.abc import Iterator

from . import fresh
from .children import wait
from .report import Failure, Notes

ASIDE = ".wf-new-"
LOCK = ".wf-lock"
PAUSE = 0.2  # seconds between two tries to take a lock


def reason(fault: OSError) -> str:
    """Returns the file that a fault is about, and the reason."""
    name = fault.filename2 or fault.filename
    return f"{name}: {fault.strerror}" if name else str(fault.strerror or fault)


@contextlib.contextmanager
def temporary_folder(octets: int) -> Iterator[pathlib.Path]:
    """Makes a folder among the temporary files, with room for this number of octets, and removes it at the end."""
    try:
        folder = tempfile.mkdtemp(prefix="wf-build-")
    except OSError as fault:
        raise Failure(f"no temporary folder can be made: {reason(fault)}; set TMPDIR to a folder that can be written") from None
    try:
        free = shutil.disk_usage(folder).free
        if free < octets:
            raise Failure(
                f"{os.path.dirname(folder)}: {free >> 20} MB are free, and a build needs {octets >> 20} MB of temporary files; "
                "make room, or set TMPDIR to another folder"
            )
        yield pathlib.Path(folder)
    finally:
        shutil.rmtree(folder, ignore_errors=True)


def make_folder(folder: pathlib.Path) -> None:
    """Makes a folder, and checks that files can be made in it."""
    try:
        folder.mkdir(parents=True, exist_ok=True)
        with tempfile.TemporaryFile(dir=folder):
            pass
    except OSError as fault:
        hint = "make room there" if fault.errno == errno.ENOSPC else "a build writes there: use a checkout that you can write"
        raise Failure(f"{folder}: {fault.strerror}; {hint}") from None


@contextlib.contextmanager
def lock(folder: pathlib.Path) -> Iterator[None]:
    """Holds the lock of a folder of built files: another build in this checkout waits."""
    make_folder(folder)
    with open(folder / LOCK, "w", encoding="utf-8") as file:
        waits = False
        while True:
            try:
                fcntl.flock(file, fcntl.LOCK_EX | fcntl.LOCK_NB)
                break
            except BlockingIOError:
                if not waits:
                    Notes.say("another build runs in this checkout: waiting for it")
                waits = True
                wait(PAUSE)
        for left in folder.glob(f"{ASIDE}*"):
            left.unlink()
        yield


def place(made: pathlib.Path, target: pathlib.Path, when: float | None = None, checksum: str | None = None) -> None:
    """Copies a file next to its target and renames it over the target, dated `when`. If the copy fails, or has another checksum than the
    one that is given, the target is as before."""
    number, name = tempfile.mkstemp(prefix=ASIDE, dir=target.parent)
    try:
        with os.fdopen(number, "wb") as file, open(made, "rb") as source:
            shutil.copyfileobj(source, file, 1 << 20)
            file.flush()
            os.fsync(file.fileno())
        if checksum not in (None, fresh.file_checksum(name)):
            raise Failure(f"{made} was changed meanwhile; {target} was not replaced")
        os.chmod(name, 0o755 if os.access(made, os.X_OK) else 0o644)
        if when is not None:
            os.utime(name, (when, when))
        os.replace(name, target)
    except OSError as fault:
        raise Failure(f"{target}: {fault.strerror}; the file was not replaced") from None
    finally:
        with contextlib.suppress(FileNotFoundError):
            os.unlink(name)


def put(made: pathlib.Path, target: pathlib.Path, record: fresh.Record, when: float | None = None) -> None:
    """Puts a built file in place, dated `when`, with its record. In between it has none, so it does not count as fresh."""
    target.with_name(target.name + fresh.RECORD).unlink(missing_ok=True)
    place(made, target, when, record.made)
    fresh.write_record(str(target), record)


def write_whole(target: pathlib.Path, text: str) -> None:
    """Writes a text file, whole or not at all, unless it has this text already."""
    if target.is_file() and target.read_bytes() == text.encode():
        return
    with tempfile.TemporaryDirectory(prefix=ASIDE, dir=target.parent) as folder:
        made = pathlib.Path(folder) / "text"
        made.write_text(text, encoding="utf-8")
        place(made, target)


def link_all(source: pathlib.Path, target: pathlib.Path, without: tuple[str, ...]) -> None:
    """Makes a folder of links to all entries of another but some."""
    target.mkdir(parents=True)
    for entry in source.iterdir():
        if entry.name not in without:
            (target / entry.name).symlink_to(entry)
