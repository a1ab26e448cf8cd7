"""The word `dist`: an archive of the sources, one of what `install` puts in a folder and of the wheel for
Python, and the checksums of both.

The same sources and built files make the same archives: names are sorted, and owners, permissions and times
are fixed. """
# ruff: noqa: PTH
from __future__ import annotations

import gzip
import hashlib
import io
import os
import pathlib
import platform
import shutil
import subprocess
import sys
import tarfile
import tempfile
from collections.abc import Mapping
from typing import IO, cast

from . import fresh, install
from .files import reason
from .install import Built
from .report import Failure, Notes

TOP = pathlib.Path(fresh.TOP)
FOLDER = TOP / "out" / "dist"
SUMS = "SHA256SUMS"
LICENCES = ("LICENSE-APACHE", "LICENSE-MIT")
# The backend of pip, which makes the wheel, and the names that the library gets in it.
BACKEND = pathlib.Path("python") / "backend" / "wfpath_build.py"
WHEEL_FOLDER = "python"
IN_WHEEL = {"proved": "libwf.so", "unproved": "libwf.unproved.so"}
# Folders with files that are made, which a source archive does not have.
MADE = (".git", "out", "__pycache__")
WORDS = {install.PROGRAM: "build", install.LIBRARY: "lib"}
Files = Mapping[str, pathlib.Path]


def git(*words: str) -> str | None:
    """Returns what git writes about this checkout, or None if it is no checkout of git."""
    if not (TOP / ".git").exists() or shutil.which("git") is None:
        return None
    done = subprocess.run(["git", "-C", str(TOP), *words], capture_output=True, check=False)
    return os.fsdecode(done.stdout) if done.returncode == 0 else None


def source_files() -> Files:
    """Returns the files of the source archive: those that git knows, or without git all except those that are
    made."""
    listed = git("ls-files", "-z")
    if listed is not None:
        names = [name for name in listed.split("\0") if name and os.path.lexists(TOP / name)]
    else:
        found = (path for path in TOP.rglob("*") if path.is_symlink() or path.is_file())
        names = [
            str(path.relative_to(TOP)) for path in found if not set(MADE) & set(path.relative_to(TOP).parts)
        ]
    return {name: TOP / name for name in names}


def fixed_time() -> int:
    """Returns the time of all files: SOURCE_DATE_EPOCH, or that of the last commit, or without git that of
    the file VERSION."""
    given = os.environ.get("SOURCE_DATE_EPOCH") or git("log", "-1", "--format=%ct")
    if not given:
        return int((TOP / "VERSION").stat().st_mtime)
    try:
        return int(given)
    except ValueError:
        raise Failure(f"dist: SOURCE_DATE_EPOCH = {given}: expected a number of seconds") from None


def entry(name: str, path: pathlib.Path, when: int) -> tuple[tarfile.TarInfo, bytes]:
    """Returns a file or a link as an archive has it."""
    info = tarfile.TarInfo(name)
    info.mtime = when
    if path.is_symlink():
        info.type, info.linkname, info.mode = tarfile.SYMTYPE, os.readlink(path), 0o777
        return info, b""
    octets = path.read_bytes()
    info.size, info.mode = len(octets), 0o755 if os.access(path, os.X_OK) else 0o644
    return info, octets


def archive(target: pathlib.Path, top: str, files: Files, when: int) -> None:
    """Writes an archive in which all files are in one folder."""
    with open(target, "wb") as file, gzip.GzipFile("", "wb", 9, file, mtime=0) as packed:
        with tarfile.open(fileobj=cast("IO[bytes]", packed), mode="w", format=tarfile.PAX_FORMAT) as tar:
            for name in sorted(files):
                info, octets = entry(f"{top}/{name}", files[name], when)
                tar.addfile(info, io.BytesIO(octets))


def sums(files: Files) -> str:
    """Returns the checksums of files, as `sha256sum -c` reads them. Links have none."""
    return "".join(
        f"{hashlib.sha256(path.read_bytes()).hexdigest()}  {name}\n" for name, path in sorted(
            files.items()
        ) if not path.is_symlink()
    )


def chosen(takes_unproved: bool) -> list[Built]:
    """Returns the program and the library; without the flag both have to be proved."""
    found = {one.component: one for one in install.built_files()}
    for component, word in WORDS.items():
        if component not in found:
            raise Failure(f"dist: no {component} is built from these sources: './wf {word}' builds one")
        if found[component].kind != "proved" and not takes_unproved:
            raise Failure(
                f"dist: {found[component].path} is not known to be proved; './wf dist --unproved' takes what "
                "is not proved, too"
            )
    return list(found.values())


def wheel(library: pathlib.Path, kind: str, folder: pathlib.Path) -> pathlib.Path:
    """Makes the wheel of the package wfpath with a shared library in a folder, and returns its path."""
    folder.mkdir()
    words = [sys.executable, "-IS", str(TOP / BACKEND), str(folder), str(library), IN_WHEEL[kind]]
    done = subprocess.run(words, capture_output=True, text=True, check=False)
    if done.returncode:
        raise Failure("dist: the wheel for Python could not be made", done.stderr)
    return folder / done.stdout.strip()


def binary_files(built: list[Built], room: pathlib.Path) -> Files:
    """Installs into a folder, makes the wheel, and returns the files of the binary archive."""
    prefix = room / "prefix"
    names = install.install_below(prefix, built)
    (kind,) = (one.kind for one in built if one.component == install.LIBRARY)
    for_python = wheel(prefix / "lib" / "libwf.so", kind, room / WHEEL_FOLDER)
    files = {name: prefix / name for name in names} | {name: TOP / name for name in LICENCES}
    files[f"{WHEEL_FOLDER}/{for_python.name}"] = for_python
    listed = room / SUMS
    listed.write_text(sums(files), encoding="utf-8")
    return {**files, SUMS: listed}


def make(folder: pathlib.Path, built: list[Built]) -> list[pathlib.Path]:
    """Makes the archives aside, moves them to their places, and returns their paths."""
    version = (TOP / "VERSION").read_text(encoding="utf-8").strip()
    kind = "" if all(one.kind == "proved" for one in built) else "-unproved"
    source, binary = f"wf-{version}", f"wf-{version}{kind}-{platform.system().lower()}-{platform.machine()}"
    when = fixed_time()
    folder.mkdir(parents=True, exist_ok=True)
    with tempfile.TemporaryDirectory(prefix=".wf-dist-", dir=folder) as aside:
        room = pathlib.Path(aside)
        made = {f"{source}.tar.gz": room / "source", f"{binary}.tar.gz": room / "binary"}
        archive(room / "source", source, source_files(), when)
        archive(room / "binary", binary, binary_files(built, room), when)
        (room / "sums").write_text(sums(made), encoding="utf-8")
        made[SUMS] = room / "sums"
        for name, path in made.items():
            os.replace(path, folder / name)
    return [folder / name for name in made]


def dist(named: str | None, takes_unproved: bool) -> int:
    """The word `dist`."""
    built = chosen(takes_unproved)
    folder = pathlib.Path(os.path.abspath(named)) if named else FOLDER
    if git("status", "--porcelain", "--untracked-files=no"):
        Notes.say("the sources have changes that are not committed: the source archive has them, too")
    try:
        paths = make(folder, built)
    except OSError as fault:
        raise Failure(f"dist: {reason(fault)}") from None
    install.print_names(folder, [path.name for path in paths])
    return 0
