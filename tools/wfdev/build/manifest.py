"""The manifest of an installation: which files './wf install' put below a folder, and which folders it made.

The first line names the format. A line `file COMPONENT SUM NAME` is a file or a link with the checksum of its content, and a line
`folder NAME` a folder.
"""
# ruff: noqa: PTH
from __future__ import annotations

import dataclasses
import hashlib
import os
import pathlib

from .report import Failure

NAME = "share/wf/manifest"
HEAD = "manifest of ./wf install, version 1"


@dataclasses.dataclass(frozen=True)
class Entry:
    """A file that was put there: its component, program or library, and the checksum of its content."""

    name: str
    component: str
    sum: str


@dataclasses.dataclass
class Manifest:
    """The files and folders of an installation."""

    entries: dict[str, Entry] = dataclasses.field(default_factory=dict)
    folders: set[str] = dataclasses.field(default_factory=set)

    def text(self) -> str:
        """Returns the manifest as the lines of its file."""
        files = [f"file {entry.component} {entry.sum} {name}" for name, entry in sorted(self.entries.items())]
        return "\n".join([HEAD, *files, *(f"folder {name}" for name in sorted(self.folders))]) + "\n"


def content_sum(path: pathlib.Path) -> str:
    """Returns the checksum of a file's content, or of a link's target."""
    content = os.readlink(path).encode(errors="surrogateescape") if path.is_symlink() else path.read_bytes()
    return hashlib.sha256(content).hexdigest()


def is_inside(name: str) -> bool:
    """Returns whether a name leads to a place below the folder."""
    return bool(name) and not os.path.isabs(name) and ".." not in pathlib.PurePath(name).parts


def read(prefix: pathlib.Path) -> Manifest | None:
    """Returns the manifest of an installation, or None if there is none."""
    path, found = prefix / NAME, Manifest()
    try:
        head, *lines = path.read_text(encoding="utf-8").splitlines()
    except (FileNotFoundError, NotADirectoryError):
        return None
    except (OSError, ValueError):
        head, lines = "", []
    for line in lines:
        kind, _, rest = line.partition(" ")
        parts = rest.split(" ", 2)
        if kind == "folder" and is_inside(rest):
            found.folders.add(rest)
        elif kind == "file" and len(parts) == 3 and is_inside(parts[2]):
            found.entries[parts[2]] = Entry(parts[2], parts[0], parts[1])
        else:
            head = ""
    if head != HEAD:
        raise Failure(f"{path}: this is no manifest of './wf install'; remove it by hand, and the files that were installed")
    return found
