"""Files that a run writes: each is written next to its place, and takes that place when everything is written.

So a run that is interrupted, or that fails, leaves every file unchanged.
"""
from __future__ import annotations

import contextlib
import os
import tempfile
from collections.abc import Iterator
from pathlib import Path
from types import TracebackType
from typing import TextIO

from .fields import Fault


@contextlib.contextmanager
def about(name: str) -> Iterator[None]:
    """Turns an error of the operating system into a Fault about a file."""
    try:
        yield
    except OSError as error:
        raise Fault(f"{name}: {error.strerror}") from None


class Outputs:
    """Several files. As a context it writes all of them at its end, or none if an exception ends it."""

    def __init__(self) -> None:
        self.files: dict[Path, tuple[TextIO, Path]] = {}  # by place: the file that is written, and its path
        self.names: dict[Path, str] = {}

    def __enter__(self) -> Outputs:
        return self

    def open(self, name: str) -> TextIO:
        """A file that will replace `name`. A name for a device or a pipe is written at once."""
        place = Path(os.path.realpath(name))
        if place in self.files:
            raise Fault(f"{name}: two outputs have this file: expected a file for each")
        with about(name):
            if place.exists() and not place.is_file():
                file = open(place, "w", encoding="utf-8", newline="")
                self.files[place] = file, place
            else:
                self.files[place] = self.aside(place)
        self.names[place] = name
        return self.files[place][0]

    def reserve(self, name: str) -> Path:
        """The path of a file that somebody else writes, and that then takes the place of `name`."""
        self.open(name)
        return self.files[Path(os.path.realpath(name))][1]

    def aside(self, place: Path) -> tuple[TextIO, Path]:
        """A new file next to a place, with the mode that a file there would have."""
        mode = place.stat().st_mode & 0o777 if place.exists() else 0o666 & ~umask()
        descriptor, path = tempfile.mkstemp(prefix=f".{place.name}.", dir=place.parent)
        os.fchmod(descriptor, mode)
        return open(descriptor, "w", encoding="utf-8", newline=""), Path(path)

    def commit(self) -> None:
        """Puts each file in its place."""
        for place, (file, path) in self.files.items():
            with about(self.names[place]):
                file.close()
                if path != place:
                    os.replace(path, place)
        self.files.clear()

    def discard(self) -> None:
        """Removes the files that are not in their places."""
        for place, (file, path) in self.files.items():
            with contextlib.suppress(OSError):
                file.close()
            if path != place:
                path.unlink(missing_ok=True)
        self.files.clear()

    def __exit__(self, kind: type[BaseException] | None, error: BaseException | None, trace: TracebackType | None) -> None:
        try:
            if kind is None:
                self.commit()
        finally:
            self.discard()


def umask() -> int:
    """The permissions that new files do not get."""
    mask = os.umask(0)
    os.umask(mask)
    return mask
