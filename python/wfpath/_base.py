"""The classes that all errors of the package belong to."""
from __future__ import annotations

import re
from typing import ClassVar


class WfError(Exception):
    """The library returned a code other than 0. Each code has its own class (wfpath.errors).

    `code` is its number in include/wf.h, `word` its word, and `about` says what it means.
    """

    code: int = 0
    word: str = ""
    about: str = ""

    def __str__(self) -> str:
        return f"{self.word}: {self.about}"


class Refused(WfError):
    """The machine refused a call. Nothing has changed, except that Idle may have moved stations in the
    scheduler's lists.

    `number` is the number of the refusals that have one, as Open and Debt, else None.
    """

    field: ClassVar[str] = ""

    def __init__(self, number: int = 0) -> None:
        super().__init__(number)
        self.number: int | None = number if self.field else None

    @property
    def line(self) -> str:
        """The line of the refusal in a trace, as `refused open 2`."""
        return f"refused {self.word}" if self.number is None else f"refused {self.word} {self.number}"

    def __str__(self) -> str:
        about = re.sub(r"`\w+`", str(self.number), self.about, count=1) if self.field else self.about
        return f"{self.word}: {about}"


class BlockError(WfError):
    """The octets are not a BlockAck to the exchange, which is still open."""


class BadSetting(WfError):
    """A setting is out of its range. `place` counts from 1, and `name` is its name."""

    def __init__(self, place: int, name: str, least: int, most: int) -> None:
        super().__init__(place, name, least, most)
        self.code = 100 + place
        self.word = "bad-setting"
        self.place = place
        self.name = name
        self.about = f"{name}: expected {least} to {most}"


class BadLibrary(ImportError):
    """No library was found, or it does not fit this package."""
