"""Reads one table of a scenario file key by key, and reports each mistake with its file, table, key and the expected value."""
from __future__ import annotations

import difflib
import json
from collections.abc import Sequence
from dataclasses import dataclass, field

MOST_SHOWN = 60  # characters of a wrong value that a message repeats


class Fault(Exception):
    """A mistake in a scenario or in the words of the command line, in words for the person who wrote it."""


def shown(value: object) -> str:
    """A value as a TOML file writes it, cut if it is long. Control characters are escaped."""
    try:
        text = json.dumps(value, ensure_ascii=False, default=str) if not isinstance(value, float) else f"{value:g}"
    except (ValueError, RecursionError):
        text = type(value).__name__
    text = "".join(one if one.isprintable() else repr(one)[1:-1] for one in text)
    return text if len(text) <= MOST_SHOWN else text[:MOST_SHOWN] + ".."


def is_number(value: object) -> bool:
    """Whether a value is a number. A TOML boolean is none, although Python's bool is an int."""
    return isinstance(value, (int, float)) and not isinstance(value, bool)


@dataclass
class Table:
    """One table of a scenario file. `finish` refuses keys that nothing asked for."""

    file: str
    name: str  # as a message shows it; empty for the outermost table
    values: dict[str, object]
    known: dict[str, bool] = field(default_factory=dict)  # keys that were asked for, in order

    def fault(self, what: str) -> Fault:
        """A mistake somewhere in this table."""
        return Fault(": ".join(filter(None, (self.file, self.name, what))))

    def wrong(self, key: str, expected: str) -> Fault:
        """A mistake in the value of a key."""
        return self.fault(f"{key} = {shown(self.values[key])}: expected {expected}")

    def has(self, key: str) -> bool:
        self.known[key] = True
        return key in self.values

    def value(self, key: str, default: object, expected: str) -> object:
        """The value of a key, or the default. Without a default the key is required."""
        if not self.has(key) and default is None:
            raise self.fault(f"{key} is missing: expected {expected}")
        return self.values.get(key, default)

    def number(self, key: str, low: float, high: float, default: float | None = None) -> float:
        """A number from `low` to `high`."""
        expected = f"a number from {low:g} to {high:.15g}"
        value = self.value(key, default, expected)
        if not isinstance(value, (int, float)) or isinstance(value, bool) or not low <= value <= high:
            raise self.wrong(key, expected)
        return value

    def whole(self, key: str, low: int, high: int, default: int | None = None) -> int:
        """A whole number from `low` to `high`."""
        expected = f"a whole number from {low} to {high}"
        value = self.value(key, default, expected)
        if not isinstance(value, int) or isinstance(value, bool) or not low <= value <= high:
            raise self.wrong(key, expected)
        return value

    def text(self, key: str, default: str | None = None, empty: bool = False) -> str:
        """A text of printable characters, not blank unless `empty` is set."""
        expected = "a text of printable characters"
        value = self.value(key, default, expected)
        if not isinstance(value, str) or not value.isprintable() or not (value.strip() or empty):
            raise self.wrong(key, expected)
        return value

    def flag(self, key: str, default: bool = False) -> bool:
        """True or false."""
        value = self.value(key, default, "true or false")
        if not isinstance(value, bool):
            raise self.wrong(key, "true or false")
        return value

    def one_of(self, key: str, among: Sequence[str], default: str) -> str:
        """One of the given texts."""
        value = self.value(key, default, "")
        if not isinstance(value, str) or value not in among:
            raise self.wrong(key, f"one of {', '.join(among)}")
        return value

    def texts(self, key: str, default: list[str], among: Sequence[str] | None = None) -> list[str]:
        """A list of texts, each one of `among` if that is given."""
        expected = f"a list of some of {', '.join(among)}" if among else "a list of texts"
        value = self.value(key, default, expected)
        if not isinstance(value, list) or not all(isinstance(one, str) and (not among or one in among) for one in value):
            raise self.wrong(key, expected)
        return value

    def table(self, key: str) -> Table:
        """The table of this name, or an empty one."""
        value = self.value(key, {}, f"a table [{key}]")
        if not isinstance(value, dict):
            raise self.wrong(key, f"a table [{key}]")
        return Table(self.file, f"[{key}]", value)

    def tables(self, key: str, needed: bool = False) -> list[Table]:
        """The tables of this name, in order."""
        expected = f"tables [[{key}]]"
        value = self.value(key, None if needed else [], f"a table [[{key}]]")
        if not isinstance(value, list) or not all(isinstance(one, dict) for one in value):
            raise self.wrong(key, expected)
        prefix = f"{self.name} " if self.name else ""
        return [Table(self.file, f"{prefix}[[{key}]] {number}", one) for number, one in enumerate(value, 1)]

    def finish(self) -> None:
        """Refuses a key that nothing asked for."""
        for key in self.values:
            if key not in self.known:
                near = difflib.get_close_matches(key, self.known, 1)
                hint = f"did you mean {near[0]}?" if near else f"expected one of {', '.join(self.known)}"
                raise self.fault(f"unknown key {shown(key)}: {hint}")
