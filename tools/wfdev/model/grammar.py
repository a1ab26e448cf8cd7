"""Lines, their words, and the faults of a line: TRACE.md, Lines and Faults.

Scripts of sessions and uplinks have the same rules.
"""
import re
from collections.abc import Callable, Iterable, Mapping, Sequence
from dataclasses import dataclass
from typing import Protocol

LONGEST_LINE = 160
PRINTABLE = range(32, 127)
# The kinds of faults in their order. (`too-big` needs 2^40 octets; the model does not have it.)
KINDS = ("long-line", "not-ascii", "word", "count", "number", "range", "no-head", "no-end", "too-long")
DIGITS = re.compile(r"0|[1-9][0-9]{0,9}")
CALLERS = range(65_536)


def first_kind(kinds: Iterable[str | None]) -> str | None:
    """Returns the first of these kinds, if there is one."""
    return min((kind for kind in kinds if kind), key=KINDS.index, default=None)


class Argument(Protocol):
    """The rule for a word in one place of a line."""

    def fault(self, word: str) -> str | None:
        """Returns the kind of the word's fault, if it has one."""

    def value(self, word: str) -> object:
        """Returns the value of a word without a fault."""


@dataclass(frozen=True)
class NumberIn:
    """A number in a range."""

    values: range

    def fault(self, word: str) -> str | None:
        """Returns the kind of the word's fault, if it has one."""
        if not DIGITS.fullmatch(word):
            return "number"
        return None if int(word) in self.values else "range"

    def value(self, word: str) -> object:
        """Returns the number."""
        return int(word)


@dataclass(frozen=True)
class OneOf:
    """One of these words."""

    words: tuple[str, ...]

    def fault(self, word: str) -> str | None:
        """Returns the kind of the word's fault, if it has one."""
        return None if word in self.words else "word"

    def value(self, word: str) -> object:
        """Returns the word."""
        return word


@dataclass(frozen=True)
class Call:
    """A call: its name, and the values of its arguments."""

    name: str
    values: tuple[object, ...]


def same(*values: object) -> tuple[object, ...]:
    """Returns the values of a line's arguments as those of its call."""
    return values


@dataclass(frozen=True)
class Form:
    """A form of a line: its arguments, how many of the last may be missing, and the values of the call.

    If it has marks, each a place and a word, it is the form of the lines with these words in these places.
    """

    arguments: tuple[Argument, ...] = ()
    optional: int = 0
    marks: tuple[tuple[int, str], ...] = ()
    values: Callable[..., tuple[object, ...]] = same

    def is_meant(self, words: Sequence[str]) -> bool:
        """Returns whether a line with these words after its first has this form."""
        return all(list(words[place : place + 1]) == [word] for place, word in self.marks)

    def fault(self, words: Sequence[str]) -> str | None:
        """Returns the kind of the fault of the words after the first, if they have one."""
        has_count = len(self.arguments) - self.optional <= len(words) <= len(self.arguments)
        kinds = [argument.fault(word) for argument, word in zip(self.arguments, words, strict=False)]
        return first_kind([*kinds, None if has_count else "count"])

    def call(self, name: str, words: Sequence[str]) -> Call:
        """Returns the call of a line without a fault."""
        values = [argument.value(word) for argument, word in zip(self.arguments, words, strict=False)]
        return Call(name, self.values(*values))


Forms = Mapping[str, Sequence[Form]]


class Fault(Exception):
    """A line has a fault of this kind."""

    def __init__(self, kind: str) -> None:
        super().__init__(kind)
        self.kind = kind


def lines_of(octets: bytes) -> list[bytes]:
    """Returns the lines of an input."""
    lines = octets.split(b"\n")
    return lines if lines[-1] else lines[:-1]


def words_of(line: bytes) -> list[str]:
    """Returns the words of a line, none if it is skipped."""
    if len(line) > LONGEST_LINE:
        raise Fault("long-line")
    if any(octet not in PRINTABLE for octet in line):
        raise Fault("not-ascii")
    words = [word for word in line.decode("ascii").split(" ") if word]
    return [] if words and words[0].startswith("#") else words


def caller_fault(caller: str | None) -> str | None:
    """Returns the kind of the caller's fault, if it has one."""
    return None if caller is None else NumberIn(CALLERS).fault(caller[1:])


def read(words: Sequence[str], forms: Forms, has_callers: bool = False) -> Call:
    """Returns the call of a line with these words."""
    caller = words[0] if has_callers and words[0].startswith("@") else None
    name, *rest = (list(words[1:]) if caller else list(words)) or [""]
    known = forms.get(name)
    if known is None or (caller and name == "end"):
        raise Fault("word")
    form = next(form for form in known if form.is_meant(rest))
    kind = first_kind([caller_fault(caller), form.fault(rest)])
    if kind:
        raise Fault(kind)
    return form.call(name, rest)
