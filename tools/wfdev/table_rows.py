"""The rows of the tables of settings, refusals, calls and fates.

The rows of settings and of refusals are in crates/wf_frame/tables. Those of calls and of fates are in crates/wf_frame/src: each row is
a number and words in a `match`, and the sentence of a row is the doc comment of its variant.
"""
import re
import tomllib
from collections.abc import Iterator, Mapping, Sequence
from dataclasses import dataclass
from pathlib import Path
from typing import Any

SOURCES = Path("crates/wf_frame/src")
SETTINGS = Path("crates/wf_frame/tables/settings.toml")
REFUSALS = Path("crates/wf_frame/tables/refusals.toml")

# The settings and the reserved numbers after them in `struct wf_settings`.
PLACES = 32
# The greatest number of a refusal: the next code of include/wf.h is WF_NO_MEMORY.
LAST_REFUSAL = 59
# wf_frame promises that the words of settings and of refusals have at most this length.
LONGEST_WORD = 12
GREATEST = 2**32 - 1
ROW = re.compile(r'(\w+)( \{ \.\. \})?\)? => \(\s*(\d+),\s*b"([^"]*)"([^()]*)\),')
SETTING_KEYS = {"number": int, "range": list, "standard": int, "sentence": str, "field": str}
REFUSAL_KEYS = {"number": int, "sentence": str}
COUNT_KEYS = {"name": str, "kind": str, "reply": str, "letter": str}


class Fault(Exception):
    """A table or a file has another form than the generator reads."""


# ---- the rows


@dataclass(frozen=True)
class Setting:
    """A setting: its word, its number, its range, its standard value, its sentence, the comment of its field of `Config`, and its value
    in the settings for devices."""

    name: str
    number: int
    least: int
    most: int
    standard: int
    about: str
    field: str
    device: int

    @property
    def variant(self) -> str:
        """Its variant of `Field`."""
        return camel(self.name)

    @property
    def note(self) -> str:
        """Its sentence as a note."""
        return note(self.about)


@dataclass(frozen=True)
class Count:
    """The number after the word of a refusal: its name and type in Rust, its field of `struct wf_reply`, and its letter on the pages."""

    name: str
    kind: str
    reply: str
    letter: str


@dataclass(frozen=True)
class Refusal:
    """A refusal: its number, its word and its constant in C, its sentence, what the header adds to it, and the number after its
    word, if it has one.
    """

    number: int
    word: str
    constant: str
    about: str
    in_c: str
    count: Count | None

    @property
    def variant(self) -> str:
        """Its variant of `Refusal`."""
        return camel(self.word)


@dataclass(frozen=True)
class Call:
    """A form of a call: its variant, the number of the call, the line, the values of each argument, and its sentence."""

    variant: str
    number: int
    line: str
    kinds: tuple[str, ...]
    about: str

    def arguments(self) -> list[tuple[str, str]]:
        """The name of each argument with its values. A word in small letters is no name, and is left out."""
        names = (name.strip("[]") for name in self.line.split()[1:])
        return [(name, kind) for name, kind in zip(names, self.kinds, strict=True) if not name.islower()]


@dataclass(frozen=True)
class Fate:
    """A fate: its number, its word and its sentence."""

    number: int
    word: str
    about: str


@dataclass(frozen=True)
class Tables:
    """All rows."""

    settings: tuple[Setting, ...]
    refusals: tuple[Refusal, ...]
    calls: tuple[Call, ...]
    fates: tuple[Fate, ...]

    @property
    def counted(self) -> list[tuple[Refusal, Count]]:
        """The refusals with a number after their word, and that number."""
        return [(one, one.count) for one in self.refusals if one.count]


def camel(word: str) -> str:
    """A word as the name of a variant: no-station is NoStation."""
    return "".join(part.capitalize() for part in re.split("[-_]", word))


def note(sentence: str) -> str:
    """A sentence as a note: without a capital at its front and without its full stop."""
    first = sentence[:1] if sentence[1:2].isupper() or sentence[1:2] == "-" else sentence[:1].lower()
    return first + sentence[1:].removesuffix(".")


# ---- the tables of settings and refusals


def constant(word: str) -> str:
    """A word as C spells it in a constant: no-station is NO_STATION."""
    return word.replace("-", "_").upper()


def cells(word: str, row: Any, keys: Mapping[str, type]) -> list[Any]:
    """The values of these keys of a row, each of its type."""
    missing = [key for key, kind in keys.items() if not isinstance(row, dict) or type(row.get(key)) is not kind]
    if missing:
        raise Fault(f"the row {word} has no {missing[0]} that is of type {keys[missing[0]].__name__}")
    return [row[key] for key in keys]


def listed(path: Path, known: set[str]) -> Iterator[tuple[str, dict[str, Any]]]:
    """The rows of a table: the head of each, and its keys. Their numbers are their places, counted from 1."""
    try:
        table = tomllib.loads(path.read_text(encoding="utf-8"))
    except (OSError, tomllib.TOMLDecodeError) as why:
        raise Fault(f"{path.name}: {why}") from why
    for place, (word, row) in enumerate(table.items(), 1):
        if len(word) > LONGEST_WORD:
            raise Fault(f"{path.name}: the word {word} is longer than {LONGEST_WORD} letters")
        if not isinstance(row, dict) or row.get("number") != place:
            raise Fault(f"{path.name}: the row {word} is the {place}th, but does not have number = {place}")
        if row.keys() - known:
            raise Fault(f"{path.name}: the row {word} has a key that is none: {sorted(row.keys() - known)[0]}")
        yield word, row


def read_settings(path: Path) -> Iterator[Setting]:
    """The rows of the settings."""
    for word, row in listed(path, {*SETTING_KEYS, "device"}):
        number, ends, standard, about, field = cells(word, row, SETTING_KEYS)
        if [type(end) for end in ends] != [int, int] or not 0 <= ends[0] <= standard <= ends[1] <= GREATEST:
            raise Fault(f"{path.name}: the row {word} has not a range of two numbers that its standard value is in")
        device = row.get("device", standard)
        if type(device) is not int or not ends[0] <= device <= ends[1]:
            raise Fault(f"{path.name}: the row {word} has a value for devices that is not in its range")
        if number >= PLACES:
            raise Fault(f"{path.name}: struct wf_settings has {PLACES} places, of which the last is reserved")
        yield Setting(word, number, ends[0], ends[1], standard, about, field, device)


def read_refusals(path: Path) -> Iterator[Refusal]:
    """The rows of the refusals."""
    for word, row in listed(path, {*REFUSAL_KEYS, "in_c", "counts", "constant"}):
        number, about = cells(word, row, REFUSAL_KEYS)
        if number > LAST_REFUSAL:
            raise Fault(f"{path.name}: the codes above {LAST_REFUSAL} belong to the library for C")
        count = Count(*cells(word, row["counts"], COUNT_KEYS)) if "counts" in row else None
        if count and (count.kind, count.reply) not in (("u32", "count"), ("u32", "air"), ("i64", "deficit")):
            raise Fault(f"{path.name}: the row {word} counts neither as u32 in count or air, nor as i64 in deficit")
        yield Refusal(number, word, row.get("constant", constant(word)), about, row.get("in_c", ""), count)


# ---- the tables of calls and fates


def variants(text: str, enum: str) -> dict[str, str]:
    """The variants of an enum, each with its doc comment as one line."""
    body = re.search(rf"^pub enum {enum} \{{\n(.*?)^\}}", text, re.M | re.S)
    if not body:
        raise Fault(f"there is no enum {enum}")
    found: dict[str, str] = {}
    said: list[str] = []
    for line in body[1].splitlines():
        variant = re.match(r"    (\w+)\b", line)
        if line.strip().startswith("///"):
            said.append(line.strip().removeprefix("///").strip())
        elif variant:
            found[variant[1]] = " ".join(said)
            said = []
    return found


@dataclass(frozen=True)
class Row:
    """A row of a table of a source: the variant, the number, the word, and the cells after it."""

    variant: str
    number: int
    word: str
    more: tuple[str, ...]


def rows(text: str, name: str) -> Iterator[Row]:
    """The rows of a table of a source."""
    found = list(ROW.finditer(text))
    if not found:
        raise Fault(f"the table of {name} has no rows")
    for row in found:
        yield Row(row[1], int(row[3]), row[4], tuple(cell.strip() for cell in row[5].split(",") if cell.strip()))


def read_fates(text: str) -> Iterator[Fate]:
    """The rows of the fates."""
    said = variants(text, "Fate") | variants(text, "Cause")
    for row in rows(text, "fates"):
        yield Fate(row.number, row.word, note(said[row.variant]))


def allowed(sentence: str) -> str:
    """The values of a kind of arguments, by its sentence: a range, or words."""
    found = re.search(r"(\d+) to (\d+)", sentence)
    return f"{found[1]}..{found[2]}" if found else note(sentence)


def read_calls(text: str) -> Iterator[Call]:
    """The rows of the forms of calls, in the order of their numbers."""
    said, kinds = variants(text, "CallForm"), variants(text, "Arg")
    listed_in = argument_lists(text)
    kind_of = argument_kinds(text)
    for row in sorted(rows(text, "calls"), key=lambda row: row.number):
        line = row.more[0].removeprefix('b"').removesuffix('"')
        allowing = tuple(allowed(kinds.get(kind, kind)) for kind in map(kind_of.__getitem__, listed_in[row.variant]))
        if line.split()[0] != row.word or len(line.split()) - 1 != len(allowing):
            raise Fault(f"the line of {row.variant} has not its word and its {len(allowing)} arguments: {line}")
        yield Call(row.variant, row.number, line, allowing, said[row.variant])


def function(text: str, name: str) -> str:
    """The body of a function."""
    found = re.search(rf"fn {name}\(self\).*?\n    \{{\n(.*?)\n    \}}\n", text, re.S)
    if not found:
        raise Fault(f"there is no function {name}")
    return found[1]


def argument_lists(text: str) -> dict[str, list[str]]:
    """The arguments of each form, by its variant; an arm `_` belongs to a pull without limits or a rate without a format."""
    found: dict[str, list[str]] = {}
    for name, rest in (("arguments", ""), ("pull_arguments", "Pull"), ("rate_arguments", "Rate")):
        for patterns, body in re.findall(r"((?:[\s|]*CallForm::\w+)+|_) => (?:\{\s*)?&\[(.*?)\]", function(text, name), re.S):
            for variant in re.findall(r"CallForm::(\w+)", patterns) or [rest]:
                found[variant] = re.findall(r"Argument::(\w+)", body)
    return found


def argument_kinds(text: str) -> dict[str, str]:
    """The kind of each argument, by its variant; of a number in a range of its own, the sentence `low to high`."""
    found: dict[str, str] = {}
    arms = re.findall(r"((?:[\s|]*Argument::\w+)+)\s*=> Arg::(\w+)(?:\s*\{\s*low: (\w+),\s*high: ([\w:]+))?", function(text, "kind"))
    for patterns, kind, low, high in arms:
        for argument in re.findall(r"Argument::(\w+)", patterns):
            found[argument] = f"{number(text, low)} to {number(text, high)}" if low else kind
    return found


def number(text: str, word: str) -> int:
    """The number that a word of the source means: a literal, the greatest of its type, or a constant of the source."""
    if word == "u32::MAX":
        return GREATEST
    constant = re.search(rf"^const {re.escape(word)}: u32 = ([\d_]+);", text, re.M)
    return int(constant[1] if constant else word)


def read(top: Path) -> Tables:
    """The tables of a checkout."""
    calls, classes = ((top / SOURCES / f"{name}.rt").read_text(encoding="utf-8") for name in ("calls", "classes"))
    return Tables(
        tuple(read_settings(top / SETTINGS)), tuple(read_refusals(top / REFUSALS)), tuple(read_calls(calls)), tuple(read_fates(classes))
    )


# ---- generated regions


def replaced(text: str, name: str, lines: Sequence[str]) -> str:
    """The text with these lines between the comments `begin NAME` and `end NAME`."""
    region = re.compile(rf"^([ \t]*(?:/\*|<!--|//|--|#) begin {name}\b.*?\n)(.*?)(?=^[ \t]*(?:/\*|<!--|//|--|#) end {name}\b)", re.M | re.S)
    if len(region.findall(text)) != 1:
        raise Fault(f"there is not one region {name}, from `begin {name}` to `end {name}`")
    return region.sub(lambda found: found[1] + "".join(f"{line}\n" for line in lines), text)
