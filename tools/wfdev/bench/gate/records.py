"""The records that a run of the gate leaves: one for each check or build of a crate by rattle."""
import enum
import json
import os
from collections.abc import Iterable, Mapping, Sequence
from dataclasses import asdict, dataclass
from pathlib import Path
from typing import Any

# The variables that bench/gate sets for its stand-in for rattle.
WATCHED, RECORDS, RATTLE = "GATE_WATCHED", "GATE_RECORDS", "GATE_RATTLE"


class Fault(Exception):
    """The reason for which there are no figures."""


class Kind(enum.Enum):
    """The purpose of a call of rattle."""

    PROOF = "proof"
    TESTS = "tests"
    EDITS = "edits"
    SEED = "seed"  # what the edits of a crate begin with
    BUILD = "build"  # the building of what was proved


class Column(enum.Enum):
    """The columns of the table, by which the seconds are summed."""

    PROOF = "proof"
    TESTS = "tests"
    EDITS = "edits"


COLUMN_OF = {
    Kind.PROOF: Column.PROOF,
    Kind.TESTS: Column.TESTS,
    Kind.EDITS: Column.EDITS,
    Kind.SEED: Column.EDITS,
    Kind.BUILD: Column.PROOF,
}


@dataclass(frozen=True)
class Checked:
    """A function that a check reported, and the processor seconds that were used up by then."""

    name: str
    used: float


@dataclass(frozen=True)
class Record:
    """A check or a build of a crate: its words, the folder, the status, and the seconds on processors and by the clock.

    `functions` is None if rattle cannot report them, as with more than one job.
    """

    crate: str
    kind: Kind
    words: tuple[str, ...]
    at: str
    status: int
    seconds: float
    wall: float
    functions: tuple[Checked, ...] | None

    @property
    def reports_functions(self) -> bool:
        """Whether the check ended well and reported its functions."""
        return self.functions is not None and self.status == 0

    def line(self) -> str:
        """Returns the record as a line."""
        functions = None if self.functions is None else [(it.name, it.used) for it in self.functions]
        return json.dumps({**asdict(self), "kind": self.kind.value, "functions": functions}) + "\n"


def of_json(read: Mapping[str, Any]) -> Record:
    """Returns the record that a line has."""
    told = read["functions"]
    functions = None if told is None else tuple(Checked(name, used) for name, used in told)
    rest = {name: read[name] for name in ("crate", "at", "status", "seconds")}
    return Record(**rest, kind=Kind(read["kind"]), words=tuple(read["words"]), wall=read.get("wall", 0.0), functions=functions)


def read(path: Path) -> list[Record]:
    """Returns the records of a file, one a line."""
    try:
        return [of_json(json.loads(line)) for line in path.read_text(encoding="utf-8").splitlines()]
    except (OSError, ValueError, KeyError) as error:
        raise Fault(f"{path} has no records: {error}") from error


def write(path: Path, records: Iterable[Record]) -> None:
    """Writes records into a file."""
    path.write_text("".join(record.line() for record in records), encoding="utf-8")


def value_of(words: Sequence[str], name: str) -> str:
    """Returns the word after this one, or nothing."""
    return next((word for before, word in zip(words, words[1:], strict=False) if before == name), "")


def can_report(words: Sequence[str], kind: Kind) -> bool:
    """Returns whether a call reports its functions one after the other."""
    return words[0] == "check" and kind in (Kind.PROOF, Kind.SEED) and value_of(words, "--jobs") in ("", "1")


def kind_of(words: Sequence[str], at: str) -> Kind:
    """Returns the purpose of a call with these words in this folder."""
    if "--crate-checked" in words:
        return Kind.BUILD
    if os.path.basename(at).startswith("rt-edit"):
        return Kind.SEED if os.path.basename(value_of(words, "--incremental")) == "seed" else Kind.EDITS
    return Kind.TESTS if "--test" in words else Kind.PROOF
