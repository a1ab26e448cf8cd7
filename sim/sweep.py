"""Sweeps: `--sweep station.slow.loss=0,0.01,0.1` runs a scenario once for each value, and several sweeps make a grid."""
from __future__ import annotations

import copy
import itertools
import tomllib
from collections.abc import Iterator, Sequence
from dataclasses import dataclass
from pathlib import Path

from .fields import Fault, Table, shown
from .reading import KINDS, from_table
from .scenario import Scenario

TABLES = ("air", "machine", "models")
GROUPS = ("station", "flow")
EXPECTED = "expected station.NAME.KEY=VALUE,.., flow.NAME.KEY=.., air.KEY=.., machine.KEY=.., models.KEY=.. or KEY=.."
MOST_POINTS = 10_000
Values = dict[str, object]


@dataclass(frozen=True)
class Sweep:
    """A key of a scenario and the values that it gets, as words."""

    table: str  # empty for the outermost
    name: str  # which station or flow
    key: str
    words: tuple[str, ...]

    @property
    def target(self) -> str:
        return ".".join(filter(None, (self.table, self.name, self.key)))


@dataclass
class Point:
    """A point of a grid: its parameters in words, and the scenario."""

    parameters: dict[str, str]
    scenario: Scenario


def split(text: str) -> list[str]:
    """The words between commas that are in no brackets and no quotes."""
    words, depth, quote = [""], 0, ""
    for one in text:
        if one == "," and not depth and not quote:
            words.append("")
            continue
        if one in "\"'":
            quote = "" if quote == one else quote or one
        elif not quote:
            depth += (one in "[{") - (one in "]}")
        words[-1] += one
    return words


def value_of(word: str) -> object:
    """A value as TOML has it; words that are no TOML are a text, so that a rate needs no quotes."""
    try:
        return tomllib.loads(f"value = {word}")["value"]
    except ValueError:
        return word


def parse(text: str) -> Sweep:
    """The sweep of a word of the command line."""
    target, equals, values = text.partition("=")
    table, _, rest = target.partition(".")
    if table in GROUPS:
        name, _, key = rest.rpartition(".")
    elif table in TABLES:
        name, key = "", rest
    else:
        table, name, key = "", "", target
    words = split(values)
    if not (equals and key and all(words)) or (table in GROUPS and not name) or (not table and "." in key):
        raise Fault(f"--sweep {shown(text)}: {EXPECTED}")
    if len(set(words)) < len(words):
        raise Fault(f"--sweep {shown(text)}: a value is given twice: expected each value once")
    return Sweep(table, name, key, tuple(words))


def parse_all(texts: Sequence[str]) -> list[Sweep]:
    """Several sweeps, each of another key."""
    sweeps = [parse(text) for text in texts]
    targets = [sweep.target for sweep in sweeps]
    for target in targets:
        if targets.count(target) > 1:
            raise Fault(f"--sweep {target}: two sweeps have this key: expected each key once")
    return sweeps


def tables_of(values: Values, kind: str) -> list[Values]:
    """The tables of stations or of flows; other values are left out."""
    found = values.get(kind)
    return [one for one in found if isinstance(one, dict)] if isinstance(found, list) else []


def named(values: Values, kind: str) -> Iterator[tuple[set[object], Values]]:
    """Each station or flow, with the names by which a sweep may call it."""
    number = 0
    for table in tables_of(values, kind):
        if kind == "station":
            yield {table.get("name", f"station {number}")}, table
            count = table.get("count", 1)
            number += count if isinstance(count, int) else 1
        else:
            name = table.get("name", next((key for key in KINDS if key in table), ""))
            yield {name, f"{name} to {table.get('station')}"}, table


def place(values: Values, sweep: Sweep, word: str) -> None:
    """Sets a key of a scenario's tables."""
    if sweep.table in GROUPS:
        found = [table for names, table in named(values, sweep.table) if sweep.name in names]
        if not found:
            raise Fault(f"--sweep {sweep.target}: this scenario has no {sweep.table} of the name {shown(sweep.name)}")
    else:
        inner = values.setdefault(sweep.table, {}) if sweep.table else values
        found = [inner] if isinstance(inner, dict) else []
    for table in found:
        table[sweep.key] = value_of(word)


def points(file: str, values: Values, sweeps: Sequence[Sweep]) -> list[Point]:
    """All points of the grid of these sweeps, the last sweep's values changing first."""
    grid = list(itertools.islice(itertools.product(*(sweep.words for sweep in sweeps)), MOST_POINTS + 1))
    if len(grid) > MOST_POINTS:
        raise Fault(f"--sweep: the grid has more than {MOST_POINTS} points: expected fewer")
    made = []
    for words in grid:
        changed = copy.deepcopy(values)
        for sweep, word in zip(sweeps, words):
            place(changed, sweep, word)
        parameters = {sweep.target: word for sweep, word in zip(sweeps, words)}
        try:
            made.append(Point(parameters, from_table(Table(file, "", changed), Path(file).name.removesuffix(".toml"))))
        except Fault as fault:
            said = " ".join(f"{target}={word}" for target, word in parameters.items())
            raise Fault(f"--sweep {said}: {fault}" if said else str(fault)) from None
    return made
