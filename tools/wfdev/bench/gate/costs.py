"""The costs of a run of the gate, by its records, and their tables."""
import json
from collections import defaultdict
from collections.abc import Collection, Iterable, Iterator, Mapping, Sequence
from dataclasses import asdict, dataclass, field
from pathlib import Path

from wfdev.bench.gate.records import COLUMN_OF, Checked, Column, Fault, Kind, Record


@dataclass
class CrateCosts:
    """The processor seconds of a crate by column, and how many edits were tried."""

    seconds: dict[Column, float] = field(default_factory=lambda: dict.fromkeys(Column, 0.0))
    tried: int = 0

    @property
    def sum(self) -> float:
        """All seconds."""
        return sum(self.seconds.values())

    def kept(self) -> dict[str, float]:
        """Returns the costs as they are kept in a file."""
        return {**{column.value: seconds for column, seconds in self.seconds.items()}, "tried": self.tried}


@dataclass(frozen=True)
class FunctionCost:
    """A function, and its processor seconds, with those of the lemmas that are checked between the function before it and it."""

    seconds: float
    crate: str
    name: str


@dataclass(frozen=True)
class About:
    """A run: the crates that were given, the commit, the kit, the seconds by the clock, and the lines of each crate."""

    names: list[str]
    commit: str
    kit: str
    wall: float | None = None
    processors: int | None = None
    lines: dict[str, int] = field(default_factory=dict)


@dataclass(frozen=True)
class Figures:
    """All that is kept of a run."""

    about: About
    crates: dict[str, CrateCosts]
    functions: list[FunctionCost]

    def text(self) -> str:
        """Returns the figures as they are kept in a file."""
        crates = {name: it.kept() for name, it in self.crates.items()}
        functions = [{**asdict(it), "seconds": round(it.seconds, 1)} for it in self.functions]
        return json.dumps({**asdict(self.about), "crates": crates, "functions": functions}, indent=1) + "\n"


def read(path: Path) -> Figures:
    """Returns the figures that a file keeps."""
    kept = json.loads(path.read_text(encoding="utf-8"))
    about = About(kept["names"], kept["commit"], kept["kit"], kept.get("wall"), kept.get("processors"), kept["lines"])
    crates = {name: CrateCosts({column: it[column.value] for column in Column}, it["tried"]) for name, it in kept["crates"].items()}
    return Figures(about, crates, [FunctionCost(it["seconds"], it["crate"], it["name"]) for it in kept["functions"]])


def of_crates(records: Iterable[Record]) -> dict[str, CrateCosts]:
    """Returns the costs of each crate."""
    found: dict[str, CrateCosts] = defaultdict(CrateCosts)
    for record in records:
        found[record.crate].seconds[COLUMN_OF[record.kind]] += record.seconds
        found[record.crate].tried += record.kind is Kind.EDITS
    return dict(found)


def spans(functions: Sequence[Checked], start: float) -> Iterator[tuple[str, float]]:
    """Yields the seconds of each function: those used up at its line less those at the line before, or `start`."""
    before = start
    for function in functions:
        yield function.name, max(0.0, function.used - before)
        before = function.used


def start_of(checks: Iterable[Record]) -> float:
    """Returns what a check takes to begin: the seconds of one that found everything kept, or 0 if there was none."""
    return min((record.seconds for record in checks if not record.functions), default=0.0)


def of_functions(records: Iterable[Record]) -> list[FunctionCost]:
    """Returns the costs of each function, by the check that reported most functions of its crate."""
    reported: dict[str, list[Record]] = defaultdict(list)
    for record in records:
        if record.reports_functions:
            reported[record.crate].append(record)
    found: dict[tuple[str, str], float] = defaultdict(float)
    for crate, checks in reported.items():
        most = max(checks, key=lambda it: len(it.functions or ()))
        for name, seconds in spans(most.functions or (), start_of(checks)):
            found[crate, name] += seconds
    return [FunctionCost(seconds, crate, name) for (crate, name), seconds in found.items()]


def costliest(functions: Iterable[FunctionCost], count: int) -> list[FunctionCost]:
    """Returns this many functions, the most expensive first."""
    return sorted(functions, key=lambda it: (it.seconds, it.crate, it.name), reverse=True)[:count]


def unreported(records: Sequence[Record], count: int, left_out: Collection[str] = ()) -> Record | None:
    """Returns the proof of the costliest crate whose functions no check has reported, if one may be among the costliest functions."""
    functions = of_functions(records)
    known = {*left_out, *(it.crate for it in functions)}
    last = costliest(functions, count)[count - 1 :]
    least = last[0].seconds if last else 0.0
    proofs = [it for it in records if it.kind is Kind.PROOF and it.crate not in known and it.status == 0 and it.seconds > least]
    return max(proofs, key=lambda it: it.seconds) if proofs else None


def some_unreported(records: Sequence[Record], count: int, left_out: Collection[str], most: int) -> list[Record]:
    """Returns at most this many of these proofs, the costliest first."""
    found: list[Record] = []
    while len(found) < most:
        record = unreported(records, count, {*left_out, *(it.crate for it in found)})
        if record is None:
            break
        found.append(record)
    return found


def figures(records: Sequence[Record], count: int, about: About) -> Figures:
    """Returns all that is kept of a run, with this many functions."""
    return Figures(about, of_crates(records), costliest(of_functions(records), count))


def seconds_of(records: Iterable[Record], names: Iterable[str]) -> str:
    """Returns a line with the seconds of each of these crates that has some: of proof, tests and edits together."""
    crates = of_crates(records)
    return "".join(f"{name} {crates[name].sum:.0f}\n" for name in names if name in crates)


def row(*cells: object) -> str:
    """Returns a row of a table."""
    return f"| {' | '.join(map(str, cells))} |"


def by_the_clock(about: About) -> str:
    """Returns how long a run took by the clock, and on how many processors, if that is known."""
    return "" if about.wall is None else f", and {about.wall / 60:,.0f} by the clock on {about.processors} processors"


def summary(kept: Figures) -> Iterator[str]:
    """Yields the lines above the tables."""
    crates: Mapping[str, CrateCosts] = kept.crates
    sums = {column: sum(crate.seconds[column] for crate in crates.values()) for column in Column}
    tried = sum(crate.tried for crate in crates.values())
    command = " ".join(["rt ci --anew", *kept.about.names])
    yield f"Processor seconds of `{command}`, by `bench/gate`, at {kept.about.commit}, with {kept.about.kit}:"
    parts = f"proofs {sums[Column.PROOF]:,.0f}, tests {sums[Column.TESTS]:,.0f}, {tried} tries of must-fail edits {sums[Column.EDITS]:,.0f}"
    yield f"{parts}; together {sum(sums.values()) / 60:,.0f} minutes{by_the_clock(kept.about)}."


def table(kept: Figures) -> str:
    """Returns the costs of a run, in Markdown."""
    if not kept.crates:
        raise Fault("the run left no record of a crate")
    lines = [*summary(kept), "", row("Crate", "Lines", "Proof", "Tests", "Edits", "All"), "|---|--:|--:|--:|--:|--:|"]
    for name, crate in sorted(kept.crates.items(), key=lambda it: -it[1].sum):
        each = [f"{crate.seconds[column]:.0f}" for column in Column]
        lines.append(row(name, kept.about.lines.get(name, ""), *each, f"{crate.sum:.0f}"))
    head = f"The {len(kept.functions)} most expensive functions, each with the lemmas that are checked between the function before it"
    lines += ["", f"{head} and it:", "", row("Function", "Seconds"), "|---|--:|"]
    lines += [row(f"`{it.name}`", f"{it.seconds:.0f}") for it in kept.functions]
    return "\n".join(lines) + "\n"
