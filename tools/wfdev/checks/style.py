"""Counts what a reader of the sources sees and the formatter leaves, and compares with the counts of checks/style.counts.

  checks/style                prints the counts; fails if one has grown, and names the places
  checks/style --list NAME    prints all places of one count
  checks/style --write        writes the counts that fell; with --more also those that grew
  checks/style --brief        prints only the counts that have grown

A count may only fall.
"""
import functools
import sys
from collections.abc import Callable, Iterator, Mapping, Sequence
from dataclasses import dataclass
from pathlib import Path

from wfdev.checks import counters, phrases, python_files
from wfdev.harness.script import Script
from wfdev.repo import generated, paths, sources

SCRIPT = Script("style")
COUNTS = paths.CHECKS / "style.counts"
SHOWN = 20


@dataclass(frozen=True)
class Found:
    """A count as it is now, and its places."""

    value: float
    places: list[str]


@dataclass(frozen=True)
class Counter:
    """A count: its name, what it counts, and how."""

    name: str
    about: str
    count: Callable[[], Found]


@dataclass(frozen=True)
class Verdict:
    """How a count compares with the one that is written down."""

    name: str
    line: str
    has_grown: bool


@functools.cache
def corpus() -> counters.Corpus:
    """Returns the sources of the crates."""
    return counters.Corpus(list(sources.read()), counters.modules_for_others(generated.MODULES.read()))


@functools.cache
def tallies() -> dict[phrases.Kind, phrases.Tally]:
    """Returns the odd phrases of each kind of file."""
    return phrases.tallies()


def number_of(places: Iterator[str]) -> Found:
    """Returns the count of places."""
    found = list(places)
    return Found(len(found), found)


def of_sources(counter: Callable[[counters.Corpus], Iterator[str]]) -> Counter:
    """Returns the count of a counter of sources."""
    return Counter(counter.__name__, counter.__doc__ or "", lambda: number_of(counter(corpus())))


def of_phrases(kind: phrases.Kind) -> Counter:
    """Returns the rate of odd phrases in a kind of file."""
    about = f"Odd phrases per 1,000 words of prose: {kind.value} (checks/style.d/phrases.toml)."
    return Counter(f"odd_phrases_in_{kind.value}", about, lambda: Found(tallies()[kind].rate, tallies()[kind].places))


ALL = [
    *map(of_sources, counters.ALL),
    Counter(
        python_files.unannotated_functions.__name__,
        python_files.unannotated_functions.__doc__ or "",
        lambda: number_of(python_files.unannotated_functions()),
    ),
    *map(of_phrases, phrases.Kind),
]


def parse(text: str) -> dict[str, float]:
    """Returns the counts of a file of lines `NAME COUNT`."""
    return {name: float(count) for name, count in (line.split() for line in text.splitlines() if line.strip())}


def read(path: Path = COUNTS) -> dict[str, float]:
    """Returns the counts that are written down."""
    return parse(paths.read(path)) if path.exists() else {}


def judge(found: Mapping[str, Found], allowed: Mapping[str, float]) -> Iterator[Verdict]:
    """Yields how each count compares."""
    for name, now in found.items():
        most = allowed.get(name, 0)
        if now.value > most:
            yield Verdict(name, f"{now.value:g}, more than {most:g}", True)
        elif now.value < most:
            yield Verdict(name, f"{now.value:g}, fewer than {most:g}: write it down with checks/style --write", False)
        else:
            yield Verdict(name, f"{most:g}", False)


def write(found: Mapping[str, Found], allowed: Mapping[str, float], more: bool) -> None:
    """Writes the counts: the lower of both, or those that were found."""
    kept = {name: now.value if more else min(now.value, allowed.get(name, now.value)) for name, now in found.items()}
    COUNTS.write_text("".join(f"{name} {value:g}\n" for name, value in kept.items()), encoding="utf-8")


def report(found: Mapping[str, Found], allowed: Mapping[str, float], brief: bool) -> int:
    """Prints how each count compares, and returns the exit status."""
    grown = 0
    for verdict in judge(found, allowed):
        if verdict.has_grown or not brief:
            SCRIPT.say(f"{verdict.name}: {verdict.line}")
        if verdict.has_grown:
            grown += 1
            print("".join(f"    {place}\n" for place in found[verdict.name].places[:SHOWN]), end="")
            print(f"    all of them: checks/style --list {verdict.name}")
    SCRIPT.say(f"{grown} counts have grown")
    return 1 if grown else 0


def main(words: Sequence[str] | None = None) -> int:
    """Counts, compares, and returns the exit status."""
    parser = SCRIPT.parser(__doc__)
    parser.epilog = "counts:\n" + "\n".join(f"  {one.name:24} {one.about}" for one in ALL)
    parser.add_argument("--list", metavar="NAME", choices=[one.name for one in ALL], help="print all places of a count")
    parser.add_argument("--write", action="store_true", help="write the counts that fell")
    parser.add_argument("--more", action="store_true", help="with --write: also those that grew")
    parser.add_argument("--brief", action="store_true", help="print only the counts that have grown")
    asked = parser.parse_args(words)
    found = {one.name: one.count() for one in ALL if asked.list in (None, one.name)}
    if asked.list:
        print("\n".join(found[asked.list].places))
        return 0
    if asked.write:
        write(found, read(), asked.more)
    return report(found, read(), asked.brief)


if __name__ == "__main__":
    sys.exit(main())
