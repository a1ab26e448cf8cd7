"""The parts of docs/PROOFS.md: items of lists, claims with their places, and the citations of a place."""
import re
from dataclasses import dataclass

from wfdev.checks.claims.declared import UNNAMED

NO_CLAIMS = {"What is only tested", "What is not proved", "What is trusted"}
HEADING = re.compile(r"## (?P<name>.+)")
ITEM = re.compile(r"(?P<indent> *)- (?P<text>.+)")
PLACE = re.compile(
    r"(?P<crate>wf\w*), (?P<file>[\w/-]+\.rt): (?P<functions>`[^`]+`(?:, `[^`]+`)*)"
    r"(?: (?:ensures?|keeps) (?P<clauses>(?:`[^`]+`(?:[,:;] |$))+)|: (?P<definitions>(?:`[^`]+`(?:, |$))+)|$)"
)


@dataclass
class Item:
    """An item of a list: its first line, its indentation, and its text in one line."""

    line: int
    indent: int
    text: str


@dataclass(frozen=True)
class Claim:
    """A claim, and the items below it, which have to be its places."""

    line: int
    places: list[Item]


@dataclass(frozen=True)
class Place:
    """A place: a crate, a file of it, functions, and the clauses and definitions that it cites."""

    crate: str
    file: str
    functions: list[str]
    clauses: list[str]
    definitions: list[str]


def items_of(page: str) -> list[Item]:
    """Returns the items of the lists that make claims, in order. An item ends before the next one or an empty line."""
    found: list[Item] = []
    makes_claims = False
    last: Item | None = None
    for number, line in enumerate(page.split("\n"), 1):
        heading, begun = HEADING.fullmatch(line), ITEM.fullmatch(line)
        if heading:
            makes_claims, last = heading["name"] not in NO_CLAIMS, None
        elif makes_claims and begun:
            last = Item(number, len(begun["indent"]), begun["text"])
            found.append(last)
        elif last and line.strip():
            last.text += f" {line.strip()}"
        else:
            last = None
    return found


def claims_of(page: str) -> list[Claim]:
    """Returns the claims of a page, each with the items below it."""
    found: list[Claim] = []
    for item in items_of(page):
        if item.indent == 0 or not found:
            found.append(Claim(item.line, []))
        else:
            found[-1].places.append(item)
    return found


def coded(text: str) -> list[str]:
    """Returns the words between backquotes."""
    return re.findall(r"`([^`]+)`", text)


def place_of(text: str) -> Place | None:
    """Returns the place that an item gives, or None if it does not have the form of one."""
    found = PLACE.fullmatch(text)
    if found is None:
        return None
    words = coded(found["clauses"] or found["definitions"] or "")
    definitions = [it for it in words if it[0].isupper()]
    clauses = [it for it in words if it not in definitions]
    clauses += [] if found["clauses"] else [UNNAMED]
    return Place(found["crate"], found["file"], coded(found["functions"]), clauses, definitions)


def named_crates(page: str) -> list[str]:
    """Returns each word of the page that looks like a crate's name."""
    return sorted(set(re.findall(r"\bwf_[a-z0-9_]*[a-z0-9]\b", page)))


def with_files(page: str, files: dict[int, list[str]]) -> str:
    """Returns the page with these files in its places, by their lines. A place with several files stays unchanged."""
    lines = page.split("\n")
    for number, names in files.items():
        if len(names) == 1:
            lines[number - 1] = re.sub(r", [\w/-]+\.rt: ", f", {names[0]}: ", lines[number - 1], count=1)
    return "\n".join(lines)
