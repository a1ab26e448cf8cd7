"""Compares the claims of a page with the crates of a checkout."""
from collections.abc import Sequence
from dataclasses import dataclass, field
from pathlib import Path

from wfdev.checks.claims import declared
from wfdev.checks.claims.page import Item, Place, claims_of, named_crates, place_of


@dataclass
class Result:
    """The findings on a page: faults, the number of claims, and the files of each place by its line."""

    faults: list[str] = field(default_factory=list)
    claims: int = 0
    files: dict[int, list[str]] = field(default_factory=dict)


def lack(place: Place, name: str, same: Sequence[declared.Function]) -> str:
    """Returns the fault of a function of a place if none of the crate's functions of this name fits."""
    if not same:
        return f"{place.crate} has no public function {name}"
    known = {clause for one in same for clause in one.clauses}
    missing = sorted(set(place.clauses) - known)
    return f"{name} of {place.crate} has no clause {', '.join(it or '(unnamed)' for it in missing)}"


class Tree:
    """The crates of a checkout."""

    def __init__(self, top: Path) -> None:
        self.top = top
        self.known: dict[str, list[declared.Function] | None] = {}
        self.definitions = declared.definitions_of(top)

    def functions(self, crate: str) -> list[declared.Function] | None:
        """Returns the functions of a crate, or None if it does not exist."""
        if crate not in self.known:
            folder = self.top / "crates" / crate
            self.known[crate] = declared.sources_of(folder) if (folder / "src").is_dir() else None
        return self.known[crate]

    def wrong_definition(self, word: str, texts: Sequence[str]) -> list[str]:
        """Returns the faults of a cited definition or field, by the texts of the cited clauses."""
        name, _, record_field = word.partition(".")
        if name not in self.definitions or (record_field and record_field not in self.definitions[name].fields):
            return [f"there is no definition {word}"]
        if texts and name not in declared.reached(texts, self.definitions):
            return [f"its clauses do not use {name}"]
        return []

    def faults(self, place: Place) -> tuple[list[str], list[str]]:
        """Returns what a place cites that does not exist, and the files that its functions are in."""
        known = self.functions(place.crate)
        if known is None:
            return [f"there is no crate {place.crate}"], []
        faults = [] if place.clauses else ["it cites no clause"]
        meant: list[declared.Function] = []
        for name in place.functions:
            same = [it for it in known if it.name == name]
            fitting = [it for it in same if it.clauses.keys() >= set(place.clauses)]
            if fitting:
                meant.append(min(fitting, key=lambda it: it.file != place.file))
            else:
                faults.append(lack(place, name, same))
        texts = [it.clauses[clause] for it in meant for clause in place.clauses]
        faults += [fault for it in place.definitions for fault in self.wrong_definition(it, texts)]
        return faults, sorted({it.file for it in meant})

    def unknown_names(self, page: str) -> list[str]:
        """Returns the words of the page that look like a crate's name, and are neither a crate nor a function for C."""
        exported = {it.name for it in self.functions("wf_c") or []}
        return [it for it in named_crates(page) if self.functions(it) is None and it not in exported]


def look_at_place(item: Item, tree: Tree, result: Result) -> list[str]:
    """Returns the faults of a place, and notes its files."""
    place = place_of(item.text)
    if place is None:
        return [f"not the form of a place (see checks/claims --help): {item.text}"]
    wrong, files = tree.faults(place)
    result.files[item.line] = files
    if not wrong and files != [place.file]:
        return [f"it names {place.file}, but its functions are in {', '.join(files)}"]
    return wrong


def check(page: str, tree: Tree) -> Result:
    """Returns the faults of a page, line by line."""
    result, claims = Result(), claims_of(page)
    result.claims = len(claims)
    result.faults = [f"line {it.line}: a claim without a place" for it in claims if not it.places]
    for item in (it for claim in claims for it in claim.places):
        result.faults += [f"line {item.line}: {it}" for it in look_at_place(item, tree, result)]
    result.faults += [f"there is no crate {it}" for it in tree.unknown_names(page)]
    return result
