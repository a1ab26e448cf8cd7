"""Checks that every claim of docs/PROOFS.md and of the crates' READMEs has a place, and that every place cites what exists: crate,
file, functions, clauses.

A claim is an item of a list, and its places are the items below it, wrapped in any way:

    - claim in words
      - wf_crate, file.rt: `function`, `Type::function` ensure `clause`, `clause`: `Definition`, `Record.field`
      - wf_crate, folder/file.rt: `Type` keeps `invariant`: `Definition`
      - wf_crate, file.rt: `function`
      - wf_crate, file.rt: `function`: `Definition`

The functions are public (`name`, or `Type::name` of an impl or a trait) and in this file; a type means its invariant. A place
without a verb cites the one clause that has no name. After the verb or the colon, each word between backquotes is a clause that each of the functions has, or, with a capital letter, a definition in
some specs/ or a field of one (`Record.field`), which these clauses use, directly or not. The lists before the first heading of
the second level, and those below the headings of NO_CLAIMS, make no claims. Every crate that a page names has to exist. A README
makes claims if it has the heading "Claims".
"""
import sys
from collections.abc import Sequence
from pathlib import Path

from wfdev.checks.claims.page import with_files
from wfdev.checks.claims.tree import Result, Tree, check
from wfdev.harness.script import Script
from wfdev.repo import paths

SCRIPT = Script("claims")
CLAIMS = "## Claims"


def pages_of(top: Path) -> list[Path]:
    """Returns docs/PROOFS.md, and the READMEs of crates that have claims."""
    readmes = sorted((top / "crates").glob("*/README.md"))
    return [top / "docs" / "PROOFS.md", *(path for path in readmes if CLAIMS in paths.read(path).split("\n"))]


def claiming(path: Path) -> str:
    """Returns the text of a page in which claims are looked for: of a README from its heading on, with the lines before it empty."""
    text = paths.read(path)
    if path.name != "README.md":
        return text
    before, heading, behind = text.partition(f"{CLAIMS}\n")
    return "\n" * before.count("\n") + heading + behind


def checked(path: Path, tree: Tree, write: bool) -> Result:
    """Checks a page, after the files of the functions were written into its places if `write` is set."""
    result = check(claiming(path), tree)
    if write:
        path.write_text(with_files(paths.read(path), result.files), encoding="utf-8")
        result = check(claiming(path), tree)
    return result


def main(words: Sequence[str] | None = None) -> int:
    """Checks the pages of a checkout and returns the exit status."""
    parser = SCRIPT.parser(__doc__)
    parser.add_argument("top", nargs="?", type=Path, default=paths.TOP, help="another checkout than this one")
    parser.add_argument("--page", type=Path, help="the page (default: docs/PROOFS.md and crates/*/README.md of the checkout)")
    parser.add_argument("--write", action="store_true", help="write the files of the functions into the places")
    given = parser.parse_args(words)
    pages = [given.page] if given.page else pages_of(given.top)
    if not (given.top / "crates").is_dir() or not pages[0].is_file():
        parser.error(f"{given.top} has no crates, or there is no page {pages[0]}")
    tree = Tree(given.top)
    results = {path: checked(path, tree, given.write) for path in pages}
    for path, result in results.items():
        for fault in result.faults:
            print(f"{path.relative_to(given.top) if path.is_relative_to(given.top) else path}: {fault}")
    claims = sum(result.claims for result in results.values())
    places = sum(len(result.files) for result in results.values())
    faults = sum(len(result.faults) for result in results.values())
    SCRIPT.say(f"{claims} claims, {places} places, {faults} faults")
    return 1 if faults or not places else 0


if __name__ == "__main__":
    sys.exit(main())
