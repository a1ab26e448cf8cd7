"""Checks that what the pages refer to exists: the files of their links, and the files of crates that they name.

A page names a file of a crate as `CRATE, specs/FILE (NAME)`, src/ or proofs/ alike; the file has to contain the name.
"""
import re
import sys
from collections.abc import Iterator, Sequence
from pathlib import Path

from wfdev.harness.script import Script
from wfdev.repo import crates, generated, paths

SCRIPT = Script("links")
LINK = re.compile(r"\[[^\]\n]*\]\(([^)\s#]+)[^)]*\)")
NAMED = re.compile(r"(\w+), `?((?:specs|src|proofs)/[\w/]+)`?(?: \(([^)]*)\))?")


def dead_links(page: Path, text: str) -> Iterator[str]:
    """Yields the links of a page to files that do not exist."""
    for path in LINK.findall(text):
        if "://" not in path and not (page.parent / path).exists():
            yield f"there is no file {path}"


def dead_names(top: Path, text: str) -> Iterator[str]:
    """Yields the files of crates that a page names and that do not exist, and names that they do not contain."""
    known = crates.read(top / "crates.txt")
    for crate, name, words in NAMED.findall(text):
        if not crate.startswith("wf"):
            continue
        path = top / "crates" / crate / (name + (".rt" if name.startswith("src/") else ".antt"))
        if crate not in known or not (path.exists() or path.with_suffix("").is_dir()):
            yield f"there is no file {name} of {crate}"
        elif path.exists():
            said = paths.read(path)
            for word in re.findall(r"`(?:\w+::)?(\w+)`", words):
                if not re.search(rf"\b{word}\b", said):
                    yield f"{name} of {crate} does not contain {word}"


def pages_of(top: Path) -> list[Path]:
    """Returns the pages of a checkout."""
    folders = [top, top / "docs", top / generated.FOLDER]
    found = [page for folder in folders for page in sorted(folder.glob("*.md"))]
    return [*found, *sorted((top / "crates").glob("*/README.md")), top / "checks" / "README.md"]


def main(words: Sequence[str] | None = None) -> int:
    """Checks the pages and returns the exit status."""
    parser = SCRIPT.parser(__doc__)
    parser.add_argument("--top", type=Path, default=paths.TOP, help="another checkout than this one")
    parser.add_argument("pages", nargs="*", type=Path, metavar="PAGE", help="the pages to check (default: all)")
    asked = parser.parse_args(words)
    pages: list[Path] = asked.pages or pages_of(asked.top)
    bad = 0
    for page in pages:
        text = paths.read(page)
        for fault in [*dead_links(page, text), *dead_names(asked.top, text)]:
            bad += 1
            SCRIPT.say(f"{page.name}: {fault}")
    SCRIPT.say(f"{len(pages)} pages, {bad} faults")
    return 1 if bad else 0


if __name__ == "__main__":
    sys.exit(main())
