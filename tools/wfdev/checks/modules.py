"""Lists the proof modules that are made for other crates: those that a crate's proofs/Lib declares `pub`.

All other modules are private, and no other crate's proof can import them.

  checks/modules            prints the body of docs/generated/proof-modules.md
  checks/modules --write    writes that page
  checks/modules --check    reports whether the page is up to date, which module has no comment at its head, and which module
                            no other crate uses
"""
import re
import sys
import textwrap
from collections.abc import Iterable, Iterator, Sequence
from dataclasses import dataclass
from pathlib import Path

from wfdev.checks.counters import LOOK_IN, WIDE
from wfdev.harness.script import Script
from wfdev.repo import crates, generated, paths

SCRIPT = Script("modules")
# Modules that are public before another crate imports them.
EARLY = {
    ("wf_def_world", "Unserved"),
    ("wf_law_driver", "Shown"),
    ("wf_send_half", "Times"),
}


@dataclass(frozen=True)
class Module:
    """A public module of a crate's proofs, and the first sentence of the comment at its head."""

    crate: str
    name: str
    about: str

    def item(self) -> str:
        """Returns the module as an item of the list, wrapped."""
        text = f"- {self.crate}, proofs/{self.name}: {self.about}"
        lines = textwrap.wrap(text, WIDE, subsequent_indent="  ", break_long_words=False, break_on_hyphens=False)
        return "".join(f"{line}\n" for line in lines)


def public(top: Path, crate: str) -> list[str]:
    """Returns the names of the public modules of a crate's proofs, sorted."""
    listed = top / "crates" / crate / "proofs" / "Lib.antt"
    text = paths.read(listed) if listed.exists() else ""
    return sorted(re.findall(r"^pub mod (\w+)$", text, re.M))


def first_sentence(path: Path) -> str:
    """Returns the first sentence of the comment at the head of a file, or nothing."""
    said: list[str] = []
    for line in paths.read(path).splitlines():
        if not line.startswith("--"):
            break
        said.append(line.lstrip("- "))
    first = re.match(r"(.*?)[.:](?:\s|$)", " ".join(said) + " ")
    return first[1].strip() if first else " ".join(said).strip()


def described(top: Path) -> list[Module]:
    """Returns all public modules, in the order of crates.txt."""
    return [
        Module(crate, name, first_sentence(top / "crates" / crate / "proofs" / f"{name}.antt"))
        for crate in crates.read(top / "crates.txt")
        for name in public(top, crate)
    ]


def body(found: Iterable[Module]) -> str:
    """Returns the body of the page."""
    return "".join(module.item() for module in found)


def imported(top: Path) -> set[tuple[str, str]]:
    """Returns the proof modules that other crates import: the crate and the module's name."""
    used: set[tuple[str, str]] = set()
    for path in (top / "crates").rglob("*"):
        if path.suffix in crates.SUFFIXES:
            crate = path.relative_to(top).parts[1]
            for line in paths.read(path).splitlines():
                found = LOOK_IN.match(line)
                if found and found[1] != crate:
                    used.add((found[1], found[2].split(".")[0]))
    return used


def faults(top: Path, found: Sequence[Module]) -> Iterator[str]:
    """Yields the faults of the modules and of the page."""
    used = imported(top)
    for module in found:
        if not module.about:
            yield f"{module.crate}, proofs/{module.name}: add a comment at its head that says what it has"
        if (module.crate, module.name) not in used | EARLY:
            yield f"{module.crate}, proofs/{module.name}: no other crate uses it, so it need not be public"
    page = generated.MODULES
    if page.read(top) != page.text(body(found)):
        yield f"{generated.FOLDER / page.name} is out of date: run {page.command}"


def main(words: Sequence[str] | None = None) -> int:
    """Prints, writes or checks the page, and returns the exit status."""
    parser = SCRIPT.parser(__doc__)
    parser.add_argument("--top", type=Path, default=paths.TOP, help="another checkout than this one")
    parser.add_argument("--write", action="store_true", help="write the page")
    parser.add_argument("--check", action="store_true", help="report what is wrong")
    asked = parser.parse_args(words)
    found = described(asked.top)
    if asked.write:
        generated.MODULES.write(body(found), asked.top)
        SCRIPT.say(f"wrote {generated.MODULES.path(asked.top)}")
    elif asked.check:
        bad = list(faults(asked.top, found))
        for line in bad:
            SCRIPT.say(line)
        SCRIPT.say(f"{len(found)} modules for other crates, {len(bad)} faults")
        return 1 if bad else 0
    else:
        print(body(found), end="")
    return 0


if __name__ == "__main__":
    sys.exit(main())
