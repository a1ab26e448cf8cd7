"""The declarations of the crates: public functions with their clauses, types with an invariant, and definitions."""
import re
from collections.abc import Iterable, Mapping, Sequence
from dataclasses import dataclass, field
from pathlib import Path

from wfdev.repo import paths

FUNCTION = re.compile(r"^(\s*)(?P<before>(?:pub(?:\([a-z]+\))? |const |unsafe |extern \"C\" )*)fn (\w+)")
BLOCK = re.compile(r"^(?:pub )?(?:unsafe )?(?P<kind>impl|trait)\b(?P<rest>.*)")
CLAUSE = re.compile(r"^\s*ensures\*?(?: (\w+))? \{")
REQUIRED = re.compile(r"^\s*requires\b")
INVARIANT = re.compile(r"^\s*ghost invariant = ")
DEFINITION = re.compile(r"^\s*(?:(?:abbrev|unfoldable) pub|pub (?:record|data)) (\w+)")
FIELD = re.compile(r"^\s+pub (\w+) :")
UNNAMED = ""


@dataclass(frozen=True)
class Function:
    """A public function, or a type with an invariant: its file, and the text of each clause by the clause's name."""

    name: str
    file: str
    clauses: Mapping[str, str]


@dataclass
class Definition:
    """The definition that specs/ have under a name: its fields, and its words."""

    fields: set[str] = field(default_factory=set)
    words: set[str] = field(default_factory=set)


def type_of(rest: str) -> str:
    """Returns the type that an impl belongs to, or a trait's name, from the text after the keyword."""
    depth, plain = 0, ""
    for letter in rest:
        depth += {"<": 1, ">": -1}.get(letter, 0)
        plain += letter if depth == 0 and letter != ">" else ""
    plain = re.split(r" where |[{:]", plain)[0].strip()
    return plain.rpartition(" for ")[2].strip()


def header_of(lines: Sequence[str], at: int, indent: int) -> list[str]:
    """Returns the lines of a function's head, from its `fn` to its body, or to the `;` of a trait's function."""
    head: list[str] = []
    for line in lines[at:]:
        is_next = re.match(rf"^\s{{0,{indent}}}\S", line) and not re.match(rf"^\s{{{indent}}}[)w]", line)
        if head and (FUNCTION.match(line) or is_next):
            break
        head.append(line)
        if len(head) == 1 and line.rstrip().endswith(("{", "}", ";")):
            break
    return head


def clauses_of(head: Iterable[str]) -> dict[str, str]:
    """Returns the clauses that a function's head ensures, by their names."""
    found: dict[str, list[str]] = {}
    text: list[str] | None = None
    for line in head:
        begun = CLAUSE.match(line)
        if begun:
            text = found.setdefault(begun[1] or UNNAMED, [])
        elif REQUIRED.match(line):
            text = None
        if text is not None:
            text.append(line)
    return {name: "\n".join(lines) for name, lines in found.items()}


def functions_of(text: str, file: str) -> list[Function]:
    """Returns each public function of a source, and each type that has an invariant."""
    lines, block, is_shared = text.split("\n"), "", False
    found: list[Function] = []
    for at, line in enumerate(lines):
        opened, made = BLOCK.match(line), FUNCTION.match(line)
        if opened:
            block, is_shared = type_of(opened["rest"]), opened["kind"] == "trait" or " for " in opened["rest"]
        elif line == "}":
            block = ""
        elif INVARIANT.match(line) and block:
            found.append(Function(block, file, {"invariant": "\n".join(lines[at : lines.index("}", at)])}))
        if made and (made["before"].startswith("pub ") or (block and is_shared)):
            name = f"{block}::{made[3]}" if block and made[1] else made[3]
            found.append(Function(name, file, clauses_of(header_of(lines, at, len(made[1])))))
    return found


def sources_of(crate: Path) -> list[Function]:
    """Returns the functions of a crate."""
    found: list[Function] = []
    for path in sorted((crate / "src").rglob("*.rt")):
        found += functions_of(paths.read(path), path.relative_to(crate / "src").as_posix())
    return found


def words_of(text: str) -> set[str]:
    """Returns the names in a text, without those of comments."""
    return set(re.findall(r"[^\W\d]\w*", re.sub(r"(?m)(--|//).*$", "", text)))


def definitions_of(top: Path) -> dict[str, Definition]:
    """Returns the definitions in specs/ of all crates, by their names; those with one name are joined."""
    found: dict[str, Definition] = {}
    for path in sorted(top.glob("crates/*/specs/**/*.antt")):
        current = Definition()
        for line in paths.read(path).split("\n"):
            name, record_field = DEFINITION.match(line), FIELD.match(line)
            current = found.setdefault(name[1], Definition()) if name else current
            current.fields |= {record_field[1]} if record_field else set()
            current.words |= words_of(line)
    return found


def reached(texts: Iterable[str], definitions: Mapping[str, Definition]) -> set[str]:
    """Returns the names of all definitions that these texts use, directly or not."""
    seen: set[str] = set()
    left = [word for text in texts for word in words_of(text)]
    while left:
        word = left.pop()
        if word in definitions and word not in seen:
            seen.add(word)
            left += definitions[word].words
    return seen
