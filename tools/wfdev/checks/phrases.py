"""Counts odd phrases in prose: pages, comments, doc comments and the help. The list of phrases is checks/style.d/phrases.toml.

A low count does not make prose plain, but plain prose has a low count.
"""
import ast
import enum
import re
import subprocess
import tomllib
from collections.abc import Iterator, Mapping, Sequence
from dataclasses import dataclass, field
from pathlib import Path

from wfdev.checks import python_files
from wfdev.repo import paths

LIST = paths.CHECKS / "style.d" / "phrases.toml"
HELP = Path("crates/wf_run/src/help/texts.rt")
C_SUFFIXES = (".h", ".c", ".hpp", ".cc", ".cpp")
C_COMMENT = re.compile(r"/\*([\s\S]*?)\*/|//([^\n]*)")
CODE_SPAN = re.compile(r"`[^`\n]*`")


class Kind(enum.Enum):
    """The kinds of files that have prose."""

    PAGES = "pages"
    CODE = "code"
    PROOFS = "proofs"
    C = "c"
    SCRIPTS = "scripts"
    HELP = "help"


@dataclass(frozen=True)
class Phrase:
    """A phrase that plain prose does not have, and what to write instead."""

    pattern: re.Pattern[str]
    plain: str


@dataclass
class Tally:
    """The words of a kind of file, and the places of the odd phrases in them."""

    words: int = 0
    places: list[str] = field(default_factory=list)

    @property
    def rate(self) -> float:
        """The odd phrases per 1,000 words."""
        return round(1000 * len(self.places) / max(1, self.words), 1)


def listed(path: Path = LIST) -> list[Phrase]:
    """Reads the list of phrases. A space in a pattern matches any white space."""
    rows = tomllib.loads(paths.read(path))["phrase"]
    return [Phrase(re.compile(spread(row["pattern"]), re.I | re.M), row["plain"]) for row in rows]


def spread(pattern: str) -> str:
    """Returns a pattern in which a space matches any white space; in a lookbehind, which has a fixed width, one character of it."""
    parts = re.split(r"(\(\?<=[^)]*\))", pattern)
    return "".join(part.replace(" ", r"\s") if part.startswith("(?<=") else part.replace(" ", r"\s+") for part in parts)


def kind_of(path: Path) -> Kind | None:
    """Returns the kind of a file, or None if its prose is not counted. The path is relative to the checkout."""
    if path == HELP:
        return Kind.HELP
    by_suffix = {".md": Kind.PAGES, ".rt": Kind.CODE, ".antt": Kind.PROOFS, ".py": Kind.SCRIPTS, ".sh": Kind.SCRIPTS}
    by_suffix |= dict.fromkeys(C_SUFFIXES, Kind.C)
    return by_suffix.get(path.suffix) if path.suffix else Kind.SCRIPTS


def only(text: str, kept: Mapping[int, str]) -> str:
    """Returns these lines of a text, by their numbers, and an empty line for each other one."""
    return "\n".join(kept.get(number, "") for number in range(1, text.count("\n") + 2))


def of_page(text: str) -> str:
    """Returns a page without its blocks of code and its tables."""
    text = re.sub(r"^```.*?^```", lambda block: "\n" * block[0].count("\n"), text, flags=re.M | re.S)
    return re.sub(r"^\|.*$|^<!--.*?-->$", "", text, flags=re.M)


def of_lines(text: str, mark: str) -> str:
    """Returns the lines that are comments after this mark."""
    found = ((number, re.match(rf"\s*{mark}(?![!]/)[/!]?\s?(.*)", line)) for number, line in enumerate(text.split("\n"), 1))
    return only(text, {number: line[1] for number, line in found if line})


def of_c(text: str) -> str:
    """Returns the comments of a source in C or C++."""
    kept: dict[int, str] = {}
    for comment in C_COMMENT.finditer(text):
        number = text.count("\n", 0, comment.start()) + 1
        for more, line in enumerate((comment[1] or comment[2] or "").split("\n")):
            kept[number + more] = f"{kept.get(number + more, '')} {line.strip().lstrip('*')}".strip()
    return only(text, kept)


def of_python(text: str) -> str:
    """Returns the comments and doc comments of a module or a script of Python."""
    kept = {number: line.strip()[1:] for number, line in enumerate(text.split("\n"), 1) if re.match(r"\s*#(?!!)", line)}
    documented = (ast.Module, ast.ClassDef, ast.FunctionDef, ast.AsyncFunctionDef)
    for node in ast.walk(ast.parse(text)):
        if isinstance(node, documented) and ast.get_docstring(node, clean=False) is not None:
            first = node.body[0]
            for number in range(first.lineno, (first.end_lineno or first.lineno) + 1):
                kept[number] = text.split("\n")[number - 1].replace('"""', "").strip()
    return only(text, kept)


def of_help(text: str) -> str:
    """Returns the texts of the help, which are strings of several lines."""
    kept: dict[int, str] = {}
    for string in re.finditer(r'"(.*?)^";$', text, re.M | re.S):
        number = text.count("\n", 0, string.start()) + 1
        kept |= {number + more: line for more, line in enumerate(string[1].split("\n"))}
    return only(text, kept)


def prose(path: Path, text: str) -> str:
    """Returns the prose of a file, each line in its place; names between backquotes count as one word."""
    kind = kind_of(path)
    if kind is Kind.SCRIPTS:
        said = of_python(text) if text.startswith(python_files.FIRST_LINE) or path.suffix == ".py" else of_lines(text, "#")
    elif kind is Kind.PAGES:
        said = of_page(text)
    elif kind is Kind.HELP:
        said = of_help(text)
    elif kind is Kind.C:
        said = of_c(text)
    else:
        said = of_lines(text, "//" if kind is Kind.CODE else "--")
    return CODE_SPAN.sub("X", said)


def without_blanks(text: str) -> tuple[str, list[int]]:
    """Returns a text with at most one empty line between others, and the number that each line had."""
    numbers = [number for number, line in enumerate(text.split("\n"), 1) if line.strip()]
    kept = sorted({*numbers, *(number + 1 for number in numbers)})
    lines = text.split("\n")
    return "\n".join(lines[number - 1] for number in kept if number <= len(lines)), kept


def odd_in(text: str, phrases: Sequence[Phrase]) -> Iterator[tuple[int, str]]:
    """Yields the line of each odd phrase, with the phrase and what to write instead."""
    short, numbers = without_blanks(text)
    for phrase in phrases:
        for found in phrase.pattern.finditer(short):
            yield numbers[short.count("\n", 0, found.start())], f"'{' '.join(found[0].split())}': {phrase.plain}"


def tracked(top: Path) -> Iterator[Path]:
    """Yields the files of the repository that may have prose: those with a known suffix, and scripts."""
    words = ["git", "ls-files", "--cached", "--others", "--exclude-standard"]
    listed_files = subprocess.run(words, cwd=top, capture_output=True, text=True, check=True).stdout.splitlines()
    for path in map(Path, sorted(listed_files)):
        if (top / path).is_file() and (path.suffix or (top / path).read_bytes()[:2] == b"#!"):
            yield path


def tallies(top: Path = paths.TOP, phrases: Sequence[Phrase] | None = None) -> dict[Kind, Tally]:
    """Returns the words and odd phrases of each kind of file."""
    wanted = listed() if phrases is None else phrases
    found = {kind: Tally() for kind in Kind}
    for path in tracked(top):
        kind = kind_of(path)
        if kind is not None:
            text = prose(path, paths.read(top / path))
            found[kind].words += len(text.split())
            found[kind].places += [f"{path}:{line}: {what}" for line, what in sorted(odd_in(text, wanted))]
    return found
