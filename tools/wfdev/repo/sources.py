"""Reads the sources of crates as text: lines, imports, functions, and which lines are tests."""
import re
from collections.abc import Collection, Iterable, Iterator, Mapping, Sequence
from dataclasses import dataclass
from functools import cached_property
from pathlib import Path

from wfdev.repo import paths

IMPORT = re.compile(r"\s*(?:pub\s+)?(?:ghost\s+)?use\s")
COMMENT = {".rt": "//", ".antt": "--"}
# A name has letters and digits; in a proof also hyphens.
WORD = re.compile(r"[\w'₀-₉]+(?:-[\w'₀-₉]+)*")
# An import names an operator by its symbols, with this mark for each operand.
HOLE = "◌"
TEST_MARK = re.compile(r"(\s*)#\[(?:cfg\(test\)|test)\]")
FUNCTION = re.compile(r"(\s*)(?:pub(?:\([a-z]+\))? )?(?:const )?(?:unsafe )?(?:extern \"C\" )?fn (\w+)")
NO_BODY = re.compile(r"\s*(?:pub.*)?fn \w|\s*#\[|\s*///")


@dataclass(frozen=True)
class Function:
    """A function of code: its name, its first line, and how many lines its body has."""

    name: str
    line: int
    body: int


@dataclass(frozen=True)
class Source:
    """A file of a crate. Its path is relative to the checkout."""

    crate: str
    path: Path
    text: str
    is_test: bool = False

    @property
    def kind(self) -> str:
        """The suffix: .rt for code, .antt for definitions and proofs."""
        return self.path.suffix

    @cached_property
    def lines(self) -> list[str]:
        """The lines of the file."""
        return self.text.splitlines()

    @cached_property
    def tests(self) -> Collection[int]:
        """The numbers of the lines that belong to tests."""
        if self.is_test:
            return range(1, len(self.lines) + 1)
        found: set[int] = set()
        for place, line in enumerate(self.lines):
            marked = TEST_MARK.match(line)
            if marked:
                is_one_line = self.lines[place + 1 : place + 2] and self.lines[place + 1].endswith(";")
                end = place + 1 if is_one_line else self.closing(place + 1, marked[1])
                found.update(range(place + 1, end + 2))
        return found

    def closing(self, place: int, indent: str) -> int:
        """Returns the place of the next line that begins with a closing brace at this indentation."""
        for end in range(place, len(self.lines)):
            if self.lines[end].startswith(indent + "}"):
                return end
        return len(self.lines) - 1

    @cached_property
    def imports(self) -> set[int]:
        """The numbers of the lines that belong to imports."""
        found: set[int] = set()
        inside = False
        for number, line in enumerate(self.lines, 1):
            if inside or IMPORT.match(line):
                found.add(number)
                inside = self.kind == ".rt" and ";" not in line
        return found

    def imported(self) -> Iterator[tuple[int, str]]:
        """Yields each imported name, with the number of the import's first line.

        Names of a `pub use`, and those of an import of `*`, are left out.
        """
        for number in sorted(self.imports):
            if IMPORT.match(self.lines[number - 1]):
                line = self.import_at(number)
                if not line.startswith("pub use") and not line.endswith("::*;"):
                    yield from ((number, name) for name in names_of(line))

    def import_at(self, number: int) -> str:
        """Returns the import that begins at this line, in one line."""
        line = self.lines[number - 1].strip()
        for more in range(number + 1, len(self.lines) + 1):
            if more not in self.imports or IMPORT.match(self.lines[more - 1]):
                break
            line += self.lines[more - 1].strip()
        return line

    @cached_property
    def content(self) -> str:
        """The text without imports and comments."""
        comment = re.compile(rf"(?:^|\s){COMMENT[self.kind]}(?=\s|$|[/!])")
        kept = [comment.split(line)[0] for number, line in enumerate(self.lines, 1) if number not in self.imports]
        return "\n".join(kept)

    @cached_property
    def words(self) -> set[str]:
        """The words of the content, and the parts of those with hyphens."""
        whole = set(WORD.findall(self.content))
        return whole | {part for word in whole for part in word.split("-")}

    @cached_property
    def symbols(self) -> set[str]:
        """The parts of the content between blanks and brackets."""
        return set(re.split(r"[\s(){},;.◌]+", self.content))

    def uses(self, name: str) -> bool:
        """Returns whether the content uses an imported name."""
        if HOLE in name or not WORD.fullmatch(name):
            return all(self.has_symbol(part) for part in name.split(HOLE) if part)
        return name in self.words

    def has_symbol(self, part: str) -> bool:
        """Returns whether the content has a part of an operator."""
        return part in self.words or part in self.symbols or (part in self.content and len(part) > 1)

    def functions(self) -> Iterator[Function]:
        """Yields the functions that have a body, with its lines except rows that tools/tables writes."""
        for place, line in enumerate(self.lines):
            begun = FUNCTION.match(line)
            if begun:
                opened = self.opening(place, begun[1])
                if opened is not None:
                    body = self.lines[opened + 1 : self.closing(opened + 1, begun[1])]
                    yield Function(begun[2], place + 1, len(body) - written_rows(body))

    def opening(self, place: int, indent: str) -> int | None:
        """Returns the place of the line that opens the body of a function, or None if it has no body."""
        if self.lines[place].endswith("{"):
            return place
        for at in range(place + 1, len(self.lines)):
            line = self.lines[at]
            if line == indent + "{" or (line.startswith(indent + ")") and line.endswith("{")):
                return at
            if NO_BODY.match(line) or line.startswith(indent + "}"):
                return None
        return None


def written_rows(lines: Sequence[str]) -> int:
    """Returns how many of the lines are rows of a table that tools/tables writes."""
    marks = [place for place, line in enumerate(lines) if line.strip().startswith(("// begin rows", "// end rows"))]
    return sum(last - first - 1 for first, last in zip(marks[::2], marks[1::2], strict=True))


def traits(sources: Iterable[Source]) -> set[str]:
    """Returns the traits of the repository: code imports them for their methods and need not name them."""
    return {name for source in sources if source.kind == ".rt" for name in re.findall(r"\btrait (\w+)", source.content)}


def names_of(line: str) -> Iterator[str]:
    """Yields the names that a line imports: those in braces, or the last of the path; `x as y` imports y."""
    line = line.split("//")[0].rstrip().rstrip(";")
    inner = re.search(r"\{(.*)\}", line)
    parts = re.split(r"[{},]", inner[1]) if inner else [re.sub(r"\s*(?:pub\s+)?(?:ghost\s+)?use\s+", "", line)]
    for part in map(str.strip, parts):
        name = part.split(" as ")[-1].strip() if " as " in part else part if inner else re.split(r"\.|::", part)[-1]
        name = name.rpartition("::")[2]
        if name and name not in ("self", "_"):
            yield name


def test_files(files: Mapping[Path, str]) -> set[Path]:
    """Returns which of a crate's files of code are tests: modules after #[cfg(test)], and the modules below them."""
    found: set[Path] = set()
    for path, text in files.items():
        folder = path.parent if path.name in ("lib.rt", "main.rt") else path.with_suffix("")
        for name in re.findall(r"#\[cfg\(test\)\]\s*(?:pub(?:\([a-z]+\))? )?mod (\w+);", text):
            found.update(other for other in files if other == folder / f"{name}.rt" or (folder / name) in other.parents)
    return found


def read(top: Path = paths.TOP) -> Iterator[Source]:
    """Yields all sources of the crates."""
    for crate in sorted(path for path in (top / "crates").iterdir() if path.is_dir()):
        code = {path: paths.read(path) for path in sorted((crate / "src").rglob("*.rt"))}
        tests = test_files(code)
        for path, text in code.items():
            yield Source(crate.name, path.relative_to(top), text, path in tests)
        for part in ("specs", "proofs"):
            for path in sorted((crate / part).rglob("*.antt")):
                yield Source(crate.name, path.relative_to(top), paths.read(path))
