"""The counts of checks/style that are taken from the sources of crates: each counter yields the places that it counts."""
import re
from collections.abc import Iterator, Sequence, Set
from dataclasses import dataclass

from wfdev.repo.sources import Source, traits

# Traits of other libraries, which code imports for their methods and need not name.
TRAITS = {"ByteOrder", "Context", "NextWord", "Read", "Write"}
WIDE, WIDEST = 110, 160
LONGEST_BODY = 40
SHOWN = 100
DEFINED = re.compile(r"(?:[a-z]+ )*pub (?:record |data |codata )?([^\s:(]+)")
LOOK_IN = re.compile(r"\s*(?:pub )?(?:ghost )?use (?:denote\.)?Rattle\.(\w+)\.proofs\.([\w.-]+?)(?:\.\{| as |;|$)")
# An item of docs/generated/proof-modules.md.
MODULE = re.compile(r"^- (\w+), proofs/([\w/]+):", re.M)


@dataclass(frozen=True)
class Corpus:
    """The input of the counters: the sources of the crates, and the proof modules that are made for other crates."""

    sources: Sequence[Source]
    modules: Set[tuple[str, str]] = frozenset()

    def code(self) -> Iterator[Source]:
        """Yields the files of code."""
        return (source for source in self.sources if source.kind == ".rt")


def place(source: Source, number: int, what: str | None = None) -> str:
    """Returns a place with its text: the line, if nothing else is given."""
    text = source.lines[number - 1].strip() if what is None else what
    return f"{source.path}:{number}: {text[:SHOWN]}"


def wide_lines(corpus: Corpus, kind: str) -> Iterator[str]:
    """Yields the lines that are wider than the page, except imports."""
    for source in corpus.sources:
        if source.kind == kind:
            for number, line in enumerate(source.lines, 1):
                if len(line) > WIDE and number not in source.imports:
                    yield place(source, number)


def rt_lines_over_110(corpus: Corpus) -> Iterator[str]:
    """Lines of code of more than 110 columns, except imports."""
    return wide_lines(corpus, ".rt")


def antt_lines_over_110(corpus: Corpus) -> Iterator[str]:
    """Lines of definitions and proofs of more than 110 columns, except imports."""
    return wide_lines(corpus, ".antt")


def clauses_over_160(corpus: Corpus) -> Iterator[str]:
    """Clauses, requires or ensures, on a line of more than 160 columns."""
    for source in corpus.code():
        for number, line in enumerate(source.lines, 1):
            if len(line) > WIDEST and re.match(r"\s*(?:requires|ensures)\b", line):
                yield place(source, number)


def unused_imports(corpus: Corpus) -> Iterator[str]:
    """Names that the file imports and does not use."""
    unnamed = TRAITS | traits(corpus.sources)
    for source in corpus.sources:
        for number, name in source.imported():
            if not source.uses(name) and not (source.kind == ".rt" and name in unnamed):
                yield place(source, number, name)


def names_in_two_crates(corpus: Corpus) -> Iterator[str]:
    """Names that the specs/ of more than one crate define."""
    owners: dict[str, set[str]] = {}
    first: dict[str, tuple[Source, int]] = {}
    for source in corpus.sources:
        if source.path.parts[2] != "specs":
            continue
        for number, line in enumerate(source.lines, 1):
            defined = DEFINED.match(line)
            if defined and defined[1] not in ("mod", "use"):
                owners.setdefault(defined[1], set()).add(source.crate)
                first.setdefault(defined[1], (source, number))
    for name, found in sorted(owners.items()):
        if len(found) > 1:
            yield place(*first[name], f"{name}: {' '.join(sorted(found))}")


def look_ins(corpus: Corpus) -> Iterator[str]:
    """Imports from another crate's proofs/, of a module that is not made for other crates (checks/modules)."""
    here = {source.crate for source in corpus.sources}
    for source in corpus.sources:
        for number in sorted(source.imports):
            found = LOOK_IN.match(source.lines[number - 1])
            if found and found[1] in here - {source.crate} and not is_for_others(found[1], found[2], corpus.modules):
                yield place(source, number, f"{found[1]}, proofs/{found[2].replace('.', '/')}")


def is_for_others(crate: str, module: str, modules: Set[tuple[str, str]]) -> bool:
    """Returns whether a proof module, or one that it is part of, is made for other crates.

    Rattle itself writes the proof that a type is `Send`, into a module that no proofs/Lib declares.
    """
    parts = module.split(".")
    return parts[-1] == "TheSendSync" or any((crate, ".".join(parts[:count])) in modules for count in range(1, len(parts) + 1))


def unread_lets(corpus: Corpus) -> Iterator[str]:
    """A `let _name` in code without a comment, on its line or above it, that gives the reason."""
    for source in corpus.code():
        for number, line in enumerate(source.lines, 1):
            if re.match(r"\s*let _\w", line) and number not in source.tests:
                above = source.lines[number - 2].strip() if number > 1 else ""
                if "//" not in line and not above.startswith("//"):
                    yield place(source, number)


def long_test_literals(corpus: Corpus) -> Iterator[str]:
    """A string of more than 160 columns in a test: write a trace with one call a line."""
    for source in corpus.code():
        for number in source.tests:
            for text in re.findall(r'"(?:[^"\\]|\\.)*"', source.lines[number - 1]):
                if len(text) > WIDEST:
                    yield place(source, number, f"{len(text)} columns")


def long_functions(corpus: Corpus) -> Iterator[str]:
    """A function outside tests with more than 40 lines in its body, except rows that tools/tables writes."""
    for source in corpus.code():
        for function in source.functions():
            if function.body > LONGEST_BODY and function.line not in source.tests:
                yield place(source, function.line, f"{function.name}: {function.body} lines")


def unreachable(corpus: Corpus) -> Iterator[str]:
    """An `unreachable!()` outside tests."""
    for source in corpus.code():
        for number, line in enumerate(source.lines, 1):
            if "unreachable!" in line.split("//")[0] and number not in source.tests:
                yield place(source, number)


# Crates whose values have a history that exists in clauses only. A proof by hand could give such a value another history.
GHOST_HISTORIES = {"wf_machine", "wf_cell"}


def hand_proofs(corpus: Corpus) -> Iterator[str]:
    """A proof by hand (Proof.antt) in a crate whose histories are ghost data."""
    for source in corpus.sources:
        if source.crate in GHOST_HISTORIES and source.path.name == "Proof.antt":
            yield place(source, 1, "a proof by hand may give a value any history: let the check write the proof")


ALL = [
    rt_lines_over_110,
    antt_lines_over_110,
    clauses_over_160,
    unused_imports,
    names_in_two_crates,
    look_ins,
    unread_lets,
    long_test_literals,
    long_functions,
    unreachable,
    hand_proofs,
]


def modules_for_others(page: str) -> set[tuple[str, str]]:
    """Returns the proof modules in the list of docs/generated/proof-modules.md: the crate, and the module with dots."""
    return {(crate, module.replace("/", ".")) for crate, module in MODULE.findall(page)}
