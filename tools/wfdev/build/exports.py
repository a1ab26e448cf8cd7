"""The exports of the static library: a test that calls each one, and their names in a compiled module.

`rt try` compiles of a static library only what its tests reach. A copy of the crate therefore gets one more test, which calls every
export. In the module that is compiled then, the exports get their own names and `main` loses its name.
"""
from __future__ import annotations

import re
from collections.abc import Iterator, Mapping

from .report import Failure

EXPORT = r'^pub extern "C" fn (\w+)\((.*?)\)(?: -> \w+)?\s*(?:requires|ensures|\{)'
STRUCT = r"#\[repr\(C\)\]\n(?:#[^\n]*\n)*pub struct (\w+)(?:<'\w+>)? \{\n(.*?)^\}"
FIELD = r"^    (?:pub )?(\w+): (.*),$"
# A symbol of a compiled module with its function's name, and the head of a function that only the module sees.
SYMBOL = re.compile(r'@"([\w:]*::(\w+))"')
INTERNAL = re.compile(r'^define internal ([^@\n]*)(?=@"[\w:]*::(\w+)")', re.M)
# The longest buffer that an export takes, in octets.
BUFFER = "[u8; 2400]"

Structs = Mapping[str, tuple[str, list[tuple[str, str]]]]


def exports(sources: Mapping[str, str]) -> Iterator[tuple[str, str, list[str]]]:
    """Yields the exports in these texts: the module, the name, and the type of each argument."""
    for module, text in sources.items():
        for name, given in re.findall(EXPORT, text, re.M | re.S):
            yield module, name, [one.split(":", 1)[1].strip() for one in given.split(",") if ":" in one]


def structs(sources: Mapping[str, str]) -> Structs:
    """Returns the structs that exports take, by their names: the module, and the name and type of each field."""
    return {
        name: (module, re.findall(FIELD, fields, re.M))
        for module, text in sources.items()
        for name, fields in re.findall(STRUCT, text, re.M | re.S)
    }


def zero(kind: str, known: Structs) -> str:
    """Returns an expression of a type in which everything is 0: a number, an array, a slice, a struct, or an empty handle."""
    if kind == "Global":
        return "rt.alloc()"
    if kind.endswith("Slot"):
        return f"{kind}::empty(rt.alloc())"
    if kind.startswith("&"):
        return "&[]"
    if entries := re.fullmatch(r"\[(\w+); 1\]", kind):
        return f"[{zero(entries[1], known)}]"
    if kind in known:
        return f"{kind} {{ " + ", ".join(f"{name}: {zero(of, known)}" for name, of in known[kind][1]) + " }"
    return re.sub(r"\[\w+; (\d+)\]", r"[0; \1]", kind) if kind.startswith("[") else "0"


class _Caller:
    """The body of the test that calls every export."""

    def __init__(self, known: Structs) -> None:
        self.known = known
        self.uses: set[str] = set()
        self.body: list[str] = []
        self.count = 0

    def argument(self, kind: str, ends: list[str]) -> str:
        """Returns the argument of a type; a reference goes to a value that the body declares before."""
        bare = re.sub(r"^&(?:mut )?", "", kind).replace("[u8]", BUFFER)
        bare = re.sub(r"^\[(\w+)\]$", r"[\1; 1]", bare)
        struct = re.sub(r"^\[(\w+); 1\]$", r"\1", bare)
        if struct in self.known:
            self.uses.add(f"{self.known[struct][0]}::{struct}")
        if kind == bare:
            return zero(kind, self.known)
        self.count += 1
        name, mutable = f"value{self.count}", "mut " if "&mut" in kind else ""
        self.body.append(f"let {mutable}{name}: {bare} = {zero(bare, self.known)};")
        if bare.endswith("Slot"):
            ends.append(f"{name}.end();")
        return f"&{mutable}{name}"

    def call(self, module: str, name: str, kinds: list[str]) -> None:
        """Adds the call of an export."""
        self.uses.add(f"{module}::{name}")
        ends: list[str] = []
        given = [self.argument(kind, ends) for kind in kinds]
        self.body += [f"let _ = {name}({', '.join(given)});", *ends]


def calling_test(sources: Mapping[str, str]) -> str:
    """Returns a module with one test, which calls every export."""
    caller = _Caller(structs(sources))
    for export in exports(sources):
        caller.call(*export)
    head = ["", "#[cfg(test)]", "mod every_export {", *(f"use {it};" for it in sorted(caller.uses))]
    return "\n".join([*head, "#[test]", "fn is_called(rt: HostRuntime) {", *caller.body, "}", "}", ""])


def with_exports(text: str, names: list[str]) -> str:
    """Returns the text of a compiled module in which these functions have their own names and are visible, and `main` is not."""
    found: dict[str, set[str]] = {name: set() for name in names}
    for whole, name in set(SYMBOL.findall(text)):
        found.get(name, set()).add(whole)
    for name, symbols in found.items():
        if len(symbols) != 1:
            raise Failure(f"the module that 'rt try' compiled has {len(symbols)} functions {name}: expected one")
    text = INTERNAL.sub(lambda head: f"define {head[1]}" if head[2] in found else head[0], text)
    text = SYMBOL.sub(lambda symbol: f"@{symbol[2]}" if symbol[2] in found else symbol[0], text)
    return text.replace("define i32 @main(", "define internal i32 @main(")
