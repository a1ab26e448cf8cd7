"""What include/wf.h declares: its constants, enums, structs and functions, read from its text."""
import re
from collections.abc import Iterator
from dataclasses import dataclass

COMMENT = re.compile(r"/\*.*?\*/", re.S)
ENUM = re.compile(r"^enum (wf_\w+) \{(.*?)\};", re.M | re.S)
ENUMERATOR = re.compile(r"\b(WF_\w+) = (\d+),?[ \t]*(?:/\* (.*?) \*/)?", re.S)
STRUCT = re.compile(r"^struct (wf_\w+) \{\n(.*?)^\};", re.M | re.S)
FIELD = re.compile(r"^ +([\w ]+?[ *]+)(\w+)(?:\[(\w+)\])?;(?:[ \t]*/\* (.*?) \*/)?", re.M | re.S)
FUNCTION = re.compile(r"^(\w+) (wf_\w+)\(([^()]*)\);", re.M | re.S)
ARGUMENT = re.compile(r"([\w ]+?[ *]+)(\w+)(\[\w*\])?$")


@dataclass(frozen=True)
class Enumerator:
    """A constant of an enum: its name without `WF_`, its number and its comment."""

    name: str
    number: int
    about: str


@dataclass(frozen=True)
class Member:
    """A field of a struct or an argument of a function: its type, its name, its length if it is an array, its
    comment."""

    kind: str
    name: str
    length: str = ""
    about: str = ""

    @property
    def is_pointer(self) -> bool:
        """Whether C passes a pointer."""
        return "*" in self.kind or bool(self.length)

    @property
    def base(self) -> str:
        """The type without `const`, `struct` and `*`."""
        return re.sub(r"\bconst\b|\bstruct\b|[* ]", "", self.kind)

    @property
    def is_const(self) -> bool:
        """Whether the function only reads what the pointer leads to."""
        return self.kind.startswith("const ")


@dataclass(frozen=True)
class Struct:
    """A struct: its name without `wf_`, and its fields."""

    name: str
    fields: tuple[Member, ...]


@dataclass(frozen=True)
class Function:
    """A function: its name, the type that it returns, and its arguments."""

    name: str
    returns: str
    arguments: tuple[Member, ...]


def one_line(comment: str) -> str:
    """Returns a comment of several lines as one line."""
    return re.sub(r"\s*\n[ *]*", " ", comment).strip()


def enum(text: str, name: str) -> tuple[Enumerator, ...]:
    """Returns the constants of an enum, without those that the comments name."""
    for found, body in ENUM.findall(text):
        if found == name:
            rows = ENUMERATOR.finditer(body)
            return tuple(Enumerator(row[1].removeprefix("WF_"), int(row[2]), one_line(row[3] or "")) for row in rows)
    raise KeyError(f"include/wf.h has no enum {name}")


def structs(text: str) -> Iterator[Struct]:
    """Yields the structs, in the header's order."""
    for name, body in STRUCT.findall(text):
        rows = FIELD.finditer(body)
        fields = tuple(Member(row[1].strip(), row[2], row[3] or "", one_line(row[4] or "")) for row in rows)
        yield Struct(name.removeprefix("wf_"), fields)


def functions(text: str) -> Iterator[Function]:
    """Yields the functions, in the header's order."""
    for returns, name, given in FUNCTION.findall(COMMENT.sub("", text)):
        yield Function(name, returns, tuple(arguments(given)))


def arguments(given: str) -> Iterator[Member]:
    """Yields the arguments between the brackets of a function."""
    for one in given.split(",") if given.strip() != "void" else []:
        found = ARGUMENT.fullmatch(" ".join(one.split()))
        if not found:
            raise ValueError(f"include/wf.h: '{one.strip()}' is no argument of the known form: a type and a name")
        length = found[3].strip("[]") or "0" if found[3] else ""
        yield Member(found[1].strip(), found[2], length)


def constants(text: str) -> dict[str, int]:
    """Returns the constants that the header defines as numbers, without `WF_`."""
    return {name: int(value) for name, value in re.findall(r"^#define WF_(\w+) (\d+)$", text, re.M)}
