"""Generates two modules of python/wfpath from include/wf.h: `_tables`, its numbers, structs and functions,
and `errors`, its codes."""
import json
import textwrap
from collections.abc import Iterable, Iterator, Mapping, Sequence
from dataclasses import dataclass, replace

from wfdev import header
from wfdev.header import Enumerator, Function, Member, Struct
from wfdev.table_rows import constant

WIDTH = 110
FIRST_BLOCK_CODE, SETTING_CODE = 70, 100
# For each scalar of C: the type of ctypes and the letter of the module struct.
SCALARS = {
    "uint8_t": ("c_uint8", "B"),
    "uint16_t": ("c_uint16", "H"),
    "uint32_t": ("c_uint32", "I"),
    "uint64_t": ("c_uint64", "Q"),
    "int32_t": ("c_int32", "i"),
    "int64_t": ("c_int64", "q"),
    "size_t": ("c_size_t", "N"),
}
HEAD = '''"""The numbers, structs and functions of include/wf.h. tools/tables writes this file: do not edit it."""
from __future__ import annotations

import ctypes
import enum
from dataclasses import dataclass
from typing import Any
'''
ERRORS_HEAD = '''"""The exceptions: a class for each code of include/wf.h. tools/tables writes this file: do not edit it.

Refused is the base of the machine's refusals, and BlockError of the codes for octets that are no BlockAck.
"""
from __future__ import annotations

from ._base import BadLibrary as BadLibrary
from ._base import BadSetting as BadSetting
from ._base import BlockError as BlockError
from ._base import Refused as Refused
from ._base import WfError as WfError
'''


@dataclass(frozen=True)
class Row:
    """A setting: its name, its range, its standard value, its value in the settings for devices, and its sentence."""

    name: str
    least: int
    most: int
    standard: int
    device: int
    about: str


def camel(name: str) -> str:
    """Returns a name of C as that of a class: NO_STATION and no_station are NoStation."""
    return "".join(part.capitalize() for part in name.split("_"))


def wrapped(text: str, indent: str) -> list[str]:
    """Returns a text as lines of at most WIDTH columns."""
    lines = textwrap.wrap(text, WIDTH - len(indent), break_long_words=False, break_on_hyphens=False)
    return [indent + line for line in lines]


def doc(said: str, indent: str = "    ") -> list[str]:
    """Returns a sentence as the lines of a doc comment."""
    lines = wrapped(f'"""{said[:1].upper() + said[1:].removesuffix(".")}.', indent)
    whole = lines[-1] + '"""'
    return [*lines[:-1], whole] if len(lines) == 1 and len(whole) <= WIDTH else [*lines, f'{indent}"""']


def string(name: str, text: str, indent: str = "    ") -> list[str]:
    """Returns the lines that give a name a text as its value."""
    whole = f"{indent}{name} = {json.dumps(text)}"
    if len(whole) <= WIDTH:
        return [whole]
    parts = textwrap.wrap(text, WIDTH - len(indent) - 8, drop_whitespace=False, break_on_hyphens=False)
    return [f"{indent}{name} = (", *(f"{indent}    {json.dumps(part)}" for part in parts), f"{indent})"]


def plain_enum(name: str, about: str, rows: Iterable[Enumerator], prefix: str = "") -> Iterator[str]:
    """Yields the lines of an enum."""
    yield from ("", "", f"class {name}(enum.IntEnum):", f'    """{about}"""', "")
    yield from (f"    {row.name.removeprefix(prefix)} = {row.number}" for row in rows)


def enum_class(name: str, about: str, rows: Iterable[Enumerator], prefix: str = "") -> Iterator[str]:
    """Yields the lines of an enum whose members are words of a trace."""
    yield from plain_enum(name, about, rows, prefix)
    yield from ("", "    @property", "    def word(self) -> str:", '        """The word of a trace."""')
    yield '        return self.name.lower().replace("_", "-")'


@dataclass(frozen=True)
class Named:
    """A refusal: its word, and the field of a reply that has its number, or an empty text if it has none."""

    word: str
    field: str


def named(row: Enumerator, refusals: Mapping[int, Named]) -> Enumerator:
    """Returns the constant of an error with the name that its word has."""
    return replace(row, name=constant(refusals[row.number].word)) if row.number in refusals else row


def error_class(row: Enumerator, refusals: Mapping[int, Named]) -> Iterator[str]:
    """Yields the lines of the class of an error."""
    base = "BlockError" if FIRST_BLOCK_CODE < row.number < SETTING_CODE else "WfError"
    yield from ("", "", f"class {camel(row.name)}({'Refused' if row.number in refusals else base}):")
    yield from doc(row.about)
    yield from ("", f"    code = {row.number}", f'    word = "{row.name.lower().replace("_", "-")}"')
    yield from string("about", row.about)
    if row.number in refusals and refusals[row.number].field:
        yield f'    field = "{refusals[row.number].field}"'


def error_table(rows: Iterable[Enumerator]) -> Iterator[str]:
    """Yields the lines of the table of errors by their codes."""
    yield from ("", "", "# The error of each code.", "ERRORS: dict[int, type[WfError]] = {")
    yield from (f"    {row.number}: {camel(row.name)}," for row in rows)
    yield "}"


def settings_class(rows: Sequence[Row]) -> Iterator[str]:
    """Yields the lines of the class of settings and of their ranges."""
    yield from ("", "", "@dataclass(frozen=True)", "class Settings:")
    yield '    """The settings of a path or a cell. Each has its standard value unless another is given."""'
    for row in rows:
        yield from ("", f"    {row.name}: int = {row.standard}")
        yield from doc(f"{row.about} [{row.least}..{row.most}]")
    yield from ("", "    @classmethod", "    def device(cls, **others: int) -> Settings:")
    yield from doc("Returns the settings for devices, with others in their place", " " * 8)
    yield "        return cls(**{**DEVICE, **others})"
    yield from ("", "", "# The settings for devices that are not standard.", "DEVICE: dict[str, int] = {")
    yield from (f'    "{row.name}": {row.device},' for row in rows if row.device != row.standard)
    yield "}"
    yield from ("", "# The range of each setting, in the order of their places.")
    yield "RANGES: dict[str, tuple[int, int]] = {"
    yield from (f'    "{row.name}": ({row.least}, {row.most}),' for row in rows)
    yield "}"


def field_type(field: Member) -> str:
    """Returns the type of ctypes of a field of a struct."""
    if "*" in field.kind:
        return "ctypes.c_char_p" if field.is_const else "ctypes.c_void_p"
    kind = element_type(field)
    return f"{kind} * {field.length}" if field.length else kind


def element_type(field: Member) -> str:
    """Returns the type of ctypes of a field, or of an element if it is an array."""
    if field.base.startswith("wf_"):
        return f"{camel(field.base.removeprefix('wf_'))}Struct"
    return f"ctypes.{SCALARS[field.kind][0]}"


def field_hint(field: Member) -> str:
    """Returns the type of a field as mypy sees it."""
    if "*" in field.kind:
        return "Any"
    if field.length:
        return f"ctypes.Array[{element_type(field)}]"
    return element_type(field) if field.base.startswith("wf_") else "int"


def layout(struct: Struct) -> str:
    """Returns the format of a struct for the module struct, with the native alignment of the header. A
    struct that has structs has none."""
    letters = []
    for field in struct.fields:
        if field.base.startswith("wf_"):
            return ""
        letter = "P" if "*" in field.kind else SCALARS[field.kind][1]
        letters.append(f"{field.length}s" if field.length and letter == "B" else field.length + letter)
    return "@" + "".join(letters)


def struct_class(struct: Struct) -> Iterator[str]:
    """Yields the lines of a struct."""
    yield from ("", "", f"class {camel(struct.name)}Struct(ctypes.Structure):")
    yield f'    """struct wf_{struct.name}; LAYOUT is its format for the module struct."""'
    yield ""
    yield from (f"    {field.name}: {field_hint(field)}" for field in struct.fields)
    yield from ("", f'    LAYOUT = "{layout(struct)}"')
    yield "    _fields_ = ["
    yield from (f'        ("{field.name}", {field_type(field)}),' for field in struct.fields)
    yield "    ]"


def argument_type(argument: Member) -> str:
    """Returns the type of ctypes of an argument. Octets that are only read may be given as `bytes`."""
    if not argument.is_pointer:
        return f"ctypes.{SCALARS[argument.base][0]}"
    if argument.base.startswith("wf_"):
        return f"ctypes.POINTER({camel(argument.base.removeprefix('wf_'))}Struct)"
    if argument.base in ("uint8_t", "char"):
        return "ctypes.c_char_p" if argument.is_const else "ctypes.c_void_p"
    return f"ctypes.POINTER(ctypes.{SCALARS[argument.base][0]})"


def function_row(function: Function) -> list[str]:
    """Returns the lines of a function in the table of functions."""
    given = [argument_type(argument) for argument in function.arguments]
    result = "None" if function.returns == "void" else f"ctypes.{SCALARS[function.returns][0]}"
    whole = f'    "{function.name}": ({result}, ({", ".join(given)},)),'
    if len(whole) <= WIDTH:
        return [whole]
    lines = [f'    "{function.name}": (', f"        {result},", "        ("]
    return [*lines, *(f"            {one}," for one in given), "        ),", "    ),"]


def function_table(functions: Iterable[Function]) -> Iterator[str]:
    """Yields the lines of the table of functions."""
    yield from ("", "", "# Each function: what it returns, and its arguments.")
    yield "FUNCTIONS: dict[str, tuple[Any, tuple[Any, ...]]] = {"
    for function in functions:
        yield from function_row(function)
    yield "}"


def errors_module(wf_h: str, refusals: Mapping[int, Named]) -> str:
    """Returns the text of the module `errors` for this header."""
    rows = [row for row in header.enum(wf_h, "wf_code") if row.number and row.number != SETTING_CODE]
    codes = [named(row, refusals) for row in rows]
    lines = ERRORS_HEAD.splitlines()
    for row in codes:
        lines += error_class(row, refusals)
    lines += error_table(codes)
    return "\n".join(lines) + "\n"


def tables_module(wf_h: str, settings: Sequence[Row]) -> str:
    """Returns the text of the module `_tables` for this header."""
    known = header.constants(wf_h)
    lines = [*HEAD.splitlines(), ""]
    lines.append(f"VERSION = ({known['VERSION_MAJOR']}, {known['VERSION_MINOR']}, {known['VERSION_PATCH']})")
    lines += [f"{name} = {known[name]}" for name in ("GREATEST_BODY", "GREATEST_MPDU", "HEADER", "GROUP_HEADER")]
    lines.append(f"BAD_SETTING = {SETTING_CODE}")
    classes = "The access classes, from the lowest priority to the highest."
    lines += enum_class("AccessClass", classes, header.enum(wf_h, "wf_class"))
    lines += enum_class("Fate", "The fates of frames.", header.enum(wf_h, "wf_fate"))
    lines += plain_enum("Outcome", "What became of a transmission.", header.enum(wf_h, "wf_outcome"), "OUTCOME_")
    lines += enum_class("Kind", "The kinds of answers.", header.enum(wf_h, "wf_kind"), "KIND_")
    lines += enum_class("CallKind", "The kinds of calls.", header.enum(wf_h, "wf_call_kind"), "CALL_")
    lines += enum_class("Form", "The formats of rates.", header.enum(wf_h, "wf_form"), "FORM_")
    lines += settings_class(settings)
    for struct in header.structs(wf_h):
        lines += struct_class(struct)
    lines += function_table(header.functions(wf_h))
    return "\n".join(lines) + "\n"
