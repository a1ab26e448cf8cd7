"""Generates the lines of sources that follow from the rows of settings and of refusals.

A source has regions between the comments `begin NAME` and `end NAME`: FILES gives those of each file. It has also single lines that
say how many rows there are, or name them all; a pattern finds each of these, and its group is the part that is written.
"""
import re
import textwrap
from collections.abc import Callable, Iterator, Mapping, Sequence
from pathlib import Path

from wfdev.table_rows import GREATEST, PLACES, Fault, Refusal, Setting, Tables, replaced

FRAME, LIBRARY = Path("crates/wf_frame"), Path("crates/wf_c")
COMMENT_WIDTH = 108
CODE_WIDTH = 100
# A struct with fields of at most this width is written on one line.
STRUCT_WIDTH = 18
LIST_WIDTH = 110

Lines = Iterator[str]


def spelled(number: int) -> str:
    """A number as code has it."""
    if number == GREATEST:
        return "u32::MAX"
    return f"{number:_}" if number >= 10_000 else str(number)


def indented(columns: int, lines: Iterator[str]) -> Lines:
    """These lines, with an indent."""
    return (" " * columns + line for line in lines)


def doc(said: str, columns: int) -> Lines:
    """The lines of a doc comment with this indent."""
    width = COMMENT_WIDTH - columns - len("/// ")
    return (f"/// {line}" for line in textwrap.wrap(said, width, break_long_words=False, break_on_hyphens=False))


def items(names: Sequence[str], first: str) -> Lines:
    """A definition that is a list, on several lines if it is long."""
    words = [word for at, name in enumerate([*names, "[]"]) for word in (["∷ " + name] if at else [name])]
    whole = f"{first} {' '.join(words)}"
    if len(whole) <= LIST_WIDTH:
        yield whole
        return
    line = first
    for word in words:
        if len(f"{line} {word}") > LIST_WIDTH:
            yield line
            line = "   "
        line = f"{line} {word}"
    yield line


# ---- settings: wf_frame


def config_fields(tables: Tables) -> Lines:
    """The fields of `Config`."""
    for one in tables.settings:
        yield from indented(4, doc(one.field, 4))
        yield f"    pub {one.name}: u32,"


def field_variants(tables: Tables) -> Lines:
    """The variants of `Field`."""
    for one in tables.settings:
        yield from indented(4, doc(one.about, 4))
        yield f"    {one.variant},"


def setting_cells(one: Setting) -> str:
    """The number, the word and the range of a setting, as code has them."""
    return f'{one.number}, b"{one.name}", {spelled(one.least)}, {spelled(one.most)}'


def each_setting(columns: int, form: Callable[[Setting], str]) -> Callable[[Tables], Lines]:
    """A line for each setting, with an indent."""
    return lambda tables: (" " * columns + form(one) for one in tables.settings)


def setting_rows(tables: Tables) -> Lines:
    """The definitions of the table, of the standard settings, of those for devices, and of their list."""
    yield from ("", "-- the table", "abbrev pub setting_row : Field → Row")
    for one in tables.settings:
        yield f'setting_row {one.variant} = row {one.number} (codes "{one.name}") {one.least} {one.most}'
    yield from ("", "-- the standard settings: those of a head that sets none", "abbrev pub standard : Config", "standard = record {")
    yield from (f"  {one.name} = {one.standard};" for one in tables.settings)
    yield from ("}", "", "-- the settings for devices: the standard ones with these values", "abbrev pub device : Config")
    yield "device = record standard {"
    yield from (f"  {one.name} = {one.device};" for one in tables.settings if one.device != one.standard)
    yield from ("}", "", "-- the settings, in the order in which they are checked", "abbrev pub fields : List Field")
    yield from items([one.variant for one in tables.settings], "fields =")
    yield ""


def setting_values(tables: Tables) -> Lines:
    """The definitions of the value of a setting and of setting it."""
    yield from ("", "-- the value of a setting", "abbrev pub value_of : Config → Field → ℕ")
    yield from (f"value_of c {one.variant} = c.{one.name}" for one in tables.settings)
    yield from ("", "-- the settings with one of them set to a value", "abbrev pub with_value : Config → Field → ℕ → Config")
    yield from (f"with_value c {one.variant} value = record c {{ {one.name} = value }}" for one in tables.settings)
    yield ""


def setting_ranges(tables: Tables) -> Lines:
    """The definition of settings in their ranges."""
    yield from ("", "-- every setting is in its range", "pub record IsInRange (config : Config) : Type 0 where")
    for one in tables.settings:
        yield f"  pub {one.name} : ({one.least} ≤ config.{one.name}) × (config.{one.name} ≤ {one.most})"
    yield ""


def setting_bounds(tables: Tables) -> Lines:
    """The proofs that each setting is in its range if all are, and conversely, and if one is set."""
    yield from ("", "each_bounded : (c : Config) → IsInRange c → (field : Field) → IsBounded c field")
    yield from (f"each_bounded c h {one.variant} = h.{one.name}" for one in tables.settings)
    yield from ("", "all_bounded : (c : Config) → ((field : Field) → IsBounded c field) → IsInRange c")
    yield "all_bounded c each = record {"
    yield from (f"  {one.name} = each {one.variant};" for one in tables.settings)
    yield from ("}", "", "-- if one setting is set to a value in its range, each setting is in its range")
    yield "bounded_anew : (c : Config) (field other : Field) (value : ℕ) → IsInRange c →"
    yield "    (lowest_of field ≤ value) × (value ≤ greatest_of field) → IsBounded (with_value c field value) other"
    yield from (f"bounded_anew c {one.variant} {one.variant} value h b = b" for one in tables.settings)
    yield from ("bounded_anew c field other value h b = each_bounded c h other", "")


def settings_found(tables: Tables) -> Lines:
    """The proof that settings of which none is found are in their ranges."""
    yield from ("", "pub in_range : (c : Config) → first_out_of_range c ≡ None → IsInRange c", "in_range c none =")
    yield "    let holds = none_passes (λ field. not (is_in_range c field)) fields none in"
    yield "    record {"
    first = tables.settings[0].variant
    for place, one in enumerate(tables.settings):
        yield f"      {one.name} = bounds _ _ _ (holds {place} {first} (lit< tt));"
    yield from ("    }", "")


# ---- refusals: wf_frame


def refusal_variants(tables: Tables) -> Lines:
    """The variants of `Refusal`."""
    for one in tables.refusals:
        yield from indented(4, doc(one.about, 4))
        yield f"    {one.variant} {{ {one.count.name}: {one.count.kind} }}," if one.count else f"    {one.variant},"


def refusal_items(tables: Tables) -> Lines:
    """The list of the refusals."""
    for one in tables.refusals:
        yield f"    Refusal::{one.variant} {{ {one.count.name}: 0 }}," if one.count else f"    Refusal::{one.variant},"


def refusal_arms(tables: Tables) -> Lines:
    """The arms of the table of refusals."""
    for one in tables.refusals:
        yield f'            Refusal::{one.variant}{" { .. }" if one.count else ""} => ({one.number}, b"{one.word}"),'


def number_arms(tables: Tables) -> Lines:
    """The arms that return the number after a word: one for each name of a number."""
    kinds = {count.name: count.kind for _, count in tables.counted}
    for name, kind in kinds.items():
        patterns = [f"Refusal::{one.variant} {{ {name} }}" for one, count in tables.counted if count.name == name]
        value = f"Some(i64::from({name}))" if kind != "i64" else f"Some({name})"
        yield from indented(12, arm(patterns, value, CODE_WIDTH - 12))


def arm(patterns: Sequence[str], value: str, width: int) -> Lines:
    """An arm of a match in at most this width."""
    whole = f"{' | '.join(patterns)} => {value},"
    if len(whole) <= width:
        yield whole
        return
    head = f"{' | '.join(patterns)} => {{"
    broken = [patterns[0], *(f"| {pattern}" for pattern in patterns[1:])]
    yield from [head] if len(head) <= width else [*broken[:-1], f"{broken[-1]} => {{"]
    yield from (f"    {value}", "}")


def named(one: Refusal, prefix: str = "") -> str:
    """A refusal as a pattern of a definition."""
    return f"({prefix}{one.variant} {one.count.name})" if one.count else prefix + one.variant


def refusal_rows(tables: Tables) -> Lines:
    """The definition of the table of refusals."""
    yield from ("", "-- a row of the table: the number of a refusal in C, and its word in texts")
    yield "abbrev pub refusal_row : Refusal → ℕ × List ℕ"
    yield from (f'refusal_row {named(one)} = ({one.number}, codes "{one.word}")' for one in tables.refusals)
    yield ""


def refusal_numbers(tables: Tables) -> Lines:
    """The definitions of the number after a word, and of the list of the refusals."""
    yield from ("", "-- the number that follows the word of a refusal: the number of open exchanges, of frames inside or of")
    yield "-- frames queued, or the deficit or the airtime in flight in microseconds"
    yield "abbrev pub number_told : Refusal → Option ℤ"
    for one, count in tables.counted:
        yield f"number_told {named(one)} = Some {count.name if count.kind == 'i64' else f'(pos {count.name})'}"
    yield from ("number_told _ = None", "", "-- the refusals by their numbers; a number that follows the word is 0")
    yield from ("abbrev pub refusal_list : List Refusal", "refusal_list =")
    zero = {"u32": " 0", "i64": " (pos 0)", "": ""}
    yield from items([one.variant + zero[one.count.kind if one.count else ""] for one in tables.refusals], "   ")
    yield ""


# ---- the library for C


def config_of(tables: Tables) -> Lines:
    """The definition of the settings that a struct shows."""
    yield from ("", "-- the settings that the caller's struct shows", "abbrev pub config_of : Settings → Config")
    yield "config_of s = record {"
    yield from (f"  {one.name} = s.{one.name};" for one in tables.settings)
    yield from ("}", "")


def reply_arms(tables: Tables) -> Lines:
    """The arms that write the number of a refusal into an answer."""
    for one, count in tables.counted:
        fields = [count.reply if count.reply == count.name else f"{count.reply}: {count.name}", "..reply"]
        head = f"        Refusal::{one.variant} {{ {count.name} }} => Reply {{"
        if len(", ".join(fields)) <= STRUCT_WIDTH:
            yield f"{head} {', '.join(fields)} }},"
        else:
            yield from (head, f"            {fields[0]},", f"            {fields[1]}", "        },")


def with_refusal(tables: Tables) -> Lines:
    """The definition of an answer with the number of a refusal."""
    yield from ("", "-- with the number that a refusal has, if any", "abbrev pub with_refusal : Refusal → Reply → Reply")
    for one, count in tables.counted:
        yield f"with_refusal {named(one, 'refusal.')} r = record r {{ {count.reply} = {count.name} }}"
    yield from ("with_refusal _ r = r", "")


def refusal_kinds(tables: Tables) -> Lines:
    """The cases of the proof that the words of answers equal those of the machine's text."""
    return (f"kinds_are (Refused {named(one, 'refusal.')}) pairs ids = refl" for one, _ in tables.counted)


def outside(tables: Tables) -> Lines:
    """The values outside each range, for the calls with bad settings in C: below or above, and above."""
    for one in tables.settings:
        below = one.least - 1 if one.least else min(one.most + 1, GREATEST)
        above = one.most + 1 if one.most < GREATEST else below
        yield f"    {{{below}u, {above}u}}, /* {one.name} */"


# ---- the tools


def model_setting(one: Setting) -> str:
    """The field of a setting in the model."""
    most = "2**32 - 1" if one.most == GREATEST else spelled(one.most)
    return f"    {one.name}: int = setting({spelled(one.standard)}, {spelled(one.least)}, {most})"


# ---- the files

Region = Callable[[Tables], Iterator[str]]

FILES: Mapping[Path, Mapping[str, Region]] = {
    FRAME / "src/settings.rt": {
        "fields": config_fields,
        "variants": field_variants,
        "list": each_setting(4, lambda one: f"Field::{one.variant},"),
        "rows": each_setting(12, lambda one: f"Field::{one.variant} => ({setting_cells(one)}),"),
        "value": each_setting(12, lambda one: f"Field::{one.variant} => config.{one.name},"),
        "set": each_setting(12, lambda one: f"Field::{one.variant} => config.{one.name} = value,"),
        "standard": each_setting(12, lambda one: f"{one.name}: {spelled(one.standard)},"),
        "device": each_setting(12, lambda one: f"{one.name}: {spelled(one.device)},"),
    },
    FRAME / "specs/Settings.antt": {"rows": setting_rows, "values": setting_values, "ranges": setting_ranges},
    FRAME / "proofs/Ranges.antt": {"bounds": setting_bounds, "found": settings_found},
    FRAME / "src/notes.rt": {"refusals": refusal_variants},
    FRAME / "src/refusals.rt": {"list": refusal_items, "rows": refusal_arms, "number": number_arms},
    FRAME / "specs/Refusals.antt": {"rows": refusal_rows, "numbers": refusal_numbers},
    LIBRARY / "src/settings.rt": {
        "fields": each_setting(4, lambda one: f"pub {one.name}: u32,"),
        "config": each_setting(12, lambda one: f"{one.name}: self.{one.name},"),
        "shown": each_setting(8, lambda one: f"{one.name}: config.{one.name},"),
    },
    LIBRARY / "specs/Making.antt": {"settings": config_of},
    LIBRARY / "src/reply.rt": {"refusals": reply_arms},
    LIBRARY / "specs/Numbers.antt": {"refusals": with_refusal},
    LIBRARY / "proofs/names/words_law/Answers.antt": {"refusals": refusal_kinds},
    Path("examples/c/misuse.c"): {"outside": outside},
    Path("tools/wfdev/model/settings.py"): {"settings": lambda tables: (model_setting(one) for one in tables.settings)},
}

SETTING_NAMES = r"(?<=Field\.TheVariants\.\{)([^}]*)(?=\})"
REFUSAL_NAMES = r"(?<=Refusal\.TheVariants\.\{)([^}]*)(?=\})"
TRACE, TRACE_LAWS, HEADER = Path("crates/wf_trace"), Path("crates/wf_trace_laws"), Path("include/wf.h")

# Part of a line: the file, a pattern, and the text of its group.
Part = tuple[Path, str, str]


def setting_parts(tables: Tables) -> list[Part]:
    """The lines that name all settings, or say how many there are."""
    number = str(len(tables.settings))
    names = ", ".join(one.variant for one in tables.settings)
    return [
        (FRAME / "src/settings.rt", r"\[Field; (\d+)\]", number),
        (FRAME / "src/settings.rt", r"\(result(?:\.0)? ≤ (\d+)\)", number),
        (FRAME / "src/settings.rt", r"in C: 1 to (\d+)", number),
        (FRAME / "specs/Settings.antt", SETTING_NAMES, names),
        (FRAME / "proofs/Ranges.antt", SETTING_NAMES, names),
        (TRACE / "src/settings.rt", r"result < (\d+)", number),
        (TRACE / "src/settings.rt", r"\[(?:bool|false); (\d+)\]", number),
        (TRACE / "src/settings.rt", r"replicate (\d+) false", number),
        (TRACE / "specs/Meanings.antt", r"replicate (\d+) false", number),
        (TRACE / "proofs/settings/read_head/Invariants.antt", r"replicate (\d+) false", number),
        (TRACE_LAWS / "proofs/Ranges.antt", r"replicate (\d+) false", number),
        (LIBRARY / "src/names.rt", r"by its place, 1 to (\d+)", number),
        (HEADER, r"struct wf_settings, 1 to (\d+)", number),
        (Path("examples/c/same.c"), r"SETTINGS = (\d+)", number),
    ]


def place_parts(tables: Tables) -> list[Part]:
    """The lines that say how many places `struct wf_settings` has, and how many of them are reserved."""
    first, reserved = str(len(tables.settings) + 1), str(PLACES - len(tables.settings))
    last_code = str(100 + PLACES)
    return [
        (LIBRARY / "src/settings.rt", r"FIRST_RESERVED: u8 = (\d+)", first),
        (LIBRARY / "src/settings.rt", r"\[(?:u32|0); (\d+)\]", reserved),
        (LIBRARY / "src/settings.rt", r"replicate (\d+) 0", reserved),
        (LIBRARY / "src/settings.rt", r"λ i\. i < (\d+)", reserved),
        (LIBRARY / "specs/Making.antt", r"first_reserved = (\d+)", first),
        (LIBRARY / "src/names.rt", r"101\.\.=(\d+)", last_code),
        (LIBRARY / "specs/Names.antt", r"101 to (\d+) for settings", last_code),
        (LIBRARY / "specs/Names.antt", r"is_within 101 (\d+) n", last_code),
        (HEADER, r"up to\n   \* (\d+) \*/", str(PLACES)),
        (HEADER, r"WF_BAD_SETTING \+ (\d+) have", str(PLACES)),
    ]


def refusal_parts(tables: Tables) -> list[Part]:
    """The lines that name all refusals, or say how many there are."""
    number = str(len(tables.refusals))
    return [
        (FRAME / "src/refusals.rt", r"\[Refusal; (\d+)\]", number),
        (FRAME / "src/refusals.rt", r"\(result(?:\.0)? ≤ (\d+)\)", number),
        (FRAME / "src/refusals.rt", r"in C: 1 to (\d+)", number),
        (FRAME / "specs/Refusals.antt", REFUSAL_NAMES, ", ".join(one.variant for one in tables.refusals)),
        (LIBRARY / "src/reply.rt", r"refused: 1 to (\d+), or 0", number),
        (HEADER, r"enum wf_code, 0 to (\d+): what", number),
        (HEADER, r"if the code is 1 to (\d+), unless", number),
    ]


def filled(text: str, pattern: str, value: str) -> str:
    """The text with this value as the group of each match."""
    places = [found.span(1) for found in re.finditer(pattern, text)]
    if not places:
        raise Fault(f"there is no line with {pattern}")
    for start, end in reversed(places):
        text = text[:start] + value + text[end:]
    return text


def files(top: Path, tables: Tables) -> dict[Path, str]:
    """The text of each source."""
    parts = [*setting_parts(tables), *place_parts(tables), *refusal_parts(tables)]
    paths = {*FILES, *(path for path, _, _ in parts)}
    texts = {path: (top / path).read_text(encoding="utf-8") for path in paths}
    for path, regions in FILES.items():
        for name, lines in regions.items():
            texts[path] = replaced(texts[path], name, list(lines(tables)))
    for path, pattern, value in parts:
        texts[path] = filled(texts[path], pattern, value)
    return texts
