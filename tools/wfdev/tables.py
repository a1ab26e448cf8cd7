"""Generates files, and regions of files, from the tables of settings, calls, refusals and fates.

`table_rows` reads the tables, and `source_tables` generates the regions of sources. Generated here are the regions between `begin NAME`
and `end NAME` in include/wf.h, docs/TRACE.md and docs/MACHINE.md, two parts of the help (crates/wf_run/src/help/texts.rt), the file
sim/settings.json, and two modules of python/wfpath.

    tables            writes them
    tables --check    names each file that is out of date, and ends with status 1 if there is one
"""
import json
import re
import sys
import textwrap
from collections.abc import Mapping, Sequence
from dataclasses import asdict
from pathlib import Path

from wfdev import python_tables, source_tables
from wfdev.table_rows import PLACES, Call, Fault, Refusal, Tables, constant, note, read, replaced

TOP = Path(__file__).resolve().parent.parent.parent
HEADER = Path("include/wf.h")
TRACE = Path("docs/TRACE.md")
MACHINE = Path("docs/MACHINE.md")
HELP = Path("crates/wf_run/src/help/texts.rt")
REPLIES = Path("tools/wfdev/traces/replies.py")
SIM = Path("sim/settings.json")
PYTHON = Path("python/wfpath/_tables.py")
ERRORS = Path("python/wfpath/errors.py")

HEADER_WIDTH = 100
HELP_WIDTH = 95
HELP_COLUMN = 34


# ---- the files


def commented(code: str, said: str, column: int) -> list[str]:
    """A line of C with a comment that begins in a column, on several lines if it is long. An empty comment is left out."""
    if not said:
        return [code]
    words = textwrap.wrap(said, HEADER_WIDTH - column - len("/*  */"), break_long_words=False, break_on_hyphens=False)
    lines = [f"{code.ljust(column)}/* {words[0]}", *(" " * column + f" * {more}" for more in words[1:])]
    return [*lines[:-1], lines[-1] + " */"]


def enumerators(prefix: str, listed: Sequence[tuple[str, int, str]], *, last: bool) -> list[str]:
    """The lines of an enum's constants: name, number and comment. With `last` the last one has no comma."""
    codes = [f"  {prefix}{name} = {at}," for name, at, _ in listed]
    if last:
        codes[-1] = codes[-1].removesuffix(",")
    column = max(map(len, codes)) + 1
    return [line for code, (_, _, said) in zip(codes, listed, strict=True) for line in commented(code, said, column)]


def in_reply(refusal: Refusal) -> str:
    """The comment of a refusal in the header."""
    said = note(refusal.about) + refusal.in_c
    return said.replace(f"`{refusal.count.name}`", f"`{refusal.count.reply}`") if refusal.count else said


def call_notes(text: str) -> dict[str, str]:
    """The comment of each call in the header, which stays: it names fields of a `struct wf_call`."""
    found = re.findall(r"WF_CALL_(\w+) = \d+,? */\* (.*?) \*/", text, re.S)
    return {name: re.sub(r"\s*\n[ *]*", " ", said) for name, said in found}


def header(text: str, tables: Tables) -> str:
    """The header."""
    refusals = enumerators("WF_", [(one.constant, one.number, in_reply(one)) for one in tables.refusals], last=False)
    text = replaced(text, "refusals", ["  /* refusals; `reply` then has kind WF_KIND_REFUSED */", *refusals])
    text = replaced(text, "fates", enumerators("WF_", [(constant(one.word), one.number, one.about) for one in tables.fates], last=True))
    said = call_notes(text)
    calls = {one.number: one for one in reversed(tables.calls)}
    listed = [(constant(one.variant), one.number, said.get(constant(one.variant), "")) for _, one in sorted(calls.items())]
    text = replaced(text, "calls", enumerators("WF_CALL_", listed, last=True))
    fields = [(one.name, f"{one.note} [{one.least}..{one.most}]") for one in tables.settings]
    fields.append((f"reserved[{PLACES - len(fields)}]", "for later settings: each has to be 0"))
    column = max(len(name) for name, _ in fields) + len("  uint32_t ; ")
    lines = [line for name, said in fields for line in commented(f"  uint32_t {name};", said, column)]
    return replaced(text, "settings", lines)


def table(head: Sequence[str], listed: Sequence[Sequence[str]]) -> list[str]:
    """A table of a page."""
    return [f"| {' | '.join(row)} |" if row else "|" + "---|" * len(head) for row in (head, (), *listed)]


def trace_page(text: str, tables: Tables) -> str:
    """docs/TRACE.md."""
    calls = [
        (f"`{one.line}`", ", ".join(f"{name} {kind}" for name, kind in one.arguments()) or "none", one.about)
        for one in tables.calls
    ]
    text = replaced(text, "calls", table(("Line", "Arguments and their ranges", "Meaning"), calls))
    settings = [(f"`{one.name}`", str(one.standard), f"{one.least}..{one.most}", one.note) for one in tables.settings]
    text = replaced(text, "settings", table(("Setting", "Default", "Range", "Meaning"), settings))
    counted = [f"`{one.word} {count.letter}`" for one, count in tables.counted]
    return source_tables.filled(text, r"with a number for ([^|]*) \|", " and ".join((", ".join(counted[:-1]), counted[-1])))


def machine_page(text: str, tables: Tables) -> str:
    """docs/MACHINE.md."""
    listed = [(f"`{one.word}`", str(one.number), one.about) for one in tables.refusals]
    return replaced(text, "refusals", table(("Refusal", "Number", "When"), listed))


def help_lines(text: str, calls: Sequence[Call]) -> str:
    """The lines of calls in the help: the text next to a line stays, and a new line gets the ranges of its arguments."""
    block = re.search(r"(?<=^  cell \[NAME=NUMBER \.\.\])(?P<rest>[^\n]*\n)(?P<calls>.*?)(?=^  end$)", text, re.M | re.S)
    if not block:
        raise Fault("the help has no lines of calls between `cell` and `end`")
    said: dict[str, str] = {}
    for line, more in re.findall(r"^(  \S[^\n]*\n)((?: {3,}[^\n]*\n)*)", block["calls"], re.M):
        said[re.split(r"  +", line.strip())[0]] = line + more
    return text[: block.start("calls")] + "".join(said.get(one.line) or help_line(one) for one in calls) + text[block.end("calls") :]


def help_line(call: Call) -> str:
    """The line of a new call in the help."""
    return f"  {call.line}".ljust(HELP_COLUMN) + "; ".join(f"{name}, {kind}" for name, kind in call.arguments()) + "\n"


def help_texts(text: str, tables: Tables) -> str:
    """The texts of the help."""
    ranges = " ".join(f"{one.name}={one.least}..{one.most}" for one in tables.settings)
    filled = textwrap.fill(f"Settings: {ranges}", HELP_WIDTH, break_long_words=False, break_on_hyphens=False)
    text, count = re.subn(r"^Settings: .*?(?=\n\n)", lambda _: filled, text, flags=re.M | re.S)
    if count != 1:
        raise Fault("the help has not one paragraph that begins with `Settings: `")
    return help_lines(text, tables.calls)


def replies(text: str, tables: Tables) -> str:
    """The tool that reads answers."""
    counted = ", ".join(f'"{one.word}"' for one, count in tables.counted if count.reply == "count")
    measured = ", ".join(f'"{one.word}": "{count.reply}"' for one, count in tables.counted if count.reply != "count")
    text = source_tables.filled(text, r"COUNTED = \(([^)]*)\)", counted)
    return source_tables.filled(text, r"MEASURED = \{([^}]*)\}", measured)


def setting_rows(tables: Tables) -> list[python_tables.Row]:
    """The settings as sim/ and python/ have them."""
    return [python_tables.Row(one.name, one.least, one.most, one.standard, one.device, one.note) for one in tables.settings]


def sim_file(tables: Tables) -> str:
    """sim/settings.json."""
    return json.dumps([asdict(one) for one in setting_rows(tables)], indent=2) + "\n"


def python_files(wf_h: str, tables: Tables) -> dict[Path, str]:
    """The modules of python/wfpath that are made from this text of the header."""
    refusals = {one.number: python_tables.Named(one.word, one.count.reply if one.count else "") for one in tables.refusals}
    try:
        return {
            PYTHON: python_tables.tables_module(wf_h, setting_rows(tables)),
            ERRORS: python_tables.errors_module(wf_h, refusals),
        }
    except (KeyError, ValueError) as why:
        raise Fault(f"include/wf.h has another form than tools/wfdev/header.py reads: {why}") from why


def made(top: Path) -> Mapping[Path, str]:
    """The text of each file that is generated, or has generated regions."""
    tables = read(top)
    sources = source_tables.files(top, tables)
    texts = {path: (top / path).read_text(encoding="utf-8") for path in (TRACE, MACHINE, HELP, REPLIES)}
    wf_h = header(sources[HEADER], tables)
    return {
        **sources,
        HEADER: wf_h,
        TRACE: trace_page(texts[TRACE], tables),
        MACHINE: machine_page(texts[MACHINE], tables),
        HELP: help_texts(texts[HELP], tables),
        REPLIES: replies(texts[REPLIES], tables),
        SIM: sim_file(tables),
        **python_files(wf_h, tables),
    }


def differences(top: Path) -> dict[Path, str]:
    """The files that are out of date, each with the text that it has to have."""
    return {path: text for path, text in made(top).items() if not (top / path).exists() or (top / path).read_text(encoding="utf-8") != text}


def main(words: Sequence[str]) -> int:
    """Writes the files, or with --check names those that are out of date."""
    if list(words) not in ([], ["--check"]):
        print("usage: tools/tables [--check]", file=sys.stderr)
        return 2
    try:
        found = differences(TOP)
    except Fault as fault:
        print(f"tables: {fault}", file=sys.stderr)
        return 1
    for path, text in found.items():
        if words:
            print(f"tables: {path} is out of date: run tools/tables")
        else:
            (TOP / path).write_text(text, encoding="utf-8")
            print(f"tables: wrote {path}")
    return 1 if words and found else 0
