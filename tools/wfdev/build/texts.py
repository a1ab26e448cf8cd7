"""The help: the program's texts, which are read from its sources so that nothing has to be built, and those of the script's words."""
from __future__ import annotations

import functools
import pathlib
import re

from . import fresh
from .report import Failure
from .words import BY_NAME, EXTENDED, EXTENSIONS, QUIET, TABLE

TEXTS = pathlib.Path("crates/wf_run/src/help/texts.rt")
TEXT = re.compile(r'^pub const (\w+): [^"]*"(.*?)^";$', re.M | re.S)
WIDTH = 30


@functools.cache
def program_texts() -> dict[str, str]:
    """Returns the program's texts by their names."""
    path = pathlib.Path(fresh.TOP) / TEXTS
    try:
        return dict(TEXT.findall(path.read_text(encoding="utf-8")))
    except OSError as fault:
        raise Failure(f"{path}: {fault.strerror}; the checkout is not complete") from None


def text(name: str) -> str:
    """Returns one of the program's texts."""
    try:
        return program_texts()[name]
    except KeyError:
        raise Failure(f"{TEXTS} has no text {name}") from None


@functools.cache
def program_forms() -> tuple[str, ...]:
    """Returns the ways to call the program, without its name: `replay [--pcap] < TRACE`."""
    return tuple(re.findall(r"\bwf (.+)", text("USAGE")))


def program_words() -> list[str]:
    """Returns the program's words that read or write something: each has a help text."""
    words = dict.fromkeys(form.split()[0] for form in program_forms())
    return [word for word in words if word.upper() in program_texts()]


def topics() -> list[str]:
    """Returns the words that `./wf help` takes."""
    return [*program_words(), "faults", *BY_NAME]


def script_overview() -> str:
    """Returns the part of the overview with the script's own words."""
    lines = ["", "The script ./wf has further words:", ""]
    for forms in (*(word.forms for word in TABLE), *(one.forms for one in EXTENSIONS)):
        for form in forms:
            call = f"  ./wf {form.words}"
            lines += [f"{call:{WIDTH}}  {form.does}"] if len(call) <= WIDTH else [call, f"{'':{WIDTH}}  {form.does}"]
    lines += [f"{f'  ./wf {QUIET} WORDS':{WIDTH}}  leaves out the notes on standard error", ""]
    lines += ["'./wf help WORD' says more of each. Status 125: ./wf itself could not do its part, and standard error says why."]
    lines += ["Nothing that the script adds to the program is proved."]
    return "\n".join(lines) + "\n"


def help_on(topic: str | None) -> str:
    """Returns the help on a word, or the overview."""
    if topic is None:
        return text("OVERVIEW") + script_overview()
    if topic in BY_NAME:
        word = BY_NAME[topic]
        return f"./wf {word.usage}\n\n{word.details}\n"
    more = f"\n{EXTENDED[topic].details}\n" if topic in EXTENDED else ""
    return text(topic.upper()) + more


def usage() -> str:
    """Returns the program's forms and the script's, as an answer to words that are none."""
    forms = [form.words for extension in EXTENSIONS for form in extension.forms]
    forms += [word.usage for word in TABLE]
    return text("USAGE") + "".join(f"       ./wf {form}\n" for form in forms)
