"""Words that are no command are refused before anything is built."""
from __future__ import annotations

import difflib
import re

from . import texts
from .words import BY_NAME

RANGE = re.compile(r"^  ([A-Z]+) +(\d+)\.\.(\d+)", re.M)
NEAR = 0.65


def ranges(word: str) -> list[tuple[str, int, int]]:
    """Returns the arguments of a word that are numbers, each with its range, as its help has them."""
    return [(name, int(low), int(high)) for name, low, high in RANGE.findall(texts.text(word.upper()))]


def are_numbers(words: list[str], wanted: list[tuple[str, int, int]]) -> bool:
    """Returns whether these words are as many numbers as there are arguments, each in its range."""
    numbers = [int(word) for word in words if re.fullmatch("0|[1-9][0-9]{0,19}", word)]
    return len(numbers) == len(words) == len(wanted) and all(low <= number <= high for number, (_, low, high) in zip(numbers, wanted))


def without_option(word: str, rest: list[str]) -> list[str]:
    """Returns the words after a word without the last one, if that may follow its numbers, as in `soak SEED CALLS [device]`."""
    forms = [form for form in texts.program_forms() if form.split()[0] == word]
    options = [found for form in forms for found in re.findall(r"\[([a-z |]+)\]", form)]
    known = [option for one in options for option in one.split(" | ")]
    return rest[:-1] if rest[-1:] and rest[-1] in known else rest


def nearest(word: str) -> str | None:
    """Returns the word that a mistyped one is most like."""
    found = difflib.get_close_matches(word, [*texts.program_words(), *BY_NAME, "help"], 1, NEAR)
    return found[0] if found else None


def why_refused(words: list[str]) -> str | None:
    """Returns why the program would refuse these words, or None."""
    word, *rest = words
    if word in texts.program_words():
        wanted = ranges(word)
        if are_numbers(without_option(word, rest), wanted):
            return None
        *first, last = [f"{name}, {low}..{high}" for name, low, high in wanted]
        return f"{word} takes {', '.join(first)}, and {last}"
    if word == "help":
        *first, last = texts.topics()
        return f"there is help on {', '.join(first)} and {last}"
    near = nearest(word)
    return "no such command" + (f"; did you mean {near}?" if near else " ('./wf help' lists all)")
