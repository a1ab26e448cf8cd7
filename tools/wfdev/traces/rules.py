"""The rule of each refusal, as the table of docs/MACHINE.md has it."""
from __future__ import annotations

import functools
import pathlib
import re

PAGE = pathlib.Path(__file__).resolve().parents[3] / "docs" / "MACHINE.md"
ROW = re.compile(r"^\| `([a-z-]+)` \| \d+ \| (.*) \|$", re.M)
NUMBERS = ("count", "inside", "queued", "deficit", "owed")
# Sentences about one thing, where the table speaks of several.
ONE = {"1 open exchanges.": "1 open exchange.", "1 exchanges of the class are": "1 exchange of the class is"}
ONE |= {"1 group frames are": "1 group frame is", "1 frames are": "1 frame is", "1 frames of the class are": "1 frame of the class is"}
ONE |= {"1 sequence numbers of the TID wait": "1 sequence number of the TID waits"}


@functools.cache
def table() -> dict[str, str]:
    """Returns the rules by the words of their refusals. It is empty if the page is not there."""
    try:
        page = PAGE.read_text(encoding="utf-8")
    except OSError:
        return {}
    return dict(ROW.findall(page.partition("<!-- begin refusals")[2].partition("<!-- end refusals")[0]))


def rule(refusal: str, number: int | None, settings: dict[str, int]) -> str:
    """Returns the rule of a refusal, with the number of the answer and the values of the settings that it
    names."""

    def filled(found: re.Match[str]) -> str:
        name = found[1]
        if name in NUMBERS and number is not None:
            return str(number)
        return f"{name} ({settings[name]})" if name in settings else name

    text = re.sub(r"`([a-z_]+)`", filled, table().get(refusal, f"The answer is {refusal}."))
    for several, one in ONE.items():
        text = re.sub(rf"(?<!\d){re.escape(several)}", one, text)
    return text
