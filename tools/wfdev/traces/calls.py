"""The calls of a trace: their lines read into the fields of `struct wf_call` (include/wf.h)."""
from __future__ import annotations

import dataclasses

Value = int | str | bool

# The arguments of each form of a call's line, by the names of their fields.
FORMS: dict[str, tuple[str, ...]] = {
    "join": ("station", "window", "start", "exponent", "weight"),
    "leave": ("station",),
    "tick": ("by",),
    "enq": ("station", "tid", "flow", "length"),
    "pull": ("class_",),
    "arrive": ("exchange", "index"),
    "answer": ("exchange",),
    "done": ("exchange", "heard"),
    "sleep": ("station",),
    "wake": ("station",),
    "poll": ("station",),
    "rx": ("station", "class_", "air"),
    "reap": (),
    "ampdu": ("station", "octets"),
    "stop": ("station",),
    "start": ("station",),
    "unsent": ("exchange", "index"),
    "giveup": ("exchange", "index"),
    "flush": ("station", "tid"),
    "offload": ("station", "exponent", "weight"),
    "weight": ("station", "weight"),
    "plain": ("station", "start", "exponent", "weight"),
    "hold": ("station", "tid"),
    "begin": ("station", "tid", "window"),
    "free": ("station", "tid"),
    "cease": ("station", "tid"),
    "group": ("length", "bss"),
    "beacon": ("bss",),
    "gpull": ("bss",),
    "gdone": ("bss",),
    "apsd": ("station", "classes", "most"),
    "trigger": ("station",),
    "eosp": ("station",),
    "bss": ("station", "bss"),
}
RATES: dict[str, tuple[str, ...]] = {
    "ht": ("station", "mcs", "mhz", "short_guard"),
    "vht": ("station", "mcs", "mhz", "short_guard", "streams"),
    "he": ("station", "mcs", "mhz", "guard", "streams"),
    "ofdm": ("station", "speed"),
    "dsss": ("station", "speed"),
}
WORDS: dict[str, dict[str, Value]] = {
    "heard": {"heard": True, "lost": False},
    "short_guard": {"short": True, "long": False},
}


@dataclasses.dataclass(frozen=True)
class Call:
    """A call: its kind, which is the first word of its line, its caller, and its arguments by name."""

    kind: str
    caller: int
    fields: dict[str, Value]

    def number(self, name: str) -> int:
        """Returns an argument that is a number; 0 if the call does not have it."""
        return int(self.fields.get(name, 0))

    def word(self, name: str) -> str:
        """Returns an argument that is a word."""
        return str(self.fields.get(name, ""))


def value(name: str, word: str) -> Value:
    """Returns the value of an argument."""
    if name in WORDS:
        return WORDS[name][word]
    return word if name == "class_" else int(word)


def named(names: tuple[str, ...], words: list[str]) -> dict[str, Value]:
    """Returns arguments by their names."""
    return {name: value(name, word) for name, word in zip(names, words)}


def rate_fields(words: list[str]) -> dict[str, Value]:
    """Returns the arguments of a rate: its second word names the format, which is otherwise HT."""
    form = words[1] if len(words) > 1 and words[1] in RATES else "ht"
    rest = words if form == "ht" else [words[0], *words[2:]]
    return {**named(RATES[form], rest), "form": form}


def pull_fields(words: list[str]) -> dict[str, Value]:
    """Returns the arguments of a pull: its class, and its limits by their words."""
    limits: dict[str, Value] = dict(zip(words[1::2], map(int, words[2::2])))
    return {**named(FORMS["pull"], words), **limits}


def read(text: str) -> Call:
    """Returns the call of a line that the program answered."""
    words = text.split()
    caller = int(words.pop(0)[1:]) if words[0].startswith("@") else 0
    kind, *rest = words
    if kind == "rate":
        return Call(kind, caller, rate_fields(rest))
    if kind == "pull":
        return Call(kind, caller, pull_fields(rest))
    fields = named(FORMS[kind], rest)
    if kind in ("join", "offload", "plain"):
        fields.setdefault("weight", 1)
    if kind == "done" and len(rest) == 4:
        fields["air"] = int(rest[3])
    return Call(kind, caller, fields)


def read_head(text: str) -> dict[str, int]:
    """Returns the settings of a head that the program took."""
    return {name: int(number) for name, _, number in (word.partition("=") for word in text.split()[1:])}
