"""The text of traces (docs/TRACE.md): the head, and the line of each call."""
from __future__ import annotations

from typing import NamedTuple

from ._tables import RANGES, AccessClass, CallKind, CallStruct, Form, Settings
from .rates import Rate

# The fields of each call.
FIELDS: dict[CallKind, tuple[str, ...]] = {
    CallKind.JOIN: ("station", "window", "start", "exponent", "weight"),
    CallKind.LEAVE: ("station",),
    CallKind.RATE: ("station", "form", "mcs", "mhz", "short_guard", "streams", "guard", "speed"),
    CallKind.TICK: ("by",),
    CallKind.ENQUEUE: ("station", "tid", "flow", "length"),
    CallKind.PULL: ("class_", "frames", "air"),
    CallKind.ARRIVE: ("exchange", "index"),
    CallKind.ANSWER: ("exchange",),
    CallKind.DONE: ("exchange", "heard", "air"),
    CallKind.SLEEP: ("station",),
    CallKind.WAKE: ("station",),
    CallKind.POLL: ("station",),
    CallKind.RX: ("station", "class_", "air"),
    CallKind.REAP: (),
    CallKind.AMPDU: ("station", "octets"),
    CallKind.STOP: ("station",),
    CallKind.START: ("station",),
    CallKind.UNSENT: ("exchange", "index"),
    CallKind.GIVEUP: ("exchange", "index"),
    CallKind.FLUSH: ("station", "tid"),
    CallKind.OFFLOAD: ("station", "exponent", "weight"),
    CallKind.WEIGHT: ("station", "weight"),
    CallKind.PLAIN: ("station", "start", "exponent", "weight"),
    CallKind.HOLD: ("station", "tid"),
    CallKind.BEGIN: ("station", "tid", "window"),
    CallKind.FREE: ("station", "tid"),
    CallKind.CEASE: ("station", "tid"),
    CallKind.GROUP: ("length", "bss"),
    CallKind.BEACON: ("bss",),
    CallKind.GPULL: ("bss",),
    CallKind.GDONE: ("bss",),
    CallKind.APSD: ("station", "classes", "most"),
    CallKind.TRIGGER: ("station",),
    CallKind.EOSP: ("station",),
    CallKind.BSS: ("station", "bss"),
}
WORDS = {CallKind.ENQUEUE: "enq"}


class Entry(NamedTuple):
    """An entry of a history: who made the call, its kind, and its fields by the names of struct wf_call."""

    caller: int
    kind: CallKind
    fields: dict[str, int]

    def __str__(self) -> str:
        """The call's line in a trace."""
        head = f"@{self.caller} " if self.caller else ""
        return head + " ".join([WORDS.get(self.kind, self.kind.word), *arguments(self.kind, self.fields)])


def entry(caller: int, call: CallStruct) -> Entry:
    """Returns an entry for a struct of the library."""
    kind = CallKind(call.kind)
    return Entry(caller, kind, {name: int(getattr(call, name)) for name in FIELDS[kind]})


def arguments(kind: CallKind, fields: dict[str, int]) -> tuple[str, ...]:
    """Returns the words after the first one of a call's line."""
    if kind == CallKind.RATE:
        return (str(fields["station"]), str(rate(fields)))
    if kind == CallKind.PULL:
        limits = [(name, str(fields[name])) for name in ("frames", "air") if fields[name]]
        return (AccessClass(fields["class_"]).word, *(word for limit in limits for word in limit))
    if kind == CallKind.DONE:
        heard = "heard" if fields["heard"] else "lost"
        return (str(fields["exchange"]), heard, *(("air", str(fields["air"])) if fields["air"] else ()))
    if kind != CallKind.BSS and not fields.get("bss"):
        # The line of a call about the group frames of BSS 0 leaves it out.
        fields = {name: value for name, value in fields.items() if name != "bss"}
    return tuple(
        AccessClass(value).word if name == "class_" else str(value) for name, value in fields.items()
    )


def rate(fields: dict[str, int]) -> Rate:
    """Returns the rate of a call."""
    form, short_guard = Form(fields["form"]), fields["short_guard"] != 0
    numbers = (fields["streams"], fields["guard"], fields["speed"])
    return Rate(form, fields["mcs"], fields["mhz"], short_guard, *numbers)


def head(settings: Settings) -> str:
    """Returns the first line of a trace of a cell with these settings. It leaves out those that are standard, as
    a line has at most 160 octets."""
    standard = Settings()
    values = {name: getattr(settings, name) for name in RANGES}
    others = [f"{name}={value}" for name, value in values.items() if value != getattr(standard, name)]
    return " ".join(["cell", *others])
