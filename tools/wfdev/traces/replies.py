"""The answers of a replay: their lines read into the fields of the structs of include/wf.h.

An answer has the fields of `struct wf_reply` that its kind gives a meaning. Kinds, refusals, fates and
classes are the words of the trace. The frames of an aggregate are a `struct wf_frames`, those that a station
passes up a `struct wf_passed_up`, and a BlockAck is a `struct wf_block`, whose bits are hexadecimal, 16
digits a number, since many readers of JSON round numbers above 2^53. """
from __future__ import annotations

import dataclasses
from collections.abc import Callable
from typing import Any

Fields = dict[str, Any]
COUNTED = ("open", "room", "sleeping", "full", "waits", "buffered")
MEASURED = {"debt": "deficit", "ahead": "air"}
DIGITS = 16
WIDE_DIGITS = 64
TALLY = ("acked", "overlimit", "codel", "retries", "left", "flushed", "ended")


@dataclasses.dataclass(frozen=True)
class Reply:
    """An answer: its kind, which is the first word of its line, and what it says."""

    kind: str
    fields: Fields

    def number(self, name: str) -> int:
        """Returns a field that is a number; 0 if the answer does not have it."""
        return int(self.fields.get(name, 0))

    @property
    def refusal(self) -> str:
        """The word of the refusal; empty if the call was not refused."""
        return str(self.fields.get("refusal", ""))

    @property
    def frames(self) -> list[tuple[int, int]]:
        """The frames of an aggregate: the id and the sequence number of each."""
        found = self.fields.get("frames", {"ids": [], "numbers": []})
        return list(zip(found["ids"], found["numbers"]))


def _accepted(words: list[str]) -> Fields:
    fields: Fields = {"id": int(words[0]), "has_dropped": len(words) > 1}
    return {**fields, "dropped": int(words[2])} if len(words) > 1 else fields


def _send(words: list[str]) -> Fields:
    exchange, station, tid, air = (int(words[at]) for at in (0, 2, 4, 6))
    fields: Fields = {
        "exchange": exchange, "station": station, "tid": tid, "air": air, "request": words[7] == "bar"
    }
    if fields["request"]:
        return {**fields, "start": int(words[8]), "more": False, "eosp": False}
    more, eosp = "more" in words[8:], words[-1] == "eosp"
    sent = [word for word in words[8:] if word not in ("more", "eosp")]
    pairs = [[word, "0"] if words[7] == "batch" else word.split(":") for word in sent]
    ids, numbers = [int(one) for one, _ in pairs], [int(other) for _, other in pairs]
    how = {words[7]: True} if words[7] in ("batch", "plain") else {}
    return {**fields, **how, "more": more, "eosp": eosp, "frames": {"ids": ids, "numbers": numbers, "count": len(ids)}}


def _released(words: list[str]) -> Fields:
    return {"passed_up": {"ids": [int(word) for word in words], "count": len(words)}}


def _ba(words: list[str]) -> Fields:
    bits = words[1].rjust(WIDE_DIGITS, "0")
    parts = [bits[at : at + DIGITS] for at in range(0, WIDE_DIGITS, DIGITS)]
    return {"block": {"bits": parts[::-1], "start": int(words[0]), "wide": len(words[1]) == WIDE_DIGITS}}


def _gsend(words: list[str]) -> Fields:
    return {"id": int(words[0]), "start": int(words[1]), "air": int(words[3]), "more": words[-1] == "more"}


def _refused(words: list[str]) -> Fields:
    fields: Fields = {"refusal": words[0]}
    if len(words) > 1:
        fields["count" if words[0] in COUNTED else MEASURED[words[0]]] = int(words[1])
    return fields


READERS: dict[str, Callable[[list[str]], Fields]] = {
    "left": lambda words: {"count": int(words[0])},
    "flushed": lambda words: {"count": int(words[0])},
    "held": lambda words: {"start": int(words[0])},
    "ceased": lambda words: {"count": int(words[0]), **_released(words[1:])},
    "now": lambda words: {"now": int(words[0])},
    "accepted": _accepted,
    "send": _send,
    "released": _released,
    "ba": _ba,
    "done": lambda words: {"acked": int(words[1]), "waiting": int(words[3]), "failed": int(words[5])},
    "polled": lambda words: {"class_": words[0]},
    "triggered": lambda words: {"class_": words[0]},
    "charged": lambda words: {"deficit": int(words[0])},
    "reaped": lambda words: {"id": int(words[0]), "fate": words[1]},
    "queued": lambda words: {"id": int(words[0])},
    "beacon": lambda words: {"count": int(words[0]), "more": words[1] == "1"},
    "gsend": _gsend,
    "gdone": lambda words: {"id": int(words[0])},
    "refused": _refused,
}


def read(text: str) -> Reply:
    """Returns the answer of a line."""
    kind, *words = text.split()
    return Reply(kind, READERS[kind](words) if kind in READERS else {})


def read_share(words: list[str]) -> Fields:
    """Returns a station's airtime in a class: a `struct wf_share` with the station and the class."""
    numbers = dict(zip(words[2::2], map(int, words[3::2])))
    return {"station": int(words[0]), "class_": words[1], **numbers}


def fields_of_bss(found: Fields, words: list[str]) -> Fields:
    """Returns where the words of a line about a BSS belong: the summary, or an object in its list `bsses` if there are several."""
    if words[-2:-1] != ["bss"]:
        return found
    bsses: list[Fields] = found.setdefault("bsses", [])
    number = int(words[-1])
    if number == len(bsses):
        bsses.append({"bss": number})
    return bsses[number]


def read_summary(texts: list[str]) -> Fields:
    """Returns what the lines of a summary say; the frames are a `struct wf_tally`."""
    found: Fields = {"kind": "summary", "shares": []}
    for word, *words in (text.split() for text in texts):
        if word in ("calls", "now"):
            found[word] = int(words[0])
        elif word == "frames":
            counts = dict(zip(words[1::2], map(int, words[2::2])))
            found["tally"] = {"accepted": int(words[0]), **{name: counts.get(name, 0) for name in TALLY}}
            found["held"] = counts["held"]
        elif word == "exchanges":
            found.update(exchanges=int(words[0]), open=int(words[2]))
        elif word == "sta":
            found["shares"].append(read_share(words))
        elif word == "group":
            fields_of_bss(found, words)["group"] = {"accepted": int(words[0]), **dict(zip(words[1:7:2], map(int, words[2:7:2])))}
        elif word == "tim":
            fields_of_bss(found, words)["tim"] = words[0]
    return found


def read_fault(text: str) -> Fields:
    """Returns what a fault line says."""
    _, _, number, kind = text.split()
    return {"kind": "fault", "line": int(number), "fault": kind}
