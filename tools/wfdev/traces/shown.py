"""The outputs of `./wf replay --echo` and `--json`."""
from __future__ import annotations

import json
from collections.abc import Iterable
from typing import Protocol

from . import calls, replies
from .lines import Line
from .runs import Answered, Event, Faulted, Headed, Summed

MARK = "> "


class View(Protocol):
    """A way to show a run."""

    def shown(self, events: Iterable[Event]) -> str:
        """Returns the text for the next events."""

    def ended(self) -> str:
        """Returns the text that follows the last event."""


class Echo:
    """Each call's line after a mark, before its answer. Without the lines that have the mark this is the
    program's output."""

    def shown(self, events: Iterable[Event]) -> str:
        """Returns the text for the next events."""
        return "".join(self._event(event) for event in events)

    def ended(self) -> str:
        """Returns nothing."""
        return ""

    def _event(self, event: Event) -> str:
        match event:
            case Headed():
                return ""
            case Answered(line, answer):
                return f"{MARK}{line.text}\n{answer}\n"
            case Faulted(line, text):
                return f"{MARK}{line.text}\n{text}\n" if line else f"{text}\n"
            case Summed(text):
                return f"{text}\n"


class Json:
    """An object for each answer, a line each, and one for the summary; `has_calls` adds the call of each
    answer."""

    def __init__(self, has_calls: bool = False) -> None:
        self._has_calls = has_calls
        self._summary: list[str] = []

    def shown(self, events: Iterable[Event]) -> str:
        """Returns the text for the next events."""
        return "".join(self._event(event) for event in events)

    def ended(self) -> str:
        """Returns the object of the summary, if there is one."""
        return _object(replies.read_summary(self._summary)) if self._summary else ""

    def _event(self, event: Event) -> str:
        match event:
            case Headed():
                return ""
            case Answered(line, answer):
                reply = replies.read(answer)
                return _object({"kind": reply.kind, "line": line.number, **reply.fields, **self._call(line)})
            case Faulted(_, text):
                return _object(replies.read_fault(text))
            case Summed(text):
                self._summary.append(text)
                return ""

    def _call(self, line: Line) -> replies.Fields:
        if not self._has_calls:
            return {}
        call = calls.read(line.text)
        return {"call": {"kind": call.kind, "caller": call.caller, **call.fields}}


def _object(fields: replies.Fields) -> str:
    """Returns an object as a line."""
    return json.dumps(fields, separators=(", ", ": ")) + "\n"
