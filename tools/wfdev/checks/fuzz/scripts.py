"""Scripts of `wf session` and `wf uplink` played on their models: SESSION.md and UPLINK.md."""
import re
from collections.abc import Callable, Iterable, Iterator
from dataclasses import dataclass

from wfdev.checks.uplinks.model import Model, Rate
from wfdev.model import agreement, grammar
from wfdev.model.grammar import Argument, Call, Fault, Form, Forms, NumberIn, OneOf
from wfdev.model.text import BAD_INPUT, WELL

OCTETS = re.compile(r"(?:[0-9a-f]{2}){1,50}")


@dataclass(frozen=True)
class Hexadecimal(Argument):
    """The octets of a frame or a request, as hexadecimal digits."""

    def fault(self, word: str) -> str | None:
        """Returns the kind of the word's fault, if it has one."""
        return None if OCTETS.fullmatch(word) else "number"

    def value(self, word: str) -> object:
        """Returns the octets."""
        return bytes.fromhex(word)


STATION = NumberIn(range(65_536))
UPLINK_LINES = {
    "open": [Form((STATION, STATION, STATION))],
    "plain": [Form((STATION,))],
    "rate": [Form((STATION, NumberIn(range(16)), OneOf(("20", "40")), OneOf(("long", "short"))))],
    "tick": [Form((NumberIn(range(10_000_001)),))],
    "frame": [Form((Hexadecimal(),))],
    "bar": [Form((Hexadecimal(),))],
    "end": [Form()],
}


def uplink_step(model: Model, event: Call) -> str:
    """Plays an event of an uplink, and returns its answer."""
    if event.name == "rate":
        station, mcs, mhz, guard = event.values
        assert isinstance(station, int) and isinstance(mcs, int) and isinstance(mhz, str)
        return model.rate(station, Rate(mcs, int(mhz), guard == "short"))
    answer: str = getattr(model, event.name)(*event.values)
    return answer


@dataclass(frozen=True)
class Rules:
    """How a script is read and played: its lines, an event, what follows the end, and the most events."""

    lines: Forms
    step: Callable[[Call], str]
    totals: Callable[[], Iterable[str]]
    most: int | None = None


def answers(octets: bytes, rules: Rules) -> Iterator[str]:
    """Yields the lines that are written for a script; the last is a fault if the script has one."""
    events, number = 0, 0
    for number, line in enumerate(grammar.lines_of(octets), 1):
        try:
            words = grammar.words_of(line)
            event = grammar.read(words, rules.lines) if words else None
            if event and event.name != "end" and events == rules.most:
                raise Fault("too-long")
        except Fault as fault:
            yield f"fault line {number} {fault.kind}"
            return
        if event and event.name == "end":
            yield from rules.totals()
            return
        if event:
            events += 1
            yield rules.step(event)
    yield f"fault line {number + 1} no-end"


def played(octets: bytes, rules: Rules) -> tuple[bytes, int]:
    """Returns the output for a script, and the status."""
    lines = list(answers(octets, rules))
    status = BAD_INPUT if lines[-1].startswith("fault ") else WELL
    return "".join(line + "\n" for line in lines).encode(), status


def session(octets: bytes) -> tuple[bytes, int]:
    """Returns the output of `wf session` for a script, and its status."""
    ends = agreement.Ends()
    return played(octets, Rules(agreement.LINES, ends.step, ends.totals, agreement.MOST_EVENTS))


def uplink(octets: bytes) -> tuple[bytes, int]:
    """Returns the output of `wf uplink` for a script, and its status."""
    model = Model()
    rules = Rules(UPLINK_LINES, lambda event: uplink_step(model, event), lambda: [model.totals()])
    return played(octets, rules)
