"""A trace played on the machine: TRACE.md, Summary and Faults."""
from collections import Counter
from collections.abc import Iterator, Sequence
from dataclasses import dataclass

from wfdev.model import grammar
from wfdev.model.calls import LINES
from wfdev.model.frames import Class, Fate
from wfdev.model.grammar import Fault, NumberIn, first_kind
from wfdev.model.machine import Machine
from wfdev.model.settings import RANGES, Settings
from wfdev.model.stations import Station
from wfdev.model.tim import tim

WELL, BAD_INPUT = 0, 2


def settings_of(words: Sequence[str]) -> Settings:
    """Returns the settings of a head's words after the first."""
    kinds: list[str | None] = []
    values: dict[str, int] = {}
    for word in words:
        name, equals, value = word.partition("=")
        if not equals or name not in RANGES or name in values:
            raise Fault("word")
        values[name] = int(value) if value.isdigit() else 0
        kinds.append(NumberIn(RANGES[name]).fault(value))
    kind = first_kind(kinds)
    if kind:
        raise Fault(kind)
    return Settings(**values)


def station_lines(machine: Machine, held: Station) -> Iterator[str]:
    """Yields the lines of a live station in the summary."""
    for access in Class:
        charged, received = held.charged[access], held.received[access]
        if charged or received:
            deficit = machine.rotations[access].deficits[held.number]
            yield f"sta {held.number} {access} charged {charged} rx {received} deficit {deficit}"


def summary(machine: Machine) -> Iterator[str]:
    """Yields the lines of the summary."""
    fates = Counter(frame.fate for frame in machine.frames)
    order = (Fate.ACKED, Fate.OVERLIMIT, Fate.CODEL, Fate.RETRIES, Fate.LEFT, Fate.HELD)
    yield f"calls {machine.calls}"
    yield f"now {machine.now}"
    later = [fate for fate in (Fate.FLUSHED, Fate.ENDED) if fates[fate]]
    yield f"frames {len(machine.frames)} " + " ".join(f"{fate} {fates[fate]}" for fate in (*order, *later))
    yield f"exchanges {machine.pulled} open {len(machine.exchanges)}"
    for _, held in sorted(machine.stations.items()):
        yield from station_lines(machine, held)
    for bss, group in enumerate(machine.groups):
        which = f" bss {bss}" if len(machine.groups) > 1 else ""
        if machine.settings.buffered:
            yield f"group {group.accepted} sent {group.sent} held {group.held} air {group.air}{which}"
        yield f"tim {tim(machine.announced(bss), group.count, group.period, group.announced).hex()}{which}"


@dataclass
class Player:
    """A trace that is played line by line. Its status is None until its end."""

    machine: Machine | None = None
    lines: int = 0
    status: int | None = None

    def play(self, line: bytes) -> str:
        """Plays a line, and returns its output."""
        self.lines += 1
        try:
            words = grammar.words_of(line)
            return self.take(words) if words else ""
        except Fault as fault:
            return self.fail(self.lines, fault.kind)

    def take(self, words: Sequence[str]) -> str:
        """Plays a line with these words."""
        if words[0] == "cell":
            if self.machine is not None:
                raise Fault("word")
            self.machine = Machine(settings_of(words[1:]))
            return ""
        call = grammar.read(words, LINES, has_callers=True)
        if self.machine is None:
            raise Fault("no-head")
        if call.name == "end":
            self.status = WELL
            return "".join(line + "\n" for line in summary(self.machine))
        if self.machine.calls >= self.machine.settings.calls:
            raise Fault("too-long")
        return f"{self.machine.step(call)}\n"

    def fail(self, line: int, kind: str) -> str:
        """Ends the trace with a fault."""
        self.status = BAD_INPUT
        return f"fault line {line} {kind}\n"

    def finish(self) -> str:
        """Ends the input, and returns the output for its end."""
        if self.status is not None:
            return ""
        return self.fail(self.lines + 1, "no-head" if self.machine is None else "no-end")


def replay(octets: bytes) -> tuple[str, int]:
    """Returns the output of `wf replay` for a trace, and its status."""
    player = Player()
    written: list[str] = []
    for line in grammar.lines_of(octets):
        written.append(player.play(line))
        if player.status is not None:
            break
    written.append(player.finish())
    assert player.status is not None
    return "".join(written), player.status


def beacons(octets: bytes) -> list[list[int]]:
    """Returns the AIDs in the TIM of each beacon of a trace, rising, which its answers do not have."""
    player = Player()
    found: list[list[int]] = []
    for line in grammar.lines_of(octets):
        written = player.play(line)
        if player.status is not None:
            break
        if written.startswith("beacon ") and player.machine is not None:
            (bss,) = grammar.read(grammar.words_of(line), LINES, has_callers=True).values or (0,)
            found.append(sorted(player.machine.announced(int(str(bss)))))
    return found


def batches(octets: bytes) -> dict[int, list[int]]:
    """Returns the numbers of each batch of a trace, which its answers do not have."""
    player = Player()
    for line in grammar.lines_of(octets):
        player.play(line)
        if player.status is not None:
            break
    return {} if player.machine is None else player.machine.batches
