"""The machine: a path whose every decision is an answer of the program or of the C library. `Held` is what both have in common."""
from __future__ import annotations

from collections.abc import Sequence
from typing import TextIO

from .fields import Fault
from .frames import Exchange, Frame, GroupSend, Path
from .program import Pipe
from .rates import Rate
from .scenario import Flow, Scenario, Station
from .settings import settings as known_settings

LONGEST_LINE = 160  # octets of a line of a trace
LONGEST_TICK = 10_000_000
MOST_COMING = 200  # enqueues whose answers are not noted yet


class NoRoom(Fault):
    """The history of the library's cell is full, or there is no memory for it: a program takes more calls."""

    def __init__(self) -> None:
        super().__init__("the run has more calls than the library has memory for: expected a program wf on the PATH, which takes more")


def measured(exchange: Exchange) -> str:
    """The words of a `done` for the airtime that the driver measured, if it charges that."""
    return "" if exchange.charge is None else f" air {exchange.charge}"


def of_bss(line: str, bss: int) -> str:
    """The line of a call about the group frames of a BSS."""
    return f"{line} {bss}" if bss else line


def head_of(settings: dict[str, int]) -> str:
    """The first line of a trace with these settings. Those that have their standard values are left out."""
    words = [f"{name}={value}" for name, value in settings.items() if value != known_settings()[name].standard]
    head = " ".join(["cell", *words])
    if len(head) > LONGEST_LINE:
        raise Fault(f"the settings make a trace's first line of {len(head)} octets: expected at most {LONGEST_LINE}, so set fewer of them")
    return head


class Held(Path):
    """A machine's frames as the bench knows them.

    Answers to enqueues are noted together, when another call needs its answer: on a pipe that saves round trips. That CoDel dropped a
    frame is known at the next reap, at the end of the exchange after it.
    """

    def __init__(self, scenario: Scenario) -> None:
        super().__init__()
        self.room = min(scenario.setting("limit"), scenario.setting("room"))
        self.room_asleep = scenario.setting("sleeping")
        self.told = 0  # the machine's clock, after the calls that wait
        self.coming = 0  # enqueues whose answers are not noted yet
        self.uncounted = 0  # frames among them that are not in `frames`
        self.frames: list[Frame] = []  # all accepted frames: a frame's id is its place
        self.inside = 0  # frames among them that are not reaped
        self.of_station = [0] * len(scenario.stations)  # frames inside, and those that are coming
        self.asleep: set[int] = set()
        self.unreaped = 0  # frames on the machine's finished list, as far as answers have shown

    def settings(self, scenario: Scenario, calls: int) -> dict[str, int]:
        """The settings of the scenario and the most calls that the machine takes."""
        most = min(calls, scenario.settings.get("calls", calls))
        return {**scenario.settings, "inflight": scenario.air.inflight, "calls": most}

    def can_sleep(self) -> bool:
        return True

    def has_room(self, flow: Flow) -> bool:
        station = flow.station.number
        if station in self.asleep and self.of_station[station] >= self.room_asleep:
            return False
        return self.inside + self.uncounted < self.room

    def entered(self, frame: Frame) -> None:
        """Notes that a frame was accepted, with the next id."""
        self.frames.append(frame)
        self.inside += 1

    def refused(self, frame: Frame, came: int) -> None:
        """Notes that a frame was refused."""
        self.of_station[frame.station] -= 1
        self.end_at(frame, "refused", came)

    def overflowed(self, number: int, came: int) -> None:
        """Notes that a frame was dropped because the queues were full when another one came."""
        self.unreaped += 1
        self.end_at(self.frames[number], "overlimit", came)

    def reaped(self, number: int, fate: str) -> None:
        """Notes that a frame was reaped. CoDel's drops, and only these, were not counted when they came on the list."""
        frame = self.frames[number]
        self.inside -= 1
        self.of_station[frame.station] -= 1
        if fate != "codel":
            self.unreaped -= 1
        if fate != "overlimit":
            self.end(frame, fate)


class Machine(Held):
    """A cell of `wf replay`, call by call on a pipe.

    Calls are collected and written together, as soon as one of them needs its answer: frames that come while the driver is full cost
    no round trip. No call is made that is not needed: one tick for all that happens at one time, and as many reaps as frames ended.
    """

    def __init__(self, scenario: Scenario, program: str, calls: int, copy: TextIO | None = None) -> None:
        super().__init__(scenario)
        settings = self.settings(scenario, calls)
        self.pipe = Pipe(program, head_of(settings), settings["calls"], copy)
        self.lines: list[str] = []  # calls that wait
        self.notes: list[tuple[int, Frame, int]] = []  # for each enqueue among them its place, the frame, and the time

    def add(self, line: str) -> None:
        """Adds a call that waits, after the ticks to the present."""
        while self.told < self.now:
            step = min(self.now - self.told, LONGEST_TICK)
            self.told += step
            self.lines.append(f"tick {step}")
        self.lines.append(line)

    def ask(self, lines: Sequence[str]) -> list[str]:
        """The answers to these calls; calls that wait go before them."""
        for line in lines:
            self.add(line)
        asked, notes = self.lines, self.notes
        self.lines, self.notes, self.coming, self.uncounted = [], [], 0, 0
        answers = self.pipe.ask(asked)
        for place, frame, came in notes:
            self.note(frame, came, answers[place].split())
        return answers[len(answers) - len(lines) :]

    def note(self, frame: Frame, came: int, answer: list[str]) -> None:
        """Notes the answer to an enqueue: accepted, with the frame that was dropped for it, or refused."""
        if answer[0] != "accepted":
            self.refused(frame, came)
            return
        self.entered(frame)
        if len(answer) > 2:
            self.overflowed(int(answer[3]), came)

    def must(self, line: str, expected: str) -> str:
        """The answer to a call that the machine cannot refuse here."""
        answer = self.ask([line])[0]
        if answer.split()[0] != expected:
            raise Fault(f"the machine answers '{line}' with '{answer}': expected '{expected}'")
        return answer

    def join(self, station: Station) -> None:
        if station.offload:
            form = f"offload {station.number}"
        elif station.joins_plain:
            form = f"plain {station.number} 0"
        else:
            form = f"join {station.number} {station.window} 0"
        self.must(f"{form} 3 {station.weight}", "joined")

    def leave(self, station: Station) -> None:
        self.unreaped += int(self.must(f"leave {station.number}", "left").split()[1])
        self.reap()

    def set_rate(self, station: Station, rate: Rate) -> None:
        self.must(f"rate {station.number} {rate}", "set")

    def sleep(self, station: Station) -> None:
        self.must(f"sleep {station.number}", "slept")
        self.asleep.add(station.number)

    def wake(self, station: Station) -> None:
        self.must(f"wake {station.number}", "woken")
        self.asleep.discard(station.number)

    def hold(self, station: Station, tid: int) -> None:
        self.must(f"hold {station.number} {tid}", "held")

    def begin(self, station: Station, tid: int) -> None:
        self.must(f"begin {station.number} {tid} {station.window}", "begun")

    def free(self, station: Station, tid: int) -> None:
        self.must(f"free {station.number} {tid}", "freed")

    def poll(self, station: Station) -> str | None:
        answer = self.ask([f"poll {station.number}"])[0].split()
        return answer[1] if answer[0] == "polled" else None

    def apsd(self, station: Station) -> None:
        self.must(f"apsd {station.number} {station.classes} {station.most}", "set")

    def trigger(self, station: Station) -> bool:
        return self.ask([f"trigger {station.number}"])[0].startswith("triggered ")

    def end_service(self, station: Station) -> None:
        self.must(f"eosp {station.number}", "ended")

    def received(self, station: Station, frame_class: str, air: int) -> None:
        """Charges a station for what it sent. The machine refuses that to a station whose deficit is as low as it can be."""
        self.add(f"rx {station.number} {frame_class} {air}")

    def enqueue(self, frame: Frame) -> None:
        self.of_station[frame.station] += 1
        self.coming += 1
        self.uncounted += 1
        self.add(f"enq {frame.station} {frame.tid} {frame.flow.number} {frame.octets}")
        self.notes.append((len(self.lines) - 1, frame, self.now))
        if self.coming >= MOST_COMING:
            self.ask([])

    def set_bss(self, station: Station) -> None:
        self.must(f"bss {station.number} {station.bss}", "set")

    def group(self, octets: int, bss: int) -> bool:
        return self.ask([of_bss(f"group {octets}", bss)])[0].startswith("queued ")

    def beacon(self, bss: int) -> bool:
        return self.must(of_bss("beacon", bss), "beacon").endswith(" 1")

    def group_pull(self, bss: int) -> GroupSend | None:
        words = self.ask([of_bss("gpull", bss)])[0].split()
        return GroupSend(int(words[1]), int(words[4]), words[-1] == "more") if words[0] == "gsend" else None

    def group_done(self, bss: int) -> None:
        self.must(of_bss("gdone", bss), "gdone")

    def pull(self, frame_class: str) -> Exchange | None:
        words = self.ask([f"pull {frame_class}"])[0].split()
        self.is_ahead = words[1] == "ahead"
        if words[0] != "send":
            return None
        listed = words[9:] if words[8] != "bar" else []
        frames = [self.frames[int(word.partition(":")[0])] for word in listed if word not in ("more", "eosp")]
        number, station, tid, air = (int(words[at]) for at in (1, 3, 5, 7))
        kinds = {"is_batch": words[8] == "batch", "is_plain": words[8] == "plain", "eosp": words[-1] == "eosp"}
        return Exchange(number, station, tid, air, frames, **kinds)

    def finish(self, exchange: Exchange, arrived: Sequence[bool], heard: bool) -> list[Frame]:
        number = exchange.number
        indices = [index for index, has_arrived in enumerate(arrived) if has_arrived]
        lines = [f"arrive {number} {index}" for index in indices]
        if indices:
            lines.append(f"answer {number}")
        lines.append(f"done {number} {'heard' if heard else 'lost'}{measured(exchange)}")
        done = len(lines)
        if heard and exchange.frames:
            lines += ["reap"] * len(indices)  # at least this many are acknowledged now
        answers = self.ask(lines)
        released = [self.frames[int(word)] for answer in answers[: len(indices)] for word in answer.split()[1:]]
        self.count_done(lines[done - 1], answers[done - 1])
        self.note_reaped(answers[done:])
        self.reap()
        return released

    def report(self, exchange: Exchange, acked: Sequence[int], unsent: Sequence[int], is_over: bool) -> None:
        number = exchange.number
        lines = [f"arrive {number} {index}" for index in acked]
        lines += [f"unsent {number} {index}" for index in unsent]
        if is_over:
            lines.append(f"done {number} heard{measured(exchange)}")
        answers = self.ask(lines)
        if is_over:
            self.count_done(lines[-1], answers[-1])
            self.reap()

    def count_done(self, line: str, answer: str) -> None:
        """Counts the frames that a `done` put on the finished list."""
        words = answer.split()
        if words[0] != "done":
            raise Fault(f"the machine answers '{line}' with '{answer}': expected 'done'")
        self.unreaped += int(words[2]) + int(words[6])

    def note_reaped(self, answers: Sequence[str]) -> None:
        """Notes the answers to reaps."""
        for answer in answers:
            _, number, fate = answer.split()
            self.reaped(int(number), fate)

    def reap(self) -> None:
        """Reaps the frames that are known to be on the finished list."""
        while self.unreaped > 0:
            self.note_reaped(self.ask(["reap"] * self.unreaped))

    def close(self) -> None:
        """Writes the calls that wait, if the program takes them, and ends the trace."""
        if len(self.lines) <= self.pipe.calls_left:
            self.ask([])
        self.calls = self.pipe.calls
        self.summary = self.pipe.end()

    def abandon(self) -> None:
        self.pipe.abandon()
