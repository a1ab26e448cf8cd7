"""Plays a driver that makes agreements by the messages of `wf session`, and makes the calls of `wf replay` that belong to them.

The driver is end a, and TID 0 of station 0 is plain at first. For each agreement it wants, the driver holds the TID, sends
what waits, and asks for the number that `hold` answered. Messages are lost, repeated and late. A response begins the agreement
of the path; a request that is not answered in time, or cannot be sent, frees the TID; a close, a DELBA or a restart makes the
agreement cease and frees the TID. The path may refuse none of these calls. When an agreement opens, both ends and the path
have the same window and start: the path sends just the numbers of the window, and its receiver takes the last of them without
moving on.
"""
import random
import re
import subprocess
import sys
from collections.abc import Sequence
from contextlib import ExitStack
from dataclasses import dataclass, field
from pathlib import Path

from wfdev.harness.script import Difference, Script, expect
from wfdev.model import agreement, grammar
from wfdev.model.agreement import Agreement, Ends, Kind

SCRIPT = Script("session-calls")
NUMBERS = 4096
HEAD = "cell agg=64 cap=5400 inflight=8 attempts=3"
SENT = re.compile(r"send (\d+) sta 0 tid 0 air \d+ (?:data|plain|bar)((?: \d+(?::\d+)?)+)")


@dataclass(frozen=True)
class Exchange:
    """An exchange of the path: its number, and the sequence numbers of its frames. A BlockAckReq has none."""

    number: int
    frames: list[int]


@dataclass
class Spoken:
    """A command of the program that answers each line before it reads the next."""

    run: subprocess.Popen[str]

    def tell(self, line: str) -> None:
        """Writes a line."""
        assert self.run.stdin is not None
        self.run.stdin.write(line + "\n")
        self.run.stdin.flush()

    def ask(self, line: str) -> str:
        """Writes a line, and returns the answer to it."""
        self.tell(line)
        assert self.run.stdout is not None
        return self.run.stdout.readline().strip()

    def end(self) -> list[str]:
        """Ends the script, and returns the lines after its end."""
        rest, _ = self.run.communicate("end\n")
        expect("the status", self.run.returncode, 0)
        return rest.splitlines()


def spoken(stack: ExitStack, program: Path, command: str) -> Spoken:
    """Starts a command of the program."""
    pipe = subprocess.PIPE
    return Spoken(stack.enter_context(subprocess.Popen([program, command], stdin=pipe, stdout=pipe, text=True)))


@dataclass
class PathSide:
    """The path, whose calls of agreements are never refused."""

    replay: Spoken
    draw: random.Random
    calls: dict[str, int] = field(default_factory=dict)

    def opened(self) -> None:
        """Begins the trace."""
        self.replay.tell(HEAD)
        expect("the answer to plain", self.replay.ask(f"plain 0 {self.draw.randrange(NUMBERS)} 3"), "joined")
        expect("the answer to rate", self.replay.ask("rate 0 15 40 short"), "set")

    def change(self, line: str) -> str:
        """Makes a call that changes the mode of the TID, and returns its answer."""
        answer = self.replay.ask(line)
        if answer.startswith("refused "):
            raise Difference(f"{line}: {answer}")
        word = line.split()[0]
        self.calls[word] = self.calls.get(word, 0) + 1
        return answer

    def queue(self, count: int) -> None:
        """Enqueues this many frames."""
        for _ in range(count):
            answer = self.replay.ask(f"enq 0 0 {self.draw.randint(0, 3)} {self.draw.randint(1, 200)}")
            expect("an accepted frame", answer.split()[0], "accepted")

    def pull(self) -> Exchange | None:
        """Returns the next exchange, if there is one."""
        answer = self.replay.ask("pull be")
        found = SENT.fullmatch(answer)
        if found is None:
            expect("a pull without an exchange", answer.split()[0], "refused")
            return None
        return Exchange(int(found[1]), [int(part.split(":")[1]) for part in found[2].split() if ":" in part])

    def arrive(self, exchange: Exchange, index: int) -> str:
        """Lets a transmission arrive, and returns the ids that the receiver passes up."""
        return self.replay.ask(f"arrive {exchange.number} {index}").removeprefix("released")

    def finish(self, exchange: Exchange, chance: float) -> None:
        """Ends an exchange, of which each transmission and the answer arrive with this chance."""
        count = max(1, len(exchange.frames))
        arrived = [self.arrive(exchange, index) for index in range(count) if self.draw.random() < chance]
        heard = bool(arrived) and self.draw.random() < chance
        if heard:
            self.replay.ask(f"answer {exchange.number}")
        ended = self.replay.ask(f"done {exchange.number} {'heard' if heard else 'lost'}")
        expect("the end of an exchange", ended.split()[0], "done")

    def drain(self, chance: float) -> None:
        """Makes exchanges until there is none."""
        while (exchange := self.pull()) is not None:
            self.finish(exchange, chance)

    def hold(self) -> int:
        """Holds the TID, sends what waits, and returns the number to ask for."""
        start = int(self.change("hold 0 0").removeprefix("held "))
        self.drain(0.7)
        return start

    def begin(self, agreed: Agreement) -> None:
        """Begins the agreement, and checks the windows of both halves."""
        self.change(f"begin 0 0 {agreed.window}")
        self.queue(agreed.window + 2)
        exchanges: list[Exchange] = []
        while (exchange := self.pull()) is not None:
            exchanges.append(exchange)
        sent = [number for exchange in exchanges for number in exchange.frames]
        wanted = [(agreed.start + place) % NUMBERS for place in range(agreed.window)]
        expect("the numbers that a full window sends", sent, wanted)
        last = exchanges[-1]
        passed = self.arrive(last, len(last.frames) - 1)
        expect("whether the last number is passed up alone", bool(passed), agreed.window == 1)
        start = wanted[0] if agreed.window > 1 else (wanted[0] + 1) % NUMBERS
        answer = self.replay.ask(f"answer {last.number}").split()
        expect("the first number that the receiver waits for", self.first_missing(answer), start)
        for exchange in exchanges:
            self.finish(exchange, 0.9)

    @staticmethod
    def first_missing(answer: Sequence[str]) -> int:
        """Returns the first number that a BlockAck does not show."""
        expect("the kind of the answer", answer[0], "ba")
        bits = int(answer[2], 16)
        ahead = next(place for place in range(257) if not bits >> place & 1)
        return (int(answer[1]) + ahead) % NUMBERS


@dataclass
class Driver:
    """The driver: both ends of the session, of which a model knows the messages, and the path of end a."""

    session: Spoken
    path: PathSide
    draw: random.Random
    ends: Ends = field(default_factory=Ends)
    outcomes: dict[str, int] = field(default_factory=dict)

    def event(self, line: str) -> str:
        """Plays an event of the session, which the model answers alike, and returns the answer."""
        answer = self.session.ask(line)
        expect(f"the answer to '{line}'", answer, self.ends.step(grammar.read(line.split(), agreement.LINES)))
        return answer

    def count(self, outcome: str) -> None:
        """Counts an outcome."""
        self.outcomes[outcome] = self.outcomes.get(outcome, 0) + 1

    def deliver(self, end: str) -> None:
        """Delivers a message to an end: mostly the last one, sometimes an older one; DELBAs that are late are rare."""
        sent = self.ends.sent[agreement.OTHER[end]]
        number = len(sent) - 1 - min(len(sent) - 1, int(self.draw.expovariate(1.0)))
        if sent and (sent[number].kind is not Kind.DELBA or self.draw.random() < 0.3):
            self.event(f"to {end} {number}")

    def work(self) -> None:
        """Sends frames without an agreement, and leaves some that wait."""
        self.path.queue(self.draw.randint(0, 4))
        self.path.drain(0.7)
        self.path.queue(self.draw.randint(0, 2))
        if (exchange := self.path.pull()) is not None:
            self.path.finish(exchange, 0.5)

    def negotiate(self) -> None:
        """Negotiates an agreement: holds the TID, asks, and waits for the response for a while."""
        start = self.path.hold()
        answer = self.event(f"ask {self.draw.randint(1, 256)} {start}")
        if answer.startswith("refused "):
            self.count("refused")
            self.path.change("free 0 0")
            return
        for _ in range(self.draw.randint(1, 8)):
            if self.draw.random() < 0.2:
                self.event("again")
            self.deliver(self.draw.choice("ab"))
            if self.ends.opened["a"]:
                self.live(self.ends.opened["a"], start)
                return
        self.count("timed out")
        self.event("restart a")
        self.path.change("free 0 0")

    def live(self, agreed: Agreement, start: int) -> None:
        """Has the agreement for a while, and ends it."""
        expect("the start of the agreement", agreed.start, start)
        other = self.ends.opened["b"]
        if other is not None:
            expect("the agreement of the other end", other, agreed)
        self.count("opened" if other else "opened at a alone")
        self.path.begin(agreed)
        self.path.drain(0.8)
        while self.ends.opened["a"]:
            self.path.queue(self.draw.randint(0, 9))
            self.path.drain(0.8)
            self.close()
        self.path.queue(self.draw.randint(0, 9))
        if (exchange := self.path.pull()) is not None:
            self.path.finish(exchange, 0.5)
        self.path.change("cease 0 0")
        self.path.change("free 0 0")

    def close(self) -> None:
        """Ends the agreement at an end, and delivers the DELBA of the other end, which may be lost."""
        kind = self.draw.choice(["close a", "close b", "restart a", "late"])
        if kind == "late" or kind == "close b" and not self.ends.opened["b"]:
            self.deliver("a")
            return
        self.event(kind)
        if kind == "close b" and self.draw.random() < 0.7:
            self.event(f"to a {len(self.ends.sent['b']) - 1}")
        if not self.ends.opened["a"]:
            self.count({"close a": "closed", "close b": "closed by the other end", "restart a": "restarted"}[kind])

    def totals(self) -> str:
        """Ends both scripts, and returns the counts."""
        expect("what follows the end of the session", self.session.end(), list(self.ends.totals()))
        self.path.replay.end()
        outcomes = ", ".join(f"{count} {outcome}" for outcome, count in sorted(self.outcomes.items()))
        calls = ", ".join(f"{count} {word}" for word, count in sorted(self.path.calls.items()))
        return f"{outcomes}; none refused of {calls}"


def play(program: Path, seed: int, count: int) -> str:
    """Plays a driver that wants this many agreements, and returns the counts."""
    draw, said = random.Random(seed), ""
    with ExitStack() as stack:
        path = PathSide(spoken(stack, program, "replay"), draw)
        driver = Driver(spoken(stack, program, "session"), path, draw)
        path.opened()
        for _ in range(count):
            driver.work()
            driver.negotiate()
        said = driver.totals()
    return said


def main(words: Sequence[str] | None = None) -> int:
    """Plays the driver and returns the exit status."""
    parser = SCRIPT.parser(__doc__)
    parser.add_argument("seed", nargs="?", type=int, default=1, help="the seed of the driver (default: 1)")
    parser.add_argument("count", nargs="?", type=int, default=60, help="the number of agreements that it wants (default: 60)")
    asked = parser.parse_args(words)
    program = SCRIPT.program().path
    try:
        SCRIPT.say(play(program, asked.seed, asked.count))
    except Difference as difference:
        SCRIPT.fail(difference)
    return 0


if __name__ == "__main__":
    sys.exit(main())
