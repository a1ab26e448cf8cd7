"""Plays a generated script on `wf session`, and checks the three facts of the law in what it prints.

The script loses, repeats and reorders messages, restarts both ends and closes them. Each event is written when the one
before it was answered, as by a user at a pipe. Then the check looks for the limit of 65,536 events.
"""
import random
import subprocess
import sys
from collections.abc import Sequence
from dataclasses import dataclass, field
from pathlib import Path

from wfdev.harness.script import Difference, Script, expect

SCRIPT = Script("sessions")
MOST_EVENTS = 65_536


@dataclass(frozen=True)
class Agreement:
    """The agreement that an end holds: the token, the window, and the first sequence number."""

    token: int
    window: int
    start: int


def side(word: str) -> Agreement | None:
    """Returns the agreement of an end, from the word that `wf session` prints, or None."""
    return None if word == "-" else Agreement(*(int(number) for number in word.split(":")))


@dataclass
class Talk:
    """The state of both ends, by the events and the answers."""

    draw: random.Random
    tokens: list[int | None] = field(default_factory=list)  # the token of each message of end a; None for a DELBA
    answers: int = 0
    last: int = 0
    now: dict[str, Agreement | None] = field(default_factory=lambda: {"a": None, "b": None})
    opened: dict[str, set[int]] = field(default_factory=lambda: {"a": set(), "b": set()})
    accepted: int = 0

    def newest(self, count: int) -> int:
        """Returns the number of a message: often the last, sometimes an old one, or one that does not exist."""
        return max(0, count - int(self.draw.expovariate(0.5)) - (self.draw.random() < 0.95))

    def event(self) -> str:
        """Returns the next event."""
        kind = self.draw.random()
        if kind < 0.06:
            return f"ask {self.draw.randint(1, 256)} {self.draw.randint(0, 4095)}"
        if kind < 0.14:
            return "again"
        if kind < 0.54:
            return f"to b {self.newest(len(self.tokens))}"
        if kind < 0.94:
            return f"to a {self.newest(self.answers)}"
        return f"{'close' if kind < 0.98 else 'restart'} {self.draw.choice('ab')}"

    def count_sent(self, words: Sequence[str]) -> None:
        """Counts the messages that an event sent."""
        if words[0] == "ask":
            self.last += 1
        if words[0] in ("ask", "again"):
            self.tokens.append(self.last)
        if words[0] == "close" and words[1] == "a":
            self.tokens.append(None)
        if words[0] == "close" and words[1] == "b":
            self.answers += 1
        if words[0] == "to" and words[1] == "b":
            token, recipient = self.tokens[int(words[2])], self.now["b"]
            self.answers += token is not None and recipient is not None and recipient.token == token

    def hear(self, event: str, answer: str) -> None:
        """Checks the law: both ends agree; the recipient opened the agreement of the originator; each token opens once at each end."""
        if answer.startswith("refused "):
            return
        words = answer.split()
        expect(f"the form of '{answer.strip()}'", words[::2], ["a", "b"])
        now = {"a": side(words[1]), "b": side(words[3])}
        for end, held in now.items():
            if held and held != self.now[end]:
                if held.token in self.opened[end]:
                    raise Difference(f"a token opens twice at {end}: {answer}")
                self.opened[end].add(held.token)
        if now["a"] and now["b"]:
            expect(f"both ends in '{answer.strip()}'", now["a"], now["b"])
        if now["a"]:
            expect("the agreement that the recipient opened last", now["a"].token, max(self.opened["b"]))
        self.now = now
        self.accepted += 1
        self.count_sent(event.split())


def talk(program: Path, seed: int, count: int) -> None:
    """Plays a script of this many events."""
    held = Talk(random.Random(seed))
    with subprocess.Popen([program, "session"], stdin=subprocess.PIPE, stdout=subprocess.PIPE, text=True, bufsize=1) as run:
        assert run.stdin is not None and run.stdout is not None
        for _ in range(count):
            event = held.event()
            run.stdin.write(event + "\n")
            held.hear(event, run.stdout.readline())
        run.stdin.write("end\n")
        expect("the totals", run.stdout.readline().split(), ["sent", str(len(held.tokens)), str(held.answers)])
        agreed = held.now["a"] if held.now["b"] else None
        wanted = f"join 0 {agreed.window} {agreed.start} 3" if agreed else "no agreement"
        expect("the last line", run.stdout.readline().strip(), wanted)
    expect("the status", run.returncode, 0)
    opened = f"opened at a: {len(held.opened['a'])}, at b: {len(held.opened['b'])}"
    SCRIPT.say(f"{count} events, {held.accepted} not refused; {opened}")


def check_most(program: Path) -> None:
    """Checks that one event more than the limit is refused, which is judged last."""
    for last, status, line in [
        ("end", 0, "no agreement"),
        ("again", 2, f"fault line {MOST_EVENTS + 1} too-long"),
        ("close x", 2, f"fault line {MOST_EVENTS + 1} word"),
    ]:
        script = "\n".join(["close a"] * MOST_EVENTS + [last]) + "\n"
        run = subprocess.run([program, "session"], input=script, capture_output=True, text=True, check=False)
        expect(f"the status of {MOST_EVENTS} events and '{last}'", run.returncode, status)
        expect(f"the last line of {MOST_EVENTS} events and '{last}'", run.stdout.splitlines()[-1], line)


def main(words: Sequence[str] | None = None) -> int:
    """Plays the script and returns the exit status."""
    parser = SCRIPT.parser(__doc__)
    parser.add_argument("seed", nargs="?", type=int, default=1, help="the seed of the script (default: 1)")
    parser.add_argument("count", nargs="?", type=int, default=10_000, help="the number of events (default: 10000)")
    asked = parser.parse_args(words)
    program = SCRIPT.program().path
    try:
        talk(program, asked.seed, asked.count)
        check_most(program)
    except Difference as difference:
        SCRIPT.fail(difference)
    return 0


if __name__ == "__main__":
    sys.exit(main())
