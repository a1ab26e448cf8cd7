"""An agreement by messages, with both of its ends and its scripts: SESSION.md."""
import enum
from collections.abc import Iterator
from dataclasses import dataclass, field

from wfdev.model.answers import Refused, refuse
from wfdev.model.frames import NUMBERS
from wfdev.model.grammar import Call, Form, NumberIn, OneOf

MOST_EVENTS = 65_536
MOST_TOKEN = 255
MOST_WINDOW = 64  # that b gives
OTHER = {"a": "b", "b": "a"}
EXPONENT = 3  # of the line `join` after the end

END = OneOf(("a", "b"))
LINES = {
    "ask": [Form((NumberIn(range(1, 257)), NumberIn(range(NUMBERS))))],
    "again": [Form()],
    "to": [Form((END, NumberIn(range(2**32))))],
    "close": [Form((END,))],
    "restart": [Form((END,))],
    "end": [Form()],
}


class Kind(enum.Enum):
    """A kind of message."""

    REQUEST = "request"
    RESPONSE = "response"
    DELBA = "delba"


@dataclass(frozen=True)
class Agreement:
    """The agreement that an end holds."""

    token: int
    window: int
    start: int

    def __str__(self) -> str:
        return f"{self.token}:{self.window}:{self.start}"


@dataclass(frozen=True)
class Message:
    """A message. A request has each number of an agreement, a response token and window, a DELBA none."""

    kind: Kind
    token: int = 0
    window: int = 0
    start: int = 0


@dataclass
class Ends:
    """Both ends: the open agreements, the last tokens, a's unsettled request, and all messages."""

    opened: dict[str, Agreement | None] = field(default_factory=lambda: {"a": None, "b": None})
    last: dict[str, int] = field(default_factory=lambda: {"a": 0, "b": 0})
    request: Message | None = None
    sent: dict[str, list[Message]] = field(default_factory=lambda: {"a": [], "b": []})

    def step(self, event: Call) -> str:
        """Plays an event, and returns its answer."""
        try:
            getattr(self, event.name)(*event.values)
        except Refused as refused:
            return str(refused)
        return f"a {self.opened['a'] or '-'} b {self.opened['b'] or '-'}"

    def ask(self, window: int, start: int) -> None:
        """The end a asks for a window; an earlier request that is not settled is replaced."""
        refuse("spent", self.last["a"] == MOST_TOKEN)
        held = self.opened["a"]
        refuse("open", held is not None, held.token if held else None)
        self.last["a"] += 1
        self.request = Message(Kind.REQUEST, self.last["a"], window, start)
        self.sent["a"].append(self.request)

    def again(self) -> None:
        """The end a sends its last request again."""
        if self.request is None:
            raise Refused("not-asked")
        self.sent["a"].append(self.request)

    def to(self, end: str, number: int) -> None:
        """A message of the other end arrives."""
        sent = self.sent[OTHER[end]]
        refuse("no-message", number >= len(sent))
        message = sent[number]
        if message.kind is Kind.DELBA:
            self.opened[end] = None
        elif end == "b":
            self.hear_request(message)
        else:
            self.hear_response(message)

    def hear_request(self, message: Message) -> None:
        """The end b opens for a token above its last, and answers if it has the token's agreement open."""
        if message.token > self.last["b"]:
            self.last["b"] = message.token
            self.opened["b"] = Agreement(message.token, min(message.window, MOST_WINDOW), message.start)
        held = self.opened["b"]
        if held and held.token == message.token:
            self.sent["b"].append(Message(Kind.RESPONSE, held.token, held.window))

    def hear_response(self, message: Message) -> None:
        """The end a opens if the response is to its request; this settles the request."""
        if self.request and self.request.token == message.token:
            self.opened["a"] = Agreement(message.token, message.window, self.request.start)
            self.request = None

    def close(self, end: str) -> None:
        """An end closes its agreement."""
        refuse("not-open", self.opened[end] is None)
        self.opened[end] = None
        self.sent[end].append(Message(Kind.DELBA))

    def restart(self, end: str) -> None:
        """An end loses its state, except its last token."""
        self.opened[end] = None
        if end == "a":
            self.request = None

    def totals(self) -> Iterator[str]:
        """Yields the lines after the end."""
        yield f"sent {len(self.sent['a'])} {len(self.sent['b'])}"
        held = self.opened["a"]
        is_agreed = held is not None and self.opened["b"] is not None
        yield f"join 0 {held.window} {held.start} {EXPONENT}" if held and is_agreed else "no agreement"
