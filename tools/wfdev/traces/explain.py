"""The output of `./wf explain`: a paragraph for each call, with the question, the answer and the reason.

It says only what follows from the text of the calls and answers and from the rules of docs/MACHINE.md.
"""
from __future__ import annotations

import textwrap
from collections.abc import Callable, Iterable

from . import calls, replies, rules
from .calls import Call
from .ledger import CLASSES, NUMBERED, Exchange, Ledger, Station
from .replies import Reply
from .runs import Answered, Event, Faulted, Headed, Summed

WIDTH = 100
INDENT = "    "
OTHERS = 4
INTRODUCTION = """The script ./wf says this from the text of the calls and answers; it is not proved. No
answer shows when CoDel drops a frame, so such a frame counts as held here until it is reaped.

"""
CLASS_NAMES = {"bk": "background", "be": "best effort", "vi": "video", "vo": "voice"}
FAULTY = "The line has a fault, so the run ends before it. './wf help faults' lists the kinds."
CUT = "The trace stops before its last line, so the run ends without a summary. './wf help faults' lists the kinds."
FATES = {
    "acked": "it was acknowledged",
    "overlimit": "it was dropped because the flow queues held `limit` frames",
    "codel": "CoDel dropped it",
    "retries": "it was never acknowledged, and was sent `attempts` times or given up",
    "left": "it was dropped when its station left",
    "flushed": "it was dropped because its TID was flushed",
    "ended": "it was dropped because the agreement of its TID ended",
}


def count(number: int, thing: str) -> str:
    """Returns a number of things."""
    return f"{number} {thing}" if number == 1 else f"{number} {thing}s"


def listed(items: Iterable[str]) -> str:
    """Returns items as a list in a sentence."""
    *first, last = items
    return f"{', '.join(first)} and {last}" if first else last


class Explain:
    """Explains the events of a run."""

    def __init__(self) -> None:
        self._book = Ledger({})
        self._summary: list[str] = []

    def shown(self, events: Iterable[Event]) -> str:
        """Returns the text for the next events."""
        return "".join(self._event(event) for event in events)

    def ended(self) -> str:
        """Returns the text that follows the last event."""
        return paragraph("summary", self._summary, said_of_summary(self._summary)) if self._summary else ""

    def _event(self, event: Event) -> str:
        match event:
            case Headed(line):
                self._book = Ledger(calls.read_head(line.text))
                return INTRODUCTION
            case Answered(line, answer):
                call, reply = calls.read(line.text), replies.read(answer)
                head = f"line {line.number}: {line.text.strip()}"
                return paragraph(head, [answer], f"Call: {ASKED[call.kind](call)}", self._answer(call, reply))
            case Faulted(line, text):
                head = f"line {line.number}: {line.text.strip()}" if line else "the end of the trace"
                return paragraph(head, [text], FAULTY if line else CUT)
            case Summed(text):
                self._summary.append(text)
                return ""

    def _answer(self, call: Call, reply: Reply) -> str:
        if reply.refusal:
            return refused(call, reply, self._book)
        exchange = self._book.take(call, reply)
        return f"Answer: {ANSWERED[call.kind](call, reply, self._book, exchange)}"


def paragraph(head: str, answers: list[str], *texts: str) -> str:
    """Returns a paragraph: the call, its answer, and texts about them."""
    lines = [head, *(f"  {answer}" for answer in answers)]
    for text in texts:
        lines += textwrap.wrap(text, WIDTH, initial_indent=INDENT, subsequent_indent=INDENT)
    return "\n".join(lines) + "\n\n"


def station_of(call: Call) -> str:
    """Returns the name of a call's station."""
    return f"station {call.number('station')}"


def tid_of(call: Call) -> str:
    """Returns the name of a call's TID."""
    return f"{station_of(call)}, TID {call.number('tid')}"


def transmission_of(call: Call) -> str:
    """Returns the name of a call's transmission."""
    return f"Transmission {call.number('index')} of exchange {call.number('exchange')}"


def rate_of(call: Call) -> str:
    """Returns a rate in words."""
    form = call.word("form")
    if form in ("ofdm", "dsss"):
        return f"{form.upper()}, {call.number('speed') / (1 if form == 'ofdm' else 2):g} Mbit/s"
    guard = f"{call.number('guard')} ns" if form == "he" else "short" if call.fields[
        "short_guard"
    ] else "long"
    streams = f", {count(call.number('streams'), 'stream')}" if form != "ht" else ""
    return (
        f"{form.upper()}, MCS {call.number('mcs')}, {call.number('mhz')} MHz, guard interval {guard}{streams}"
    )


def delivery_of(call: Call) -> str:
    """Returns the delivery-enabled classes of a call, and the most frames of a service period."""
    classes = [one for place, one in enumerate(NUMBERED) if call.number("classes") >> place & 1]
    named = f"the delivery-enabled classes {listed(classes)}" if classes else "no delivery-enabled class"
    most = f"at most {count(call.number('most'), 'frame')}" if call.number("most") else "any number of frames"
    return f"{named}, and service periods of {most}"


def of_bss(call: Call) -> str:
    """Returns the words for the BSS of a call, if it is not BSS 0."""
    return f" of BSS {call.number('bss')}" if call.number("bss") else ""


def asked_pull(call: Call) -> str:
    """Returns what a pull asks."""
    frames = [f"at most {count(call.number('frames'), 'frame')}"] if "frames" in call.fields else []
    air = [f"data of at most {call.number('air')} us"] if "air" in call.fields else []
    limits = f", with {' and '.join([*frames, *air])}" if frames or air else ""
    return f"The driver asks for the next exchange of class {call.word('class_')}{limits}."


def asked_done(call: Call) -> str:
    """Returns what a done asks."""
    heard = "was heard" if call.fields["heard"] else "was not heard"
    air = f", and the exchange took {call.number('air')} us" if "air" in call.fields else ""
    return f"Exchange {call.number('exchange')} ends: its answer {heard}{air}."


ASKED: dict[str, Callable[[Call], str]] = {
    "join": lambda call: (
        f"{station_of(call).capitalize()} joins with a window of {call.number('window')}, the first number "
        f"{call.number('start')}, the exponent {call.number('exponent')} and the weight "
        f"{call.number('weight')}."
    ),
    "offload": lambda call: (
        f"{station_of(call).capitalize()} joins with the exponent {call.number('exponent')} and the weight "
        f"{call.number('weight')}; its device numbers, aggregates and repeats its frames."
    ),
    "plain": lambda call: (
        f"{station_of(call).capitalize()} joins with the first number {call.number('start')}, the exponent "
        f"{call.number('exponent')} and the weight {call.number('weight')}; no TID has an agreement."
    ),
    "weight": lambda call: f"{station_of(call).capitalize()} is to have the weight {call.number('weight')}.",
    "leave": lambda call: f"{station_of(call).capitalize()} leaves.",
    "rate": lambda call: f"{station_of(call).capitalize()} is to be sent to at this rate: {rate_of(call)}.",
    "tick": lambda call: f"The clock is to move on by {call.number('by')} us.",
    "enq": lambda call: (
        f"A frame of {call.number('length')} octets comes for {station_of(call)}, TID {call.number('tid')}, "
        f"of flow {call.number('flow')}."
    ),
    "pull": asked_pull,
    "arrive": lambda call: (
        f"{transmission_of(call)} reached its station."
    ),
    "answer": lambda call: f"The station answers exchange {call.number('exchange')}.",
    "done": asked_done,
    "sleep": lambda call: f"{station_of(call).capitalize()} goes to sleep.",
    "wake": lambda call: f"{station_of(call).capitalize()} wakes.",
    "poll": lambda call: f"{station_of(call).capitalize()} sends a PS-Poll: it asks for one frame.",
    "rx": lambda call: (
        f"{station_of(call).capitalize()} used {call.number('air')} us of class {call.word('class_')} to "
        "send."
    ),
    "reap": lambda _: "The caller asks for the next finished frame.",
    "ampdu": lambda call: (
        f"{station_of(call).capitalize()} takes VHT and HE aggregates of at most {call.number('octets')} octets."
    ),
    "stop": lambda call: f"{station_of(call).capitalize()} is to be picked by no pull.",
    "start": lambda call: f"{station_of(call).capitalize()} is to be picked again.",
    "unsent": lambda call: f"{transmission_of(call)} never went on the air.",
    "giveup": lambda call: f"The device will not try {transmission_of(call).lower()} again.",
    "flush": lambda call: (
        f"The frames of {tid_of(call)}, that are not on the air are to be dropped."
    ),
    "hold": lambda call: f"No frame of {tid_of(call)}, is to get a number from now on.",
    "begin": lambda call: (
        f"An agreement of {tid_of(call)}, begins with a window of {call.number('window')}."
    ),
    "free": lambda call: f"The frames of {tid_of(call)}, are to go one at a time from now on.",
    "cease": lambda call: f"The agreement of {tid_of(call)}, ends.",
    "group": lambda call: f"A frame of {call.number('length')} octets comes for a group of stations{of_bss(call)}.",
    "beacon": lambda call: f"A beacon{of_bss(call)} goes out.",
    "gpull": lambda call: f"The driver asks for the next group frame{of_bss(call)}.",
    "gdone": lambda call: f"The transmission of the group frame{of_bss(call)} on the air has ended.",
    "apsd": lambda call: f"{station_of(call).capitalize()} is to have {delivery_of(call)}.",
    "trigger": lambda call: f"{station_of(call).capitalize()} sends a trigger frame: it asks for a service period.",
    "eosp": lambda call: f"The device ended the service period of {station_of(call)} by a frame without data.",
    "bss": lambda call: f"{station_of(call).capitalize()} is to be of BSS {call.number('bss')}.",
}


# What `nothing` means, by the kind of call.
NOTHING = {
    "answer": "No transmission of the exchange has arrived.",
    "poll": "No TID of the station can send.",
    "reap": "No frame is finished.",
    "gdone": "No group frame is on the air.",
    "trigger": "No TID of a delivery-enabled class can send.",
    "eosp": "No service period of the station is open.",
}
# Refusals that mean something else for another kind of call.
OF_KIND = {
    ("polled", "poll"): "The station has a credit that is not spent yet.",
    ("polled", "trigger"): "Its service period is open already.",
    ("asleep", "sleep"): "The station is asleep already.",
    ("asleep", "apsd"): "The station is asleep.",
    ("asleep", "bss"): "The station is asleep.",
}
NO_GROUP_FRAME = "No group frame is queued, or a station sleeps and no DTIM beacon since the first one came lets it go."
AFTER_IDLE = "This is the only refusal after which something may have changed."


def refused(call: Call, reply: Reply, book: Ledger) -> str:
    """Returns why a call was refused."""
    number = reply.fields.get("count", reply.fields.get("deficit"))
    if reply.refusal == "idle" and call.kind == "gpull":
        return f"Refused: {NO_GROUP_FRAME} Nothing has changed."
    if reply.refusal == "idle":
        class_ = call.word("class_")
        known = [said for one in book.stations.values() if (said := why_not_ready(one, class_, book))]
        why = some(known) or f"No live station holds a frame of class {class_}."
        after = "Nothing has changed." if book.settings["pending"] else AFTER_IDLE
        return f"Refused: No station of the class is ready. {why} {after}"
    rule = rules.rule(reply.refusal, number, book.settings)
    if reply.refusal == "nothing":
        rule = NOTHING.get(call.kind, rule)
    rule = OF_KIND.get((reply.refusal, call.kind), rule)
    if reply.refusal == "open" and call.kind in ("begin", "cease"):
        rule = f"The TID has {count(reply.number('count'), 'open exchange')}."
    return f"Refused: {rule} Nothing has changed."


def some(sentences: list[str]) -> str:
    """Returns the first of these sentences, and how many more there are."""
    more = len(sentences) - OTHERS
    return " ".join(sentences[:OTHERS] + ([f"{more} more are not shown."] if more > 0 else []))


def why_not_ready(station: Station, class_: str, book: Ledger) -> str:
    """Returns what the answers show of a station that holds frames of a class and cannot be picked."""
    held = book.held(station.number, class_)
    if not held:
        return ""
    on_air = sum(
        one.sent for one in book.exchanges_of(station.number) if one.class_ == class_ and one.start is None
    )
    text = f"Station {station.number} holds {count(held, 'frame')} of the class"
    if station.is_stopped:
        return f"{text}, but is stopped."
    if not station.is_reached(class_):
        return f"{text}, but sleeps, and no poll or trigger is for it."
    return f"{text}, {on_air} of them in open exchanges.{held_tids(station, class_)}"


def held_tids(station: Station, class_: str) -> str:
    """Returns a sentence about each TID of a station and class that is held."""
    tids = sorted(tid for tid in station.held if CLASSES[tid] == class_)
    return "".join(f" TID {tid} is held, so no frame of it gets a number." for tid in tids)


def said_of_accepted(_: Call, reply: Reply, book: Ledger, __: Exchange | None) -> str:
    """Says what an enqueue was answered."""
    text = f"It is accepted as frame {reply.number('id')} at {book.now} us."
    if reply.fields["has_dropped"]:
        limit = book.settings["limit"]
        text += (
            f" The flow queues held limit ({limit}) frames, so frame {reply.number('dropped')} was dropped: "
            "it was the head of"
        )
        text += " the queue with the most octets."
    return text


def said_of_send(_: Call, reply: Reply, book: Ledger, exchange: Exchange | None) -> str:
    """Says what a pull sends, and why its station was picked."""
    assert exchange is not None
    station = book.stations[exchange.station]
    to = (
        f"Exchange {exchange.number} goes to station {station.number}, TID {exchange.tid}, and takes "
        f"{exchange.air} us of air."
    )
    known = (other(one, exchange.class_, book) for one in book.stations.values() if one is not station)
    others = some([said for said in known if said])
    return " ".join(
        filter(None, [to, contents(exchange, book), why_picked(station, exchange, book), others])
    )


def contents(exchange: Exchange, book: Ledger) -> str:
    """Says what an exchange sends."""
    if exchange.start is not None:
        return (
            f"It is a BlockAckReq with start {exchange.start}: a frame of the TID failed, and the receiver "
            "does not know yet that it "
            "will never come."
        )
    kind = "a batch, which the device numbers," if exchange.is_batch else "an aggregate"
    text = f"It is {kind} of {count(exchange.sent, 'frame')}"
    if exchange.is_plain:
        text = "It is one frame without an agreement"
    frames = [book.frames[id_] for id_, _ in exchange.frames]
    again = [f"{frame.id} (transmission {frame.sent})" for frame in frames if frame.sent > 1]
    text += f"; sent again: frame {listed(again)}." if again else ", not sent before."
    text += " The station has more to be sent." if exchange.more else ""
    return text + (" It is the last of the service period." if exchange.eosp else "")


def why_picked(station: Station, exchange: Exchange, book: Ledger) -> str:
    """Says with which deficit the scheduler picked a station."""
    class_ = exchange.class_
    quantum, used, quanta = book.quantum(station), station.used.get(class_, 0), station.quanta[class_]
    credit = "It sleeps, so this spends its credit. " if station.is_asleep else ""
    credit = "It sleeps, and this is part of its service period. " if exchange.is_served else credit
    if book.settings["pending"]:
        return (
            f"{credit}The scheduler picks the first ready station whose deficit is greater than its airtime in "
            f"flight in the class. Station {station.number} had "
            f"{book.in_flight(station.number, class_, exchange.number)} us in flight."
        )
    if station.is_weighed:
        return f"{credit}The scheduler picks the first ready station with a deficit above 0."
    parts = [f"{quantum} at the join", f"less {used} charged" if used else ""]
    parts += [f"plus {count(quanta, 'quantum')} of {quantum}".replace("quantums", "quanta") if quanta else ""]
    return (
        f"{credit}The scheduler picks the first ready station with a deficit above 0. That of station "
        f"{station.number} was {book.deficit_when_picked(station, class_)} us: "
        f"{', '.join(filter(None, parts))}."
    )


def other(station: Station, class_: str, book: Ledger) -> str:
    """Says what the answers show of a station that was not picked."""
    held = book.held(station.number, class_)
    if not held:
        return ""
    if station.is_stopped:
        return f"Station {station.number} is stopped, so it was not ready."
    if not station.is_reached(class_):
        return f"Station {station.number} sleeps, and no poll or trigger is for the class, so it was not ready."
    tids = held_tids(station, class_)
    if book.settings["pending"]:
        return (
            f"Station {station.number} also holds {count(held, 'frame')} of the class, "
            f"{station.used.get(class_, 0)} us were charged to it, and "
            f"{book.in_flight(station.number, class_)} us are in flight.{tids}"
        )
    if station.is_weighed:
        return f"Station {station.number} also holds {count(held, 'frame')} of the class.{tids}"
    left = book.quantum(station) - station.used.get(class_, 0)
    due = book.deficit_when_picked(station, class_)
    return (
        f"Station {station.number} also holds {count(held, 'frame')} of the class, and "
        f"{station.used.get(class_, 0)} us were charged "
        f"to it" + (
            f"; it can be picked with a deficit of {due} us." if left <= 0 else f": its deficit is {left} us."
        )
        + tids
    )


def said_of_done(_: Call, reply: Reply, book: Ledger, exchange: Exchange | None) -> str:
    """Says how an exchange ended."""
    assert exchange is not None
    charge = f"{exchange.air} us are charged to station {exchange.station} in class {exchange.class_}."
    if exchange.start is not None:
        after = "The receiver now goes on from its start." if exchange.heard else "It is still due."
        return f"It was a BlockAckReq. {after} {charge}"
    acked, waiting, failed = (reply.number(name) for name in ("acked", "waiting", "failed"))
    text = f"{count(acked, 'frame')} acknowledged, {waiting} to be sent again, {failed} failed. {charge}"
    if failed and exchange.is_batch:
        text += " A frame of a batch fails if it was not acknowledged, since the device has repeated it."
    elif failed and is_far(exchange, book):
        text += " Its number is 2,048 or more above the last acknowledged one of the TID, so it is sent once."
    elif failed:
        text += f" A frame fails after attempts ({book.settings['attempts']}) transmissions"
        text += ", or if the device gives it up." if exchange.given_up else "."
    if exchange.unsent:
        text += (
            f" {count(len(exchange.unsent), 'transmission')} never went on the air: "
            "the frame waits again, and this is not one of its transmissions."
        )
    if not exchange.heard and exchange.arrived and not exchange.is_batch:
        text += (
            f" {count(len(exchange.arrived), 'transmission')} had arrived: without the answer the sender "
            "does not know."
        )
    return text


def is_far(exchange: Exchange, book: Ledger) -> bool:
    """Returns whether the frame of an exchange without an agreement failed before its last attempt."""
    if not exchange.is_plain or exchange.given_up:
        return False
    return all(book.frames[id_].sent < book.settings["attempts"] for id_, _ in exchange.frames)


def said_of_unsent(_: Call, __: Reply, ___: Ledger, exchange: Exchange | None) -> str:
    """Says what follows from a transmission that never went on the air."""
    assert exchange is not None
    if exchange.start is not None:
        return "It is marked: it cannot arrive any more."
    return "It is marked: it cannot arrive any more, and its frame waits again when the exchange ends."


def said_of_giveup(_: Call, __: Reply, ___: Ledger, exchange: Exchange | None) -> str:
    """Says what follows from a transmission that the device gives up."""
    assert exchange is not None
    if exchange.start is not None:
        return "It is marked; the request may be sent again nevertheless."
    shown = "an Ack is heard" if exchange.is_plain else "the BlockAck shows it"
    return f"It is marked: its frame fails when the exchange ends, unless {shown}."


def passed_up(reply: Reply) -> str:
    """Returns a sentence about the frames that a receiver passes up, if there are any."""
    ids = reply.fields["passed_up"]["ids"]
    return f"The receiver passes up {'frame' if len(ids) == 1 else 'frames'} {listed(map(str, ids))}." if ids else ""


def said_of_released(_: Call, reply: Reply, __: Ledger, exchange: Exchange | None) -> str:
    """Says what a receiver passes up."""
    passed = passed_up(reply)
    if passed:
        return passed
    assert exchange is not None
    if exchange.is_batch:
        return "The device says that it was acknowledged; what the receiver passes up is not known."
    if exchange.start is not None:
        return "The receiver moves on to the request's start, and has nothing to pass up."
    if exchange.is_plain:
        return "The receiver passes nothing up: it has this frame already."
    return "The receiver passes nothing up: it has this number already, or an earlier number is missing."


def said_of_ba(_: Call, __: Reply, ___: Ledger, exchange: Exchange | None) -> str:
    """Says what a BlockAck shows, or an Ack acknowledges."""
    assert exchange is not None
    if exchange.block is None:
        return "The Ack acknowledges the frame."
    shown = [number for _, number in exchange.frames if exchange.shows(number)]
    text = f"The BlockAck starts at {exchange.block[0]}"
    if not exchange.frames:
        return f"{text}."
    return f"{text}, and shows {len(shown)} of {exchange.sent} numbers of the exchange."


def said_of_ceased(_: Call, reply: Reply, __: Ledger, ___: Exchange | None) -> str:
    """Says what follows from the end of an agreement."""
    dropped = f"Frames that waited and that are dropped: {reply.number('count')}."
    held = "The TID is held: no frame of it gets a number."
    return " ".join(filter(None, [dropped, passed_up(reply), held]))


def said_of_beacon(_: Call, reply: Reply, __: Ledger, ___: Exchange | None) -> str:
    """Says what sleeping stations learn from a beacon."""
    if reply.number("count"):
        return f"Its DTIM count is {reply.number('count')}, so group frames wait while a station sleeps."
    after = "the group frames that are queued now may go" if reply.fields["more"] else "no group frame is queued"
    return f"It is a DTIM beacon, and {after}."


def said_of_gsend(_: Call, reply: Reply, __: Ledger, ___: Exchange | None) -> str:
    """Says which group frame goes."""
    more = " Another one follows." if reply.fields["more"] else ""
    return (
        f"Group frame {reply.number('id')} has the number {reply.number('start')} and takes "
        f"{reply.number('air')} us of air, which are charged to no station.{more}"
    )


def said_of_charged(call: Call, reply: Reply, _: Ledger, __: Exchange | None) -> str:
    """Says what a charge leaves."""
    return f"Its deficit of class {call.word('class_')} is {reply.number('deficit')} us now."


def said_of_reaped(_: Call, reply: Reply, book: Ledger, __: Exchange | None) -> str:
    """Says what became of a frame."""
    why = FATES[str(reply.fields["fate"])]
    for name in ("limit", "attempts"):
        why = why.replace(f"`{name}`", f"{name} ({book.settings[name]})")
    return f"Frame {reply.number('id')} is finished: {why}."


ANSWERED: dict[str, Callable[[Call, Reply, Ledger, Exchange | None], str]] = {
    "join": lambda call, _, book, __: (
        f"It is live; its deficit of each class is {book.quantum(book.stations[call.number('station')])} us."
    ),
    "offload": lambda call, _, book, __: (
        f"It is live; its deficit of each class is {book.quantum(book.stations[call.number('station')])} us."
    ),
    "plain": lambda call, _, book, __: (
        f"It is live; its deficit of each class is {book.quantum(book.stations[call.number('station')])} us."
    ),
    "weight": lambda *_: "The weight is set; each of its deficits is at most what its new quantum allows.",
    "leave": lambda _, reply, __, ___: (
        f"It is gone. Frames that it held and that are dropped: {reply.number('count')}."
    ),
    "rate": lambda *_: "The rate is set.",
    "tick": lambda _, reply, __, ___: f"It is at {reply.number('now')} us.",
    "enq": said_of_accepted,
    "pull": said_of_send,
    "arrive": said_of_released,
    "answer": said_of_ba,
    "done": said_of_done,
    "sleep": lambda *_: "It sleeps: a frame goes to it only after a poll or a trigger.",
    "wake": lambda *_: "It is awake.",
    "poll": lambda _, reply, __, ___: f"It gets a credit for one frame of class {reply.fields['class_']}.",
    "rx": said_of_charged,
    "reap": said_of_reaped,
    "ampdu": lambda *_: "The most octets are set.",
    "stop": lambda *_: "It is stopped.",
    "start": lambda *_: "It is started.",
    "unsent": said_of_unsent,
    "giveup": said_of_giveup,
    "flush": lambda _, reply, __, ___: f"Frames that it held and that are dropped: {reply.number('count')}.",
    "hold": lambda _, reply, __, ___: f"It is held. An agreement may begin with the number {reply.number('start')}.",
    "begin": lambda *_: "It has begun: the frames of the TID go in aggregates.",
    "free": lambda *_: "It is free: each frame waits for the Ack of the one before it.",
    "cease": said_of_ceased,
    "group": lambda _, reply, __, ___: f"It is queued as group frame {reply.number('id')}.",
    "beacon": said_of_beacon,
    "gpull": said_of_gsend,
    "gdone": lambda _, reply, __, ___: f"Group frame {reply.number('id')} was sent.",
    "apsd": lambda *_: "They are set.",
    "trigger": lambda _, reply, __, ___: (
        f"A service period is open; the most urgent class that can send in it is {reply.fields['class_']}."
    ),
    "eosp": lambda *_: "It is over: the station gets a frame only after a poll or another trigger.",
    "bss": lambda *_: "It is: it wakes for the beacons of this BSS.",
}


def said_of_summary(texts: list[str]) -> str:
    """Says what the summary says."""
    found = replies.read_summary(texts)
    if "tally" not in found or "exchanges" not in found:
        return ""
    tally = found["tally"]
    fates = [f"{tally[name]} {words}" for name, words in SUMMED.items() if tally[name]]
    held = [f"{found['held']} still held"] if found["held"] or not fates else []
    text = (
        f"{count(found['calls'], 'call')}, and the clock is at {found['now']} us. "
        f"{count(tally['accepted'], 'frame')} accepted: "
    )
    text += (
        f"{listed([*fates, *held])}. {count(found['exchanges'], 'exchange')}, {found['open']} of them open."
    )
    for share in found["shares"]:
        text += (
            f" Station {share['station']} was charged {share['charged']} us in class {share['class_']}, used "
            f"{share['rx']} us to"
        )
        text += f" send, and has a deficit of {share['deficit']} us."
    return text


SUMMED = {
    "acked": "acknowledged",
    "overlimit": "dropped for the limit",
    "codel": "dropped by CoDel",
    "retries": "dropped after their last transmission",
    "left": "dropped when their station left",
    "flushed": "dropped because their TID was flushed",
    "ended": "dropped because the agreement of their TID ended",
}
