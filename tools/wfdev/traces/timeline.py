"""The picture of `./wf timeline`: stations in rows, and each exchange as a bar as long as its airtime.

A trace has no time within a tick. So a bar begins at the clock of its pull, or at the end of the bar before,
if that is later. """
from __future__ import annotations

import dataclasses
import math
from collections.abc import Iterable

from . import calls, replies
from .ledger import Exchange, Ledger
from .runs import Answered, Event, Headed
from .svg import Picture

WIDTH, LEFT, RIGHT, TOP, ROW, BAR, BELOW = 1000, 80, 20, 64, 48, 22, 64
TICKS = 8
LABELLED = 46  # the width of a bar from which on its airtime is written on it
LOOKS = {
    "whole": "all acknowledged",
    "part": "some to be sent again, or failed",
    "unheard": "answer not heard",
    "request": "BlockAckReq",
    "open": "still open",
}
SOURCE = "By the script ./wf from the text of a trace; not proved. Bars of one clock time follow each other."


@dataclasses.dataclass
class Bar:
    """An exchange, and its time, in microseconds. `missing` counts the frames that were not acknowledged."""

    exchange: Exchange
    begin: int
    missing: int = 0

    @property
    def end(self) -> int:
        """When it ends."""
        return self.begin + self.exchange.air

    @property
    def look(self) -> str:
        """How it is drawn."""
        if self.exchange.heard is None:
            return "open"
        if not self.exchange.heard and not self.exchange.is_batch:
            return "unheard"
        if self.exchange.start is not None:
            return "request"
        return "part" if self.missing else "whole"

    def title(self) -> str:
        """Returns what it says in words."""
        one = self.exchange
        what = f"{one.sent} frames, {one.again} of them again"
        if one.start is not None:
            what = f"BlockAckReq with start {one.start}"
        lost = f", {one.lost} transmissions lost" if one.heard is not None else ""
        return (
            f"exchange {one.number}: station {one.station}, TID {one.tid}, {one.air} us, {what}{lost}; "
            f"{LOOKS[self.look]}"
        )


class Timeline:
    """Gathers the exchanges of a run, and draws them."""

    def __init__(self) -> None:
        self._book = Ledger({})
        self.bars: list[Bar] = []
        self._by_number: dict[int, Bar] = {}
        self._stations: set[int] = set()

    def take(self, events: Iterable[Event]) -> None:
        """Takes the next events of a run."""
        for event in events:
            match event:
                case Headed(line):
                    self._book = Ledger(calls.read_head(line.text))
                case Answered(line, answer):
                    self._call(calls.read(line.text), replies.read(answer))
                case _:
                    pass

    def _call(self, call: calls.Call, reply: replies.Reply) -> None:
        exchange = self._book.take(call, reply)
        if call.kind in ("join", "offload", "plain") and not reply.refusal:
            self._stations.add(call.number("station"))
        if exchange and call.kind == "pull":
            self.bars.append(Bar(exchange, exchange.began))
            self._by_number[exchange.number] = self.bars[-1]
        if exchange and call.kind == "done":
            self._by_number.pop(exchange.number).missing = reply.number("waiting") + reply.number("failed")

    def _place(self) -> int:
        """Gives each bar its place in time, and returns the end of the last."""
        end = 0
        for bar in self.bars:
            bar.begin = max(bar.exchange.began, end)
            end = bar.end
        return max(end, self._book.now)

    def text(self) -> str:
        """Returns the picture."""
        last = max(self._place(), 1)
        rows = {station: at for at, station in enumerate(sorted(self._stations))}
        bottom = TOP + ROW * max(len(rows), 1)
        picture = Picture(WIDTH, bottom + BELOW)
        scale = (WIDTH - LEFT - RIGHT) / last
        legend(picture)
        axes(picture, bottom, last, scale)
        for station, at in rows.items():
            y = TOP + ROW * at + ROW / 2
            picture.words(LEFT - 8, y + 4, str(station), "end")
            picture.line(LEFT, y, WIDTH - RIGHT, y, 'stroke="#bbb" stroke-width="0.5"')
        for bar in self.bars:
            draw(picture, bar, TOP + ROW * rows[bar.exchange.station] + (ROW - BAR) / 2, scale)
        return picture.text()


def draw(picture: Picture, bar: Bar, y: float, scale: float) -> None:
    """Draws a bar with its marks: lost transmissions above it, those that were sent again below it."""
    x, width = LEFT + bar.begin * scale, bar.exchange.air * scale
    picture.bar(x, y, width, BAR, bar.look, bar.title())
    if width >= LABELLED:
        halo = ' stroke="#fff" stroke-width="3" paint-order="stroke"'
        picture.words(x + width / 2, y + BAR / 2 + 4, f"{bar.exchange.air} us", "middle", halo)
    middle = x + width / 2
    lost = bar.exchange.lost if bar.exchange.heard is not None else 0
    for number, mark, place in (
        (lost, picture.cross, y - 6), (bar.exchange.again, picture.triangle, y + BAR + 7)
    ):
        if number:
            mark(middle, place)
        if number > 1:
            picture.words(middle + 6, place + 4, str(number), more=' font-size="10"')


def legend(picture: Picture) -> None:
    """Draws what the looks and marks mean."""
    x = float(LEFT)
    for look, meaning in LOOKS.items():
        picture.bar(x, 10, 18, 12, look)
        picture.words(x + 23, 20, meaning)
        x += 36 + 6.4 * len(meaning)
    picture.cross(LEFT + 9, 38)
    picture.words(LEFT + 23, 42, "transmissions lost")
    picture.triangle(LEFT + 169, 38)
    picture.words(LEFT + 183, 42, "frames sent again")


def step(last: int) -> float:
    """Returns the distance of two ticks, in microseconds: 1, 2 or 5 times a power of ten."""
    rough = last / TICKS
    power = 10.0 ** math.floor(math.log10(rough))
    return next(power * factor for factor in (1, 2, 5, 10) if power * factor >= rough)


def axes(picture: Picture, bottom: float, last: int, scale: float) -> None:
    """Draws the axes with their titles."""
    picture.line(LEFT, TOP, LEFT, bottom)
    picture.line(LEFT, bottom, WIDTH - RIGHT, bottom)
    distance, at = step(last), 0
    while at * distance <= last * 1.0001:
        x = LEFT + at * distance * scale
        picture.line(x, bottom, x, bottom + 5)
        picture.words(x, bottom + 19, f"{round(at * distance / 1000, 6):g}", "middle")
        at += 1
    picture.words((LEFT + WIDTH - RIGHT) / 2, bottom + 38, "time, ms", "middle")
    middle = (TOP + bottom) / 2
    picture.words(18, middle, "station", "middle", f' transform="rotate(-90 18 {middle:.1f})"')
    picture.words(LEFT, bottom + 56, SOURCE, more=' font-size="10" fill="#333"')
