"""Reads the flows of a scenario. Each kind of flow has a function that reads its own keys."""
from __future__ import annotations

import math
from collections.abc import Callable
from dataclasses import replace

from .fields import Table, is_number
from .rates import Legacy
from .scenario import STANDARD_SIZES, Flow, Page, Sizes, Station, everyone
from .traffic import HEADERS

MOST_BODY = 2304
MOST_MBIT = 100_000
MOST_OCTETS = 10**12
STANDARD_OFFSET_MS = 10
PING = 92  # octets: LLC 8, IPv4 20, ICMP 8, and the 56 that `ping` sends
VOICE = 208  # octets: LLC 8, IPv4 20, UDP 8, RTP 12, and 20 ms of G.711
VOICE_EVERY = 20_000  # microseconds
SEGMENT = 1500
PAGES = {"small": (56_000, 3), "large": (3_000_000, 110)}  # octets and requests (the two pages of "Ending the Anomaly")
SIZE_EXPECTED = f"octets from 1 to {MOST_BODY}, or a list of pairs [octets, weight]"
MULTICAST = ("mbit", "every_ms", "poisson_per_s", "voip")  # kinds of flows to all stations
PAGE_EXPECTED = "small, large, or [octets, requests]"


def read_flows(top: Table, seconds: float, stations: list[Station], bsses: int) -> tuple[list[Flow], list[Flow]]:
    """The flows of single stations, and the flows to all stations of a BSS. A table with the name of a group makes a flow for each of its
    stations."""
    flows: list[Flow] = []
    multicast: list[Flow] = []
    for table in top.tables("flow", needed=True):
        if table.has("to"):
            multicast.append(read_multicast(table, len(multicast) + 1, seconds, bsses))
            continue
        group = table.text("station")
        members = [station for station in stations if group in (station.group, station.name)]
        if not members:
            known = ", ".join(dict.fromkeys(station.group for station in stations))
            raise table.wrong("station", f"a station of this file, one of {known}")
        first = read_flow(table, members[0], seconds)
        table.finish()
        for station in members:
            flows += placed(first, len(flows) + 1, station)
    if not flows:
        raise top.fault(f"the file has no flow: expected a table [[flow]]{' with a station' if multicast else ''}")
    return flows, multicast


def read_multicast(table: Table, number: int, seconds: float, bsses: int) -> Flow:
    """The flow of a table to all stations of a BSS."""
    table.one_of("to", ("all",), "all")
    for key in ("station", "tid", "direction", "echo"):
        if table.has(key):
            raise table.wrong(key, f"no {key}, since the flow is to all stations")
    flow = read_flow(table, everyone(Legacy("ofdm", 6), table.whole("bss", 0, bsses - 1, 0)), seconds)
    if flow.kind not in MULTICAST:
        raise table.fault(f"{flow.kind} is no kind of a flow to all stations: expected one of {', '.join(MULTICAST)}")
    table.finish()
    return replace(flow, number=number)


def placed(flow: Flow, number: int, station: Station) -> list[Flow]:
    """A flow to a station, which sends while that is there: several flows if it has several connections."""
    start, stop = max(flow.start, station.join), min(flow.stop, station.leave)
    one = replace(flow, number=number, station=station, start=start, stop=stop)
    if flow.page is None:
        return [one]
    return [replace(one, number=number + nth, connection=nth + 1) for nth in range(flow.page.connections)]


def read_flow(table: Table, station: Station, seconds: float) -> Flow:
    """The flow of a table, to the first of its stations."""
    kinds = [kind for kind in KINDS if table.has(kind)]
    if len(kinds) != 1:
        found = f"{' and '.join(kinds)} are given" if kinds else "its kind is missing"
        raise table.fault(f"{found}: expected exactly one of {', '.join(KINDS)}")
    start = table.number("start", 0, seconds, 0)
    stop = table.number("stop", start, seconds) if table.has("stop") else math.inf
    flow = Flow(
        number=0,
        name=table.text("name", kinds[0]),
        station=station,
        kind=kinds[0],
        tid=table.whole("tid", 0, 7, 0),
        sizes=read_sizes(table, kinds[0]),
        start=round(start * 1e6),
        stop=stop if stop == math.inf else round(stop * 1e6),
        offset=round(1000 * table.number("offset_ms", 0, 60_000, STANDARD_OFFSET_MS)),
    )
    KINDS[flow.kind](table, flow)
    return flow


def standard_sizes(kind: str) -> Sizes:
    """The sizes of frames of a kind of flow, if the file does not give them."""
    whole = {"ping_ms": PING, "voip": VOICE, "tcp": SEGMENT, "web": SEGMENT}.get(kind)
    return ((whole, 1.0),) if whole else STANDARD_SIZES


def read_sizes(table: Table, kind: str) -> Sizes:
    """The octets of a flow's frames, as pairs with their weights. A frame of TCP has room for its headers and for data."""
    if not table.has("size"):
        return standard_sizes(kind)
    least = HEADERS + 1 if kind in ("tcp", "web") else 1
    expected = SIZE_EXPECTED.replace("from 1", f"from {least}")
    value = table.values["size"]
    sizes = []
    for pair in value if isinstance(value, list) else [[value, 1]]:
        if not isinstance(pair, list) or len(pair) != 2 or not is_number(pair[1]) or not 0 < pair[1] <= 1e6:
            raise table.wrong("size", expected)
        if not isinstance(pair[0], int) or isinstance(pair[0], bool) or not least <= pair[0] <= MOST_BODY:
            raise table.wrong("size", expected)
        sizes.append((pair[0], float(pair[1])))
    if not sizes:
        raise table.wrong("size", expected)
    return tuple(sizes)


def mean_bits(sizes: Sizes) -> float:
    """The mean bits of a frame."""
    return 8 * sum(octets * weight for octets, weight in sizes) / sum(weight for _, weight in sizes)


def read_direction(table: Table, flow: Flow, echo: bool = False) -> None:
    """The sender: the access point or the station, or with `echo` first the one and then the other."""
    flow.is_up = table.one_of("direction", ("down", "up"), "down") == "up"
    if echo:
        flow.echo = table.flag("echo")
        if flow.echo and flow.is_up:
            raise table.wrong("echo", "no echo of a flow with direction up")


def read_mbit(table: Table, flow: Flow) -> None:
    flow.every = mean_bits(flow.sizes) / table.number(flow.kind, 0.001, MOST_MBIT)
    if flow.kind == "mbit":
        flow.burst = table.whole("burst", 1, 65535, 1)
    read_direction(table, flow, echo=True)


def read_every(table: Table, flow: Flow) -> None:
    flow.every = 1000 * table.number("every_ms", 0.001, 3_600_000)
    flow.burst = table.whole("burst", 1, 65535, 1)
    read_direction(table, flow, echo=True)


def read_poisson(table: Table, flow: Flow) -> None:
    flow.every = 1e6 / table.number("poisson_per_s", 0.001, 1_000_000)
    read_direction(table, flow, echo=True)


def read_backlog(table: Table, flow: Flow) -> None:
    flow.backlog = table.whole("backlog", 1, 65535)
    flow.echo = table.flag("echo")


def read_ping(table: Table, flow: Flow) -> None:
    flow.every = 1000 * table.number("ping_ms", 0.001, 3_600_000)
    flow.echo = True


def read_delay(table: Table, flow: Flow, standard: float) -> None:
    flow.delay = round(1000 * table.number("delay_ms", 0, 10_000, standard))


def read_voip(table: Table, flow: Flow) -> None:
    if table.values["voip"] is not True:
        raise table.wrong("voip", "true, or no such key")
    flow.every = VOICE_EVERY
    read_delay(table, flow, 0)
    read_direction(table, flow)


def read_tcp(table: Table, flow: Flow) -> None:
    flow.congestion = table.one_of("tcp", ("cubic", "reno"), "cubic")
    flow.octets = table.whole("octets", 1, MOST_OCTETS) if table.has("octets") else None
    read_delay(table, flow, 20)
    read_direction(table, flow)


def read_web(table: Table, flow: Flow) -> None:
    value = table.values["web"]
    pair = PAGES.get(value, None) if isinstance(value, str) else value
    if not isinstance(pair, (list, tuple)) or len(pair) != 2 or not all(type(one) is int for one in pair):
        raise table.wrong("web", PAGE_EXPECTED)
    octets, requests = pair
    if not 1 <= requests <= octets <= MOST_OCTETS:
        raise table.wrong("web", PAGE_EXPECTED)
    flow.congestion = table.one_of("congestion", ("cubic", "reno"), "cubic")
    connections = min(table.whole("connections", 1, 64, 4), max(requests - 1, 1))
    flow.page = Page(octets, requests, connections, round(1000 * table.number("pause_ms", 0, 3_600_000, 1000)))
    read_delay(table, flow, 20)


KINDS: dict[str, Callable[[Table, Flow], None]] = {
    "flood_mbit": read_mbit,
    "mbit": read_mbit,
    "every_ms": read_every,
    "poisson_per_s": read_poisson,
    "backlog": read_backlog,
    "ping_ms": read_ping,
    "voip": read_voip,
    "tcp": read_tcp,
    "web": read_web,
}
