"""Reads a scenario from its TOML file. Every mistake is a Fault with the file, the table, the key and the expected value."""
from __future__ import annotations

import math
import tomllib
from dataclasses import replace
from pathlib import Path

from .fields import Fault, Table
from .flows import KINDS, read_flows
from .plots import PICTURES
from .rates import LONGEST_ALONE, SIFS, WIDE_BLOCK_ACK, Legacy, Rate, parse_rate
from .scenario import MACHINE, MODEL_SETTINGS, NUMBERED, Air, Bss, Scenario, Station
from .settings import settings

__all__ = ["KINDS", "LONGEST", "MOST_SEED", "from_table", "load", "read"]

LONGEST = 86_400  # seconds of a run
MOST_SEED = 2**63 - 1
MOST_STATIONS = 256
LONGEST_ANSWER = SIFS + WIDE_BLOCK_ACK  # microseconds after the data of an exchange
STANDARD_LOSS = 0.001
STANDARD_BUFFERED = 128  # group frames that may wait: as many as in mac80211
STANDARD_BEACON = 102_400  # microseconds between beacons, if group frames may wait
AGREEMENTS = ("join", "first-frame")  # when agreements begin
MOST_SERVED = 255  # frames of a service period
APSD_EXPECTED = 'some of vo, vi, be and bk, each once, such as "vo vi"'
RATE_EXPECTED = 'a rate as in a trace, such as "15 20 short", "vht 9 80 short 2", "he 11 80 800 2", "ofdm 54" or "dsss 2"'


def load(path: str | Path) -> dict[str, object]:
    """The outermost table of a file."""
    try:
        return tomllib.loads(Path(path).read_bytes().decode("utf-8-sig"))
    except OSError as error:
        raise Fault(f"{path}: {error.strerror}") from None
    except RecursionError:
        raise Fault(f"{path}: is not TOML that can be read: its values are nested too deeply") from None
    except ValueError as error:  # wrong TOML, octets that are not UTF-8, or a number with thousands of digits
        raise Fault(f"{path}: is not TOML that can be read: {str(error)[:200]}") from None


def read(path: str | Path) -> Scenario:
    """The scenario of a file."""
    return from_table(Table(str(path), "", load(path)), Path(path).name.removesuffix(".toml"))


def from_table(top: Table, name: str) -> Scenario:
    """The scenario of a file's outermost table."""
    seconds = top.number("seconds", 0.001, LONGEST)
    bsses = read_bsses(top)
    stations = read_stations(top, seconds, len(bsses))
    flows, multicast = read_flows(top, seconds, stations, len(bsses))
    scenario = Scenario(
        name=name,
        title=top.text("title", name),
        note=top.text("note", "", empty=True),
        seconds=seconds,
        warmup=top.number("warmup", 0, seconds, 0),
        seed=top.whole("seed", 0, MOST_SEED, 1),
        settings=read_settings(top.table("machine"), len(stations), len(bsses)),
        models=read_models(top.table("models")),
        air=read_air(top.table("air")),
        stations=stations,
        flows=flows,
        multicast=multicast,
        bsses=bsses,
        compare=top.texts("compare", [MACHINE]),
    )
    allow_rates(top, scenario)
    allow_multicast(top, scenario)
    if scenario.air.charge_access:
        allow_charges(top, scenario, "charge_access is true")
    elif any(station.is_measured for station in stations):
        allow_charges(top, scenario, "measured airtime has an error")
    elif any(station.offload for station in stations):
        allow_charges(top, scenario, "a station is offloaded")
    read_plot(top.table("plot"), scenario)
    top.finish()
    return scenario


def allow_rates(top: Table, scenario: Scenario) -> None:
    """Sets `legacy` so that each station may have its rates, or refuses a value that is too low for that."""
    least = max(station.legacy for station in scenario.stations)
    if least and scenario.settings.setdefault("legacy", least) < least:
        raise top.table("machine").wrong("legacy", f"at least {least}, since a station has a rate of {'OFDM' if least == 1 else 'DSSS'}")


def allow_multicast(top: Table, scenario: Scenario) -> None:
    """Lets group frames wait for a DTIM beacon if there is a flow to all stations, and beacons go out if group frames may wait."""
    if scenario.multicast and not scenario.settings.setdefault("buffered", STANDARD_BUFFERED):
        raise top.table("machine").wrong("buffered", "at least 1, since a flow is to all stations")
    if scenario.setting("buffered") and scenario.air.beacon is None:
        scenario.air.beacon = STANDARD_BEACON


def allow_charges(top: Table, scenario: Scenario, why: str) -> None:
    """Sets `charge` so that every exchange may be charged with its access, or refuses a value that is too low for that."""
    longest = max(scenario.setting("cap"), LONGEST_ALONE[scenario.setting("legacy")]) + LONGEST_ANSWER + scenario.air.longest_access
    if scenario.settings.setdefault("charge", settings()["charge"].greatest) < longest:
        expected = f"at least {longest}, the longest exchange with its access, since {why}"
        raise top.table("machine").wrong("charge", expected)


def read_plot(table: Table, scenario: Scenario) -> None:
    scenario.pictures = table.texts("pictures", ["airtime", "throughput", "delay"], list(PICTURES))
    names = [name for flow in scenario.flows for name in (flow.name, flow.label)]
    scenario.shown = table.texts("flows", [], list(dict.fromkeys(names)))
    table.finish()


def read_air(table: Table) -> Air:
    """The medium. A fixed time of access excludes the parts of a drawn one."""
    drawn = [key for key in ("difs", "slot", "cw") if table.has(key)]
    if drawn and table.has("access"):
        raise table.wrong("access", f"no fixed access next to {', '.join(drawn)}")
    air = Air(
        difs=table.whole("difs", 0, 10_000, 34),
        slot=table.whole("slot", 0, 1000, 9),
        cw=table.whole("cw", 0, 1023, 15),
        access=table.whole("access", 0, 10_000) if table.has("access") else None,
        charge_access=table.flag("charge_access"),
        charge_uplink=table.flag("charge_uplink", True),
        inflight=table.whole("inflight", settings()["inflight"].least, settings()["inflight"].greatest, 2),
        beacon=round(1000 * table.number("beacon_ms", 1, 60_000)) if table.has("beacon_ms") else None,
    )
    table.finish()
    return air


def read_settings(table: Table, stations: int, bsses: int) -> dict[str, int]:
    """The machine's settings; `stations` is the number of stations if the file does not give it."""
    for name, place in (("inflight", "it in [air]"), ("bsses", "a table [[bss]] for each")):
        if table.has(name):
            raise table.wrong(name, f"no such key here: write {place}")
    bounds = {name: (one.least, one.greatest) for name, one in settings().items()}
    values = {name: table.whole(name, *limits) for name, limits in bounds.items() if table.has(name)}
    if bsses > 1:
        values["bsses"] = bsses
    if values.setdefault("stations", max(stations, 1)) < stations:
        raise table.wrong("stations", f"at least {stations}, the stations of this file")
    table.finish()
    return values


def read_models(table: Table) -> dict[str, int]:
    values = {name: table.whole(name, low, high) for name, (low, high, _) in MODEL_SETTINGS.items() if table.has(name)}
    table.finish()
    return values


def read_bsses(top: Table) -> list[Bss]:
    """The BSSs; one if the file has no table of them."""
    bsses = []
    for number, table in enumerate(top.tables("bss")):
        bsses.append(Bss(table.text("name", f"bss {number}"), round(1000 * table.number("offset_ms", 0, 60_000, 0))))
        table.finish()
    if len(bsses) > settings()["bsses"].greatest:
        raise top.fault(f"the file has {len(bsses)} BSSs: expected at most {settings()['bsses'].greatest}")
    return bsses or [Bss("bss 0")]


def read_stations(top: Table, seconds: float, bsses: int) -> list[Station]:
    """All stations; the copies of a table with `count` are named `NAME 1`, `NAME 2` and so on."""
    stations: list[Station] = []
    names: set[str] = set()
    for table in top.tables("station", needed=True):
        group = table.text("name", f"station {len(stations)}")
        count = table.whole("count", 1, MOST_STATIONS, 1)
        first = read_station(table, group, seconds, bsses)
        members = [group] if count == 1 else [f"{group} {copy + 1}" for copy in range(count)]
        for name in dict.fromkeys([group, *members]):
            if name in names:
                raise table.fault(f"the name {name!r} is taken by a station above: expected another name")
            names.add(name)
        stations += [replace(first, number=len(stations) + nth, name=name) for nth, name in enumerate(members)]
    if not 1 <= len(stations) <= MOST_STATIONS:
        raise top.fault(f"the file has {len(stations)} stations: expected 1 to {MOST_STATIONS}")
    return stations


def read_station(table: Table, group: str, seconds: float, bsses: int) -> Station:
    """The station of a table, or the first of its copies."""
    join = table.number("join", 0, seconds, 0)
    leave = table.number("leave", join, seconds) if table.has("leave") else math.inf
    last = min(seconds, leave)
    station = Station(
        number=0,
        name=group,
        group=group,
        rate=read_rate(table, "rate", "0 20 long"),
        weight=table.whole("weight", 1, 16, 1),
        window=table.whole("window", 1, 256, 64),
        loss=table.number("loss", 0, 1, STANDARD_LOSS),
        ack_loss=table.number("ack_loss", 0, 1, 0),
        join=micros(join),
        leave=micros_or_never(leave),
        rates=read_rates(table, join, last),
        sleeps=read_sleeps(table, join, last),
        poll=round(1000 * table.number("poll_ms", 1, 60_000)) if table.has("poll_ms") else 0,
        charge_bias=table.number("charge_bias", -0.99, 10, 0),
        charge_error=table.number("charge_error", 0, 1, 0),
        offload=table.flag("offload"),
        plain=table.one_of("agreements", AGREEMENTS, AGREEMENTS[0]) == AGREEMENTS[1],
        apsd=read_apsd(table),
        most=table.whole("max", 0, MOST_SERVED, 0),
        bss=table.whole("bss", 0, bsses - 1, 0),
    )
    if table.has("max") and not station.apsd:
        raise table.wrong("max", "no max without apsd, since the station then has no service periods")
    if station.offload and table.has("window"):
        raise table.wrong("window", "no window, since the device of an offloaded station has its own")
    if station.offload and table.has("agreements"):
        raise table.wrong("agreements", "no agreements, since the device of an offloaded station makes its own")
    table.finish()
    return single(table, station) if station.legacy else station


def single(table: Table, station: Station) -> Station:
    """A station at rates of OFDM or DSSS: each of its frames goes alone, so the window of its models is 1."""
    if not all(isinstance(rate, Legacy) for rate in [station.rate, *(rate for _, rate in station.rates)]):
        raise table.fault("some rates are of OFDM or DSSS: expected all or none, since a change of the rate ends no agreement")
    for key in ("window", "agreements"):
        if table.has(key):
            raise table.wrong(key, f"no {key}, since a station at a rate of OFDM or DSSS has no agreements")
    return replace(station, window=1)


def read_rates(table: Table, first: float, last: float) -> list[tuple[int, Rate]]:
    """The changes of a station's rate."""
    changes = []
    for change in table.tables("rates"):
        changes.append((micros(change.number("at", first, last)), read_rate(change, "rate")))
        change.finish()
    return changes


def read_apsd(table: Table) -> tuple[str, ...]:
    """The delivery-enabled classes of a station; none if the file does not give them."""
    if not table.has("apsd"):
        return ()
    classes = table.text("apsd").split()
    if len(set(classes)) < len(classes) or not set(classes) <= set(NUMBERED):
        raise table.wrong("apsd", APSD_EXPECTED)
    return tuple(classes)


def read_sleeps(table: Table, first: float, last: float) -> list[tuple[int, int]]:
    """The times in which a station sleeps, in order."""
    sleeps = []
    for sleep in table.tables("sleeps"):
        start = sleep.number("from", first, last)
        sleeps.append((micros(start), micros(sleep.number("to", start, last))))
        sleep.finish()
    if any(later[0] < earlier[1] for earlier, later in zip(sleeps, sleeps[1:])):
        raise table.fault("sleeps overlap: expected each `from` at or after the `to` before it")
    return sleeps


def read_rate(table: Table, key: str, default: str | None = None) -> Rate:
    rate = parse_rate(table.text(key, default))
    if rate is None:
        raise table.wrong(key, RATE_EXPECTED)
    return rate


def micros(seconds: float) -> int:
    """Whole microseconds."""
    return round(seconds * 1_000_000)


def micros_or_never(seconds: float) -> float:
    """Whole microseconds; infinity remains."""
    return seconds if seconds == math.inf else micros(seconds)
