"""The settings of a machine: TRACE.md, Settings."""
from dataclasses import dataclass, field, fields


def setting(standard: int, least: int, most: int) -> int:
    """Returns the field of a setting with this standard value and this range."""
    values: int = field(default=standard, metadata={"range": range(least, most + 1)})
    return values


@dataclass(frozen=True)
class Settings:
    """The settings, each with its standard value and its range."""

    # begin settings: tools/tables writes these lines
    stations: int = setting(16, 1, 256)
    flows: int = setting(1024, 1, 4096)
    limit: int = setting(8192, 1, 65_535)
    room: int = setting(65_536, 1, 131_072)
    flow_quantum: int = setting(300, 64, 65_535)
    quantum: int = setting(300, 100, 10_000)
    inflight: int = setting(2, 1, 8)
    attempts: int = setting(10, 1, 64)
    agg: int = setting(32, 1, 256)
    cap: int = setting(4000, 3000, 5400)
    sleeping: int = setting(64, 1, 65_535)
    calls: int = setting(1_048_576, 1, 2**32 - 1)
    charge: int = setting(0, 0, 65_535)
    debt: int = setting(1_000_000, 0, 1_000_000)
    aql_total: int = setting(0, 0, 262_144)
    keep_order: int = setting(0, 0, 1)
    codel_reset: int = setting(0, 0, 1)
    aql: int = setting(0, 0, 262_144)
    pending: int = setting(0, 0, 1)
    overhead: int = setting(0, 0, 32)
    cap_vi: int = setting(0, 0, 5400)
    cap_vo: int = setting(0, 0, 5400)
    answers: int = setting(0, 0, 1)
    credits: int = setting(0, 0, 1)
    legacy: int = setting(0, 0, 2)
    period: int = setting(0, 0, 255)
    buffered: int = setting(0, 0, 65_535)
    bsses: int = setting(0, 0, 16)
    # end settings


RANGES: dict[str, range] = {one.name: one.metadata["range"] for one in fields(Settings)}
