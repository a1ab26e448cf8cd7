"""The transmit path of a Wi-Fi access point, in Python: a thin layer over the library libwf.

    from wfpath import AccessClass, Path, Rate

    with Path(stations=2) as path:
        path.join(0)
        path.set_rate(0, Rate.ht(7, short_guard=True))
        path.enqueue(0, b"a packet")
        exchange = path.pull(AccessClass.BE)

`Path` is a transmit path, for drivers and simulators. `Cell` also has the receive halves of the stations and
the history of all calls. `wfpath.errors` has the exceptions. docs/PYTHON.md describes the package, and
docs/MACHINE.md each call.
"""
from __future__ import annotations

from . import errors, trace
from ._library import LIBRARY
from ._tables import (
    GREATEST_BODY,
    GREATEST_MPDU,
    RANGES,
    VERSION,
    AccessClass,
    CallKind,
    Fate,
    Form,
    Outcome,
    Settings,
)
from .answers import (
    Accepted,
    Beacon,
    Block,
    Burst,
    Ceased,
    Codel,
    Done,
    Exchange,
    Group,
    GroupCounts,
    GroupSend,
    Reaped,
    Sent,
    Share,
    Tally,
)
from .cell import Cell
from .errors import BlockError, Refused, WfError
from .path import Path
from .rates import Rate

__version__ = ".".join(map(str, VERSION))
library_path = LIBRARY.path
library_is_proved = LIBRARY.proved

__all__ = [
    "Accepted",
    "AccessClass",
    "Beacon",
    "Block",
    "BlockError",
    "Burst",
    "CallKind",
    "Ceased",
    "Cell",
    "Codel",
    "Done",
    "Exchange",
    "Fate",
    "Form",
    "GREATEST_BODY",
    "GREATEST_MPDU",
    "Group",
    "GroupCounts",
    "GroupSend",
    "Outcome",
    "Path",
    "RANGES",
    "Rate",
    "Reaped",
    "Refused",
    "Sent",
    "Settings",
    "Share",
    "Tally",
    "WfError",
    "errors",
    "library_is_proved",
    "library_path",
    "trace",
]
