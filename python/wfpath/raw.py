"""The calls of a cell without objects, for benches that make millions of them.

    from wfpath import Settings, raw

    cell = raw.RawCell(Settings(stations=1, calls=1000))
    join = raw.Call(raw.CallKind.JOIN)
    join.struct.station, join.struct.window, join.struct.weight = 0, 64, 1
    code = cell.ask(cell.at, 0, join.at, cell.reply_at)
    cell.close()

`ask`, `enqueue`, `reap`, `read_frames` and `read_released` are the library's functions with the arguments of
include/wf.h. They check no argument: give them only `at` values, the `..._at` values of `byref`, None, and
numbers that fit the types of C. Each of the first three returns the library's code, 0 for success, and writes
its answer into `reply`, which all calls share. `wfpath.Cell` is slower and checks all arguments.
"""
from __future__ import annotations

import ctypes
from functools import cache
from typing import Any

from ._base import BadLibrary, WfError
from ._library import LIBRARY, Library, load_from, make_error, settings_struct
from ._library import error as error_of
from ._tables import (
    GREATEST_BODY,
    RANGES,
    AccessClass,
    CallKind,
    CallStruct,
    CellStruct,
    Fate,
    Form,
    FramesStruct,
    PacketStruct,
    PassedUpStruct,
    ReplyStruct,
    Settings,
    TakenStruct,
)
from .errors import NoMemory

__all__ = [
    "AccessClass",
    "BadLibrary",
    "Call",
    "CallKind",
    "Fate",
    "Form",
    "GREATEST_BODY",
    "NoMemory",
    "PacketStruct",
    "RANGES",
    "RawCell",
    "Settings",
    "WfError",
    "library",
]


@cache
def library(path: str) -> Library:
    """Returns the library of a file, which is loaded once. Raises BadLibrary if it cannot be loaded, or if its
    version is not the package's."""
    return LIBRARY if path == LIBRARY.path else load_from([path])


class Call:
    """A call whose struct is made once: only the fields that differ are written each time."""

    __slots__ = ("struct", "at")

    def __init__(self, kind: CallKind) -> None:
        self.struct = CallStruct(kind=kind)
        self.at = ctypes.byref(self.struct)


class RawCell:
    """A cell whose calls return the library's code and write into structs that they share.

    Raises NoMemory if there is no memory for it, and BadSetting if a setting is out of its range.
    """

    def __init__(self, settings: Settings, path: str | None = None) -> None:
        found = LIBRARY if path is None else library(path)
        quick: Any = found.quick
        self.ask, self.enqueue, self.reap = quick.wf_cell_ask, quick.wf_cell_enqueue, quick.wf_cell_reap
        self.read_frames, self.read_released = quick.wf_cell_frames, quick.wf_cell_released
        self._free = quick.wf_cell_free
        self.reply, self.taken = ReplyStruct(), TakenStruct()
        self.frames, self.passed_up = FramesStruct(), PassedUpStruct()
        self.reply_at, self.taken_at = ctypes.byref(self.reply), ctypes.byref(self.taken)
        self.frames_at, self.passed_up_at = ctypes.byref(self.frames), ctypes.byref(self.passed_up)
        self._struct = CellStruct()
        self.at = ctypes.byref(self._struct)
        code = found.functions.wf_cell_make(self.at, ctypes.byref(settings_struct(settings)))
        if code:
            raise make_error(code)

    def error(self, code: int) -> WfError:
        """Returns the exception of the last call's code."""
        return error_of(code, self.reply)

    def close(self) -> None:
        """Frees all that the cell holds. A second call does nothing; no other call may follow."""
        if self._struct.at:
            self._free(self.at)
            self._struct.at = None

    def __del__(self) -> None:
        if hasattr(self, "_struct"):
            self.close()
