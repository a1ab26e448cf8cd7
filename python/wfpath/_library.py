"""Finds and loads the shared library, and turns its codes into exceptions.

The library is the one that the variable WFPATH_LIBRARY names; else the one in the package's own folder, which
`pip install .` puts there; else, in a checkout, the one that `./wf lib` built last; else the system's
libwf.so.1.
"""
from __future__ import annotations

import ctypes
import os
from collections.abc import Sequence
from pathlib import Path
from typing import Any

from . import _tables as tables
from ._base import BadLibrary, BadSetting, Refused, WfError
from .errors import ERRORS

VARIABLE = "WFPATH_LIBRARY"
NAMES = ("libwf.so", "libwf.unproved.so")
SYSTEM = f"libwf.so.{tables.VERSION[0]}"
HOW = "build one with './wf lib' or './wf lib --unproved', or set WFPATH_LIBRARY to its path"


def newest(folder: Path) -> Path | None:
    """Returns the library of a folder that was built last."""
    found = [folder / name for name in NAMES if (folder / name).is_file()]
    return max(found, key=lambda path: path.stat().st_mtime) if found else None


def places() -> list[str]:
    """Returns the libraries to try, in order."""
    named = os.environ.get(VARIABLE)
    if named:
        return [named]
    here = Path(__file__).resolve().parent
    found = [newest(folder) for folder in (here, here.parents[1] / "crates" / "wf_c" / "out" / "shared")]
    return [*(str(path) for path in found if path), SYSTEM]


def opened(path: str) -> ctypes.PyDLL | None:
    """Opens a library; returns None if there is no such file.

    A call holds Python's global lock: calls take microseconds, so releasing the lock would cost more than it
    gives.
    """
    try:
        return ctypes.PyDLL(path)
    except OSError as fault:
        if path == SYSTEM or not os.path.exists(path):
            return None
        raise BadLibrary(f"{path} cannot be loaded: {fault}") from None


def check_version(library: ctypes.PyDLL, path: str) -> None:
    """Refuses a library of another major version, and one that is older than this package."""
    version = tables.VersionPartsStruct()
    library.wf_version.restype = None
    library.wf_version(ctypes.byref(version))
    found = (version.major, version.minor)
    if found[0] != tables.VERSION[0] or found < tables.VERSION[:2]:
        major, minor = tables.VERSION[:2]
        wanted = f"expected {major}.{minor} or a newer one of {major}"
        raise BadLibrary(f"{path} has version {found[0]}.{found[1]}: {wanted}; {HOW}")


def prepared(library: ctypes.PyDLL, path: str) -> ctypes.PyDLL:
    """Gives each function the types of the header."""
    try:
        check_version(library, path)
        for name, (result, arguments) in tables.FUNCTIONS.items():
            function = getattr(library, name)
            function.restype = result
            function.argtypes = arguments
    except AttributeError as fault:
        raise BadLibrary(f"{path} is not this package's library: {fault}; {HOW}") from None
    return library


def unchecked(path: str) -> ctypes.PyDLL:
    """Opens the library again, for calls without checks and conversions of arguments, which take half of
    a call's time.

    Its functions may only be given `byref` objects, instances of ctypes, None, and numbers below 2^31 for
    arguments of at most 32 bits.
    """
    library = ctypes.PyDLL(path)
    for name, (result, _) in tables.FUNCTIONS.items():
        getattr(library, name).restype = result
    return library


def load_from(tried: Sequence[str]) -> Library:
    """Loads the first library that there is of these."""
    for path in tried:
        found = opened(path)
        if found is not None:
            return Library(prepared(found, path), unchecked(path), path)
    raise BadLibrary(f"there is no library libwf: looked for {', '.join(tried)}; {HOW}")


class Library:
    """The loaded library: its functions, with arguments that are checked and with others, and its file."""

    def __init__(self, functions: Any, quick: Any, path: str) -> None:
        self.functions = functions
        self.quick = quick
        self.path = path

    @property
    def proved(self) -> bool | None:
        """Whether the file's name says that it is proved; None for the system's library and for a named
        one."""
        name = os.path.basename(self.path)
        return (name == NAMES[0]) if name in NAMES and os.environ.get(VARIABLE) is None else None


def error(code: int, reply: tables.ReplyStruct | None = None) -> WfError:
    """Returns the exception of a code. The number of a refusal is in the reply."""
    kind = ERRORS.get(code)
    if kind is None:
        found = WfError(f"code {code}")
        found.code, found.word = code, "?"
        found.about = f"the library returned code {code}, which this package does not know"
        return found
    if issubclass(kind, Refused) and kind.field and reply is not None:
        return kind(getattr(reply, kind.field))
    return kind()


def setting_error(place: int) -> BadSetting:
    """Returns the exception of a setting that is out of its range, by its place."""
    names = list(tables.RANGES)
    name = names[place - 1] if place <= len(names) else f"reserved number {place - len(names)}"
    least, most = tables.RANGES.get(name, (0, 0))
    return BadSetting(place, name, least, most)


def make_error(code: int) -> WfError:
    """Returns the exception of a code of wf_path_make or wf_cell_make."""
    return setting_error(code - tables.BAD_SETTING) if code > tables.BAD_SETTING else error(code)


def settings_struct(settings: tables.Settings) -> tables.SettingsStruct:
    """Returns the struct of settings."""
    struct = tables.SettingsStruct()
    for place, name in enumerate(tables.RANGES, 1):
        value = int(getattr(settings, name))
        if not 0 <= value < 2**32:
            raise setting_error(place)
        setattr(struct, name, value)
    return struct


def out_of_range(**given: tuple[int, int]) -> ValueError:
    """Returns the exception for arguments that do not fit the C types: each with its value and its bits."""
    for name, (value, bits) in given.items():
        if value >> bits:
            return ValueError(f"{name} = {value}: expected 0 to {(1 << bits) - 1}")
    return ValueError("an argument is out of its range")


LIBRARY = load_from(places())
