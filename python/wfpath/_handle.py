"""The part that a path and a cell share: the handle, the structs that their calls reuse, and how a code
becomes an exception."""
from __future__ import annotations

import ctypes
import struct
from collections.abc import Sequence
from dataclasses import replace
from typing import TYPE_CHECKING, Any, NoReturn, TypeVar, Union

from . import _tables as tables
from ._base import WfError
from ._library import LIBRARY, error, make_error, out_of_range, settings_struct
from .answers import FATES, Accepted, Beacon, Burst, Exchange, GroupSend, Reaped
from .errors import ERRORS
from .raw import Call

Body = Union[bytes, int]
Self = TypeVar("Self", bound="Handle")

C: Any = LIBRARY.functions
QUICK: Any = LIBRARY.quick
NO_ROOM = ctypes.c_size_t(0)
BODY_ROOM = ctypes.c_size_t(tables.GREATEST_BODY)
# Refusals of a pull after which the driver waits.
WAITS = tuple(one.code for one in ERRORS.values() if one.word in ("idle", "full", "ahead"))
ZEROS = bytes(tables.GREATEST_BODY)
NO_SOURCE = bytes(6)
# The fields of a packet after its body.
PACKET = struct.Struct("@" + tables.PacketStruct.LAYOUT[2:])
PACKET_AT = tables.PacketStruct.length.offset  # type: ignore[attr-defined]
BARE = struct.Struct(tables.BareStruct.LAYOUT)
TAKEN = struct.Struct(tables.TakenStruct.LAYOUT)


def view(array: Any, letter: str) -> memoryview:
    """Returns a view of the numbers of an array."""
    return memoryview(array).cast("B").cast(letter)


class Handle:
    """A handle of the library. `close` frees what it holds; afterwards every call raises ValueError."""

    settings: tables.Settings
    _at: Any

    def __init__(
        self, settings: tables.Settings | None, fields: dict[str, int], name: str, handle: Any
    ) -> None:
        base = tables.Settings() if settings is None else settings
        self.settings = replace(base, **fields)
        self._name = name
        self._free = getattr(C, f"wf_{name}_free")
        self._struct = handle
        self._reply = tables.ReplyStruct()
        self._frames = tables.FramesStruct()
        self._packet = tables.PacketStruct()
        self._bare = tables.BareStruct()
        self._taken = tables.TakenStruct()
        self._reply_at = ctypes.byref(self._reply)
        self._frames_at = ctypes.byref(self._frames)
        self._packet_at = ctypes.byref(self._packet)
        self._bare_at = ctypes.byref(self._bare)
        self._taken_at = ctypes.byref(self._taken)
        self._ids = view(self._frames.ids, "Q")
        self._numbers = view(self._frames.numbers, "H")
        self._octets = ctypes.create_string_buffer(tables.GREATEST_MPDU)
        self._octets_view = memoryview(self._octets).cast("B")
        at = ctypes.byref(handle)
        code = getattr(C, f"wf_{name}_make")(at, ctypes.byref(settings_struct(self.settings)))
        if code:
            raise make_error(code)
        self._at = at

    def close(self) -> None:
        """Frees all that the handle holds. A second call does nothing."""
        at = self.__dict__.pop("_at", None)
        if at is not None:
            self._free(at)

    def __del__(self) -> None:
        self.close()

    def __enter__(self: Self) -> Self:
        return self

    def __exit__(self, *_: object) -> None:
        self.close()

    def __reduce__(self) -> NoReturn:
        raise TypeError(f"a {self._name} cannot be copied or pickled")

    if not TYPE_CHECKING:

        def __getattr__(self, name: str) -> NoReturn:
            """Python calls this for an attribute that is missing: `_at` is missing after `close`."""
            if name == "_at":
                raise ValueError(f"the {self._name} is closed")
            raise AttributeError(f"'{type(self).__name__}' object has no attribute '{name}'")

    def _error(self, code: int) -> WfError:
        """Returns the exception of a call's code."""
        return error(code, self._reply)

    def _fill_packet(self, body: Body, tid: int, flow: int, tag: int, source: bytes) -> None:
        """Writes the packet of an enqueue. A body that is a number has this number of zeros."""
        if isinstance(body, int):
            length = body
            self._packet.body = ZEROS
        else:
            length = len(body)
            self._packet.body = bytes(body)
        if source is not NO_SOURCE and len(source) != 6:
            raise ValueError(f"source = {source!r}: expected 6 octets")
        try:
            PACKET.pack_into(self._packet, PACKET_AT, length, tag, flow, source, tid)
        except struct.error:
            raise out_of_range(length=(length, 64), tag=(tag, 64), flow=(flow, 32), tid=(tid, 8)) from None

    def _fill_bare(self, length: int, tid: int, flow: int, tag: int, source: bytes) -> None:
        """Writes the packet of an enqueue without octets."""
        if source is not NO_SOURCE and len(source) != 6:
            raise ValueError(f"source = {source!r}: expected 6 octets")
        try:
            BARE.pack_into(self._bare, 0, tag, flow, length, source, tid)
        except struct.error:
            raise out_of_range(tag=(tag, 64), flow=(flow, 32), length=(length, 16), tid=(tid, 8)) from None

    def _made(self, function: Any, who: tuple[int, ...], calls: Sequence[Call]) -> Burst:
        """Makes the calls of a burst."""
        count = len(calls)
        given = (tables.CallStruct * count)(*(call.struct for call in calls))
        replies = (tables.ReplyStruct * count)()
        made = ctypes.c_size_t()
        code = function(self._at, *who, given, count, replies, count, ctypes.byref(made))
        return Burst(list(replies[: made.value]), error(code) if code else None)

    def _accepted(self) -> Accepted:
        """Returns the answer to an enqueue."""
        reply = self._reply
        return Accepted(reply.id, reply.dropped if reply.has_dropped else None)

    def _exchange(self) -> Exchange:
        """Returns the answer to a pull."""
        reply, count = self._reply, self._frames.count
        ids, numbers = self._ids[:count].tolist(), self._numbers[:count].tolist()
        number, station, tid, air = reply.exchange, reply.station, reply.tid, reply.air
        request, more = reply.request != 0, reply.more != 0
        batch, plain, eosp = reply.batch != 0, reply.plain != 0, reply.eosp != 0
        return Exchange(number, station, tid, air, request, reply.start, more, ids, numbers, batch, plain, eosp)

    def _beacon(self) -> Beacon:
        """Returns the answer to a beacon."""
        return Beacon(self._reply.count, self._reply.more != 0)

    def _group_send(self) -> GroupSend:
        """Returns the answer to a pull of a group frame."""
        reply = self._reply
        return GroupSend(reply.id, reply.start, reply.air, reply.more != 0)

    def _reaped(self, has_body: bool) -> Reaped:
        """Returns the answer to a reap."""
        found = TAKEN.unpack_from(self._taken)
        number, stamp, tag, flow, station, length, source, tid, fate, attempts, bare = found
        body = bytes(self._octets_view[:length]) if has_body and not bare else None
        return Reaped(number, stamp, tag, flow, station, length, source, tid, FATES[fate], attempts, body)


def check_bss(bss: int) -> None:
    """Checks that the number of a BSS fits the C type."""
    if bss >> 8:
        raise out_of_range(bss=(bss, 8))


def address_octets(address: bytes) -> bytes:
    """Returns an address, which has to have six octets."""
    if len(address) != 6:
        raise ValueError(f"address = {address!r}: expected 6 octets")
    return bytes(address)
