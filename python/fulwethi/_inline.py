"""The functions that fulwethi.h and fulwethi_service.h have as text (static inline), each as it stands there.

A handle goes in by value, and comes back by the last pointer. Of a frame of more than 8 bytes none is read, and a pointer isn't null if its length is 0. What
ctypes would cut to the size of its C type is refused here before by a ValueError, as no number of C is that large.
"""

from __future__ import annotations

import operator
from ctypes import CDLL, byref, c_uint8
from typing import Any

from ._raw import Handle, RawFrame
from .errors import DataTooLong, IdTooLarge


def u8(number: int, what: str) -> int:
    """A number of 8 bits, as an address."""
    return _within(number, what, 0xFF)


def u32(number: int, what: str) -> int:
    """A number of 32 bits, as a PGN or a length of a port."""
    return _within(number, what, 0xFFFF_FFFF)


def u64(number: int, what: str) -> int:
    """A number of 64 bits, as a port, a tick or the number of a message."""
    return _within(number, what, 0xFFFF_FFFF_FFFF_FFFF)


def _within(number: int, what: str, most: int) -> int:
    try:
        number = operator.index(number)
    except TypeError:
        raise TypeError(f"{what} is a whole number, and not {number!r}") from None
    if not 0 <= number <= most:
        raise ValueError(f"{what} is 0 to {most}, and not {number}")
    return number


def contents(data: Any) -> bytes:
    """The bytes of a message, of whatever has bytes. A number or a text has none."""
    return data if isinstance(data, bytes) else bytes(memoryview(data))


def raw_frame(frame_id: int, data: bytes) -> RawFrame:
    """A frame for a feed. Its length is that of the data, of which the first 8 bytes are copied."""
    raw = RawFrame(u32(frame_id, "an identifier"), len(data))
    raw.bytes[: min(len(data), 8)] = data[:8]
    return raw


def frame_refusal(raw: RawFrame) -> int:
    """What a feed answers of a frame of more than 8 bytes, none of which is read; 0 of another one."""
    if raw.len > 8:
        return IdTooLarge.code if raw.id >> 29 else DataTooLong.code
    return 0


def feed(library: CDLL, node: Handle, raw: RawFrame) -> int:
    """fulwethi_feed"""
    return frame_refusal(raw) or int(library.fulwethi_raw_feed(node, raw.id, raw.bytes, raw.len, byref(node)))


def service_feed(library: CDLL, service: Handle, raw: RawFrame) -> int:
    """fulwethi_service_feed"""
    return frame_refusal(raw) or int(library.fulwethi_raw_service_feed(service, raw.id, raw.bytes, raw.len, byref(service)))


def take(library: CDLL, node: Handle, room: bytearray) -> int:
    """fulwethi_take. Of an empty room the place of a byte is passed."""
    return int(library.fulwethi_raw_take(node, _first(room), len(room), byref(node)))


def receive(library: CDLL, inbox: Handle, room: bytearray, message: Any) -> int:
    """fulwethi_inbox_receive"""
    return int(library.fulwethi_raw_inbox_receive(inbox, _first(room), len(room), byref(message), byref(inbox)))


def _first(room: bytearray) -> Any:
    """The place of the first byte of a room, which keeps the room while it is used."""
    return byref(c_uint8.from_buffer(room)) if room else byref(c_uint8())


def free(library: CDLL, name: str, handle: Handle) -> None:
    """fulwethi_free, fulwethi_service_free and so on: a handle of zeros is left alone, and it is of zeros then."""
    if handle.ptr:
        getattr(library, name)(handle)
    handle.ptr = None
