"""The C interface: the structs and the exports of fulwethi.h and fulwethi_service.h, for ctypes."""

from __future__ import annotations

from ctypes import POINTER, Structure, c_char_p, c_size_t, c_uint8, c_uint32, c_uint64, c_void_p
from typing import Any, Dict, Optional, Tuple


class Handle(Structure):
    """struct fulwethi, fulwethi_service, fulwethi_client or fulwethi_inbox: all zeros, or made."""

    _fields_ = [("ptr", c_void_p)]


class RawFrame(Structure):
    """struct fulwethi_frame"""

    _fields_ = [("id", c_uint32), ("len", c_uint32), ("bytes", c_uint8 * 8)]


class RawEvent(Structure):
    """struct fulwethi_event"""

    _fields_ = [
        ("kind", c_uint32),
        ("from", c_uint32),
        ("to", c_uint32),
        ("pgn", c_uint32),
        ("number", c_uint64),
        ("len", c_uint64),
        ("outcome", c_uint32),
        ("reason", c_uint32),
    ]


class RawCounts(Structure):
    """struct fulwethi_counts"""

    _fields_ = [
        ("frames", c_uint64),
        ("malformed", c_uint64),
        ("given", c_uint64),
        ("acknowledged", c_uint64),
        ("broadcast", c_uint64),
        ("aborted", c_uint64),
        ("timed_out", c_uint64),
        ("overrun", c_uint64),
        ("cancelled", c_uint64),
        ("unreachable", c_uint64),
    ]


class RawLane(Structure):
    """struct fulwethi_lane"""

    _fields_ = [("pending", c_uint64), ("in_doubt", c_uint32)]


class RawNote(Structure):
    """struct fulwethi_note"""

    _fields_ = [
        ("ticket", c_uint64),
        ("number", c_uint64),
        ("to", c_uint32),
        ("outcome", c_uint32),
        ("reason", c_uint32),
        ("unused", c_uint32),
    ]


class RawMessage(Structure):
    """struct fulwethi_message"""

    _fields_ = [("from", c_uint32), ("to", c_uint32), ("pgn", c_uint32), ("unused", c_uint32), ("len", c_uint64)]


class RawNews(Structure):
    """struct fulwethi_news"""

    _fields_ = [("number", c_uint64), ("kind", c_uint32), ("station", c_uint32)]


CLIENT_NEWS, PORT_NEWS = 1, 2
"""The kinds of news."""

GIVEN, OUTCOME = 1, 2
"""The kinds of an event."""

_out = POINTER(Handle)
_room = POINTER(c_uint8)
_number = POINTER(c_uint64)
_frame = POINTER(RawFrame)
_counts = POINTER(RawCounts)

NODE: Dict[str, Tuple[Any, ...]] = {
    "fulwethi_raw_new": (c_uint8, _out),
    "fulwethi_raw_again": (c_uint8, c_uint64, _out),
    "fulwethi_raw_free": (Handle,),
    "fulwethi_raw_open": (Handle, c_uint32, c_uint32, _number, _out),
    "fulwethi_raw_close": (Handle, c_uint64, _out),
    "fulwethi_raw_pause": (Handle, c_uint64, _out),
    "fulwethi_raw_resume": (Handle, c_uint64, _out),
    "fulwethi_raw_send": (Handle, c_uint8, c_uint32, c_char_p, c_size_t, _number, _out),
    "fulwethi_raw_cancel": (Handle, c_uint8, c_uint64, _out),
    "fulwethi_raw_feed": (Handle, c_uint32, _room, c_size_t, _out),
    "fulwethi_raw_missed": (Handle, _out),
    "fulwethi_raw_front": (Handle, _frame, _out),
    "fulwethi_raw_sent": (Handle, _out),
    "fulwethi_raw_clock": (Handle, c_uint64, _out),
    "fulwethi_raw_fire": (Handle, _out),
    "fulwethi_raw_next_due_at": (Handle, _number, _out),
    "fulwethi_raw_next_at": (Handle, _number, _out),
    "fulwethi_raw_sends_from": (Handle, _number, _out),
    "fulwethi_raw_send_refusal": (Handle, c_uint8, c_uint32, c_size_t, _out),
    "fulwethi_raw_lane": (Handle, c_uint8, POINTER(RawLane), _out),
    "fulwethi_raw_counts": (Handle, _counts, _out),
    "fulwethi_raw_event": (Handle, POINTER(RawEvent), _out),
    "fulwethi_raw_take": (Handle, _room, c_size_t, _out),
    "fulwethi_version": (),
}
"""What each export of libfulwethi takes. Each answers a code, or for `fulwethi_version` a number; but a `free` answers nothing."""

SERVICE: Dict[str, Tuple[Any, ...]] = {
    "fulwethi_raw_service_new": (c_char_p, c_size_t, _out),
    "fulwethi_raw_service_free": (Handle,),
    "fulwethi_raw_service_attach": (Handle, c_uint8, _out, _out),
    "fulwethi_raw_service_open": (Handle, c_uint8, c_uint32, c_uint32, _number, _out, _out),
    "fulwethi_raw_service_open_with": (Handle, c_uint8, c_uint32, c_uint32, c_uint32, _number, _out, _out),
    "fulwethi_raw_service_close": (Handle, Handle, _out, _out),
    "fulwethi_raw_service_close_port": (Handle, c_uint8, c_uint64, _out),
    "fulwethi_raw_service_detach": (Handle, c_uint64, _out),
    "fulwethi_raw_service_pause": (Handle, c_uint8, c_uint64, _out),
    "fulwethi_raw_service_resume": (Handle, c_uint8, c_uint64, _out),
    "fulwethi_raw_service_feed": (Handle, c_uint32, _room, c_size_t, _out),
    "fulwethi_raw_service_missed": (Handle, c_uint8, _out),
    "fulwethi_raw_service_front": (Handle, POINTER(c_uint8), _frame, _out),
    "fulwethi_raw_service_sent": (Handle, c_uint8, _out),
    "fulwethi_raw_service_clock": (Handle, c_uint64, _out),
    "fulwethi_raw_service_next_due_at": (Handle, _number, _out),
    "fulwethi_raw_service_next_at": (Handle, _number, _out),
    "fulwethi_raw_service_turn": (Handle, c_uint32, _number, _out),
    "fulwethi_raw_service_news": (Handle, POINTER(RawNews), _out),
    "fulwethi_raw_service_turned_away": (Handle, _number, _out),
    "fulwethi_raw_service_counts": (Handle, _counts, _out),
    "fulwethi_raw_service_compare_client": (Handle, Handle, _out, _out),
    "fulwethi_raw_service_compare_inbox": (Handle, Handle, _out, _out),
    "fulwethi_raw_client_submit": (Handle, c_uint8, c_uint32, c_char_p, c_size_t, _number, _out),
    "fulwethi_raw_client_number": (Handle, _number, _out),
    "fulwethi_raw_client_outcome": (Handle, POINTER(RawNote), _out),
    "fulwethi_raw_client_free": (Handle,),
    "fulwethi_raw_inbox_receive": (Handle, _room, c_size_t, POINTER(RawMessage), _out),
    "fulwethi_raw_inbox_free": (Handle,),
}
"""The same of libfulwethi_service."""


def answer_of(name: str) -> Optional[Any]:
    """What an export answers, for ctypes."""
    return None if name.endswith("_free") else c_uint32
