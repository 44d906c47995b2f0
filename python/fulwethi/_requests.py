"""A Request (SAE J1939-21): a single frame that asks a node, or all, for a PGN."""

from __future__ import annotations

from dataclasses import dataclass
from typing import Optional

from .values import Frame

REQUEST = 0xEA00
"""The PGN of a Request (SAE J1939-21)."""

REQUEST_PRIORITY = 6


@dataclass(frozen=True)
class Request:
    """Another node asks for a PGN, of this node or of all (255)."""

    source: int
    to: int
    pgn: int


def frame_of_request(request: Request) -> Frame:
    """The frame that asks. ValueError: what is asked for has more than 18 bits."""
    if request.pgn >= 1 << 18:
        raise ValueError(f"a PGN has 18 bits, and not {request.pgn:X}")
    return Frame(REQUEST_PRIORITY << 26 | REQUEST << 8 | request.to << 8 | request.source, request.pgn.to_bytes(3, "little"))


def request_of(frame: Frame) -> Optional[Request]:
    """What a Request asks for; None of another frame."""
    if frame.id >> 16 & 0x3FF != REQUEST >> 8 or not 3 <= len(frame.data) <= 8:
        return None
    return Request(frame.source, frame.id >> 8 & 0xFF, int.from_bytes(frame.data[:3], "little"))
