"""What goes into the C library and comes out of it, as values. Addresses, PGNs and lengths are whole numbers; a tick is 1 ms."""

from __future__ import annotations

import enum
from dataclasses import dataclass, field
from typing import Union

ALL = 255
"""The address of all nodes."""

LONGEST_TO_ALL = 1785
"""The most bytes of a message to all, and of one of TP."""

LONGEST = 117_440_505
"""The most bytes of a message to one node."""


class Outcome(enum.IntEnum):
    """How a message that was sent has ended. All but ACKNOWLEDGED and UNREACHABLE leave open whether it was given."""

    ACKNOWLEDGED = 1
    """It was given to a port of its destination."""
    BROADCAST = 2
    """Its last packet was queued; who received it isn't known."""
    ABORTED = 3
    """Either side aborted it, for a reason."""
    TIMED_OUT = 4
    """It got no answer in time."""
    OVERRUN = 5
    """Frames were missed while it was under way."""
    CANCELLED = 6
    """It was cancelled."""
    UNREACHABLE = 7
    """It hadn't begun, and its destination answered none of three Requests: it wasn't given."""


class AbortReason(enum.IntEnum):
    """Why a connection was aborted (SAE J1939-21, connection abort reasons). A number that has no name here is `REASON_n`."""

    NONE = 0
    """There was no abort."""
    NO_FURTHER_SESSION = 1
    RESOURCES = 2
    TIMEOUT = 3
    CTS_DURING_TRANSFER = 4
    RETRANSMIT_LIMIT = 5
    UNEXPECTED_PACKET = 6
    BAD_SEQUENCE_NUMBER = 7
    DUPLICATE_SEQUENCE_NUMBER = 8
    SIZE_TOO_LARGE = 9
    OTHER = 250

    @classmethod
    def _missing_(cls, value: object) -> AbortReason:
        if not isinstance(value, int) or not 0 <= value <= 0xFF:
            raise ValueError(f"{value!r} is no reason of an abort")
        reason = int.__new__(cls, value)
        reason._name_ = f"REASON_{value}"
        reason._value_ = value
        return reason


@dataclass(frozen=True)
class Frame:
    """A frame of the bus: an identifier of 29 bits, and 0 to 8 bytes."""

    id: int
    data: bytes = b""

    @property
    def source(self) -> int:
        """The address that the frame comes from."""
        return self.id & 0xFF

    def __str__(self) -> str:
        return f"{self.id:08X}#{self.data.hex().upper()}"


@dataclass(frozen=True)
class Message:
    """A message that came: from one node to this one, or to all."""

    source: int
    to: int
    pgn: int
    data: bytes = field(repr=False)

    def __str__(self) -> str:
        return f"{self.source:02X} {self.to:02X} {self.pgn:05X} {len(self.data)} bytes"


@dataclass(frozen=True)
class Given(Message):
    """A message that was given at a port of a node."""

    port: int


@dataclass(frozen=True)
class Ended:
    """How message `number` to a destination has ended. `reason` is NONE unless it was aborted."""

    to: int
    number: int
    outcome: Outcome
    reason: AbortReason = AbortReason.NONE

    def __str__(self) -> str:
        return self.outcome.name + (f" ({self.reason.name})" if self.reason else "")


Event = Union[Given, Ended]
"""What a node tells."""


@dataclass(frozen=True)
class Note:
    """What became of a message that a client submitted: its ticket, and its number among all that its station sent to `to`."""

    ticket: int
    number: int
    to: int
    outcome: Outcome
    reason: AbortReason = AbortReason.NONE


@dataclass(frozen=True)
class Counts:
    """What was counted: frames put or fed, malformed ones among them, messages that were given, and messages by their outcome."""

    frames: int
    malformed: int
    given: int
    acknowledged: int
    broadcast: int
    aborted: int
    timed_out: int
    overrun: int
    cancelled: int
    unreachable: int


@dataclass(frozen=True)
class Lane:
    """The messages to one destination: how many have no outcome, and whether it is in doubt after one that failed."""

    pending: int
    in_doubt: bool


class Fed(enum.Enum):
    """What became of a frame that was fed."""

    TAKEN = enum.auto()
    """The node has it."""
    WITHOUT_ROOM = enum.auto()
    """The node looked at it, and there was no memory for what it brings."""
    PASSED_BY = enum.auto()
    """There was no memory to end what was under way when frames were missed. It counts as missed too, and isn't fed again."""
