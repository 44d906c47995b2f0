"""One station for a program that owns the bus: frames and ticks go in, frames and events come out. No call waits, reads a clock or starts a thread."""

from __future__ import annotations

from ctypes import byref, c_uint64
from types import TracebackType
from typing import Any, Iterator, Optional, Type

from . import _inline, _raw
from ._held import Held
from ._inline import u8, u32, u64
from ._library import node_library
from .errors import DONE, BY_CODE, Nothing, NothingDue, NotEnded, PassedBy, Refused, WithoutRoom, refusal
from .values import AbortReason, Counts, Ended, Event, Fed, Frame, Given, Lane, Outcome


class Node:
    """A node at an address, 0 to 253, at tick 0, if no program sent a message from it in the last 1,250 ms. BadAddress, NoMemory: it isn't made.

    A program that starts again at its address says its tick, `again_at`: then the node is at this tick, answers others at once, and sends no message for 1,250
    ticks (`sends_from`).

    Each call may raise NoMemory too, but for `sends_from`, `send_refusal`, `lane`, `counts`, `next_due_at`, `next_at` and `take`. Any thread may make a call: a
    lock keeps two of them apart. After `close` each call raises Closed.
    """

    def __init__(self, address: int, *, again_at: Optional[int] = None) -> None:
        self.address = address
        self._library = node_library()
        self._held = Held(self._library, "the node", "fulwethi_raw_free")
        number, made = u8(address, "an address"), byref(self._held.unmade())
        if again_at is None:
            _done(self._library.fulwethi_raw_new(number, made))
        else:
            _done(self._library.fulwethi_raw_again(number, u64(again_at, "a tick"), made))

    def __enter__(self) -> Node:
        return self

    def __exit__(self, kind: Optional[Type[BaseException]], error: Optional[BaseException], trace: Optional[TracebackType]) -> None:
        self.close()

    def close(self) -> None:
        """Frees the node, and what wasn't taken. It may be called more than once."""
        self._held.close()

    # Ports

    def open(self, pgn: int, max_len: int) -> int:
        """Opens a port for messages of a PGN of at most `max_len` bytes, and answers its number. BadPgn, PortsFull."""
        port = c_uint64()
        with self._held as node:
            _done(self._library.fulwethi_raw_open(node, u32(pgn, "a PGN"), u32(max_len, "a length"), byref(port), byref(node)))
        return port.value

    def close_port(self, port: int) -> None:
        """Closes a port: nothing is given at it any more. NoSuchPort."""
        with self._held as node:
            _done(self._library.fulwethi_raw_close(node, u64(port, "a port"), byref(node)))

    def pause(self, port: int) -> None:
        """Pauses a port: connections that bring it a message are held. NoSuchPort, PortPaused."""
        with self._held as node:
            _done(self._library.fulwethi_raw_pause(node, u64(port, "a port"), byref(node)))

    def resume(self, port: int) -> None:
        """Ends the pause of a port. NoSuchPort, PortNotPaused."""
        with self._held as node:
            _done(self._library.fulwethi_raw_resume(node, u64(port, "a port"), byref(node)))

    # Messages

    def send(self, to: int, pgn: int, data: Any) -> int:
        """Sends a copy of a message of 9 to 1,785 bytes to all (255), or of up to 117,440,505 to one node, and answers its number, from 1 for each destination.

        Its frames come by `front`, its end by `take`. BadPgn, Starting (before the tick of `sends_from`), NoSuchStation, SameStation, TooShort, TooLong, LaneFull.
        """
        message, number = _inline.contents(data), c_uint64()
        with self._held as node:
            code = self._library.fulwethi_raw_send(node, u8(to, "an address"), u32(pgn, "a PGN"), message, len(message), byref(number), byref(node))
            _done(code)
        return number.value

    def sends_from(self) -> int:
        """The tick before which it sends no message: 0 without `again_at`."""
        tick = c_uint64()
        with self._held as node:
            _done(self._library.fulwethi_raw_sends_from(node, byref(tick), byref(node)))
        return tick.value

    def send_refusal(self, to: int, pgn: int, length: int) -> Optional[Type[Refused]]:
        """Why `send` of so many bytes would be refused, but for Starting, or None. It takes no memory."""
        with self._held as node:
            code = self._library.fulwethi_raw_send_refusal(node, u8(to, "an address"), u32(pgn, "a PGN"), u64(length, "a length"), byref(node))
        return None if code == DONE else BY_CODE[code]

    def cancel(self, to: int, number: int) -> None:
        """Cancels a message that has no outcome yet. NothingToSend (there is none), NoSuchStation, TxFull."""
        with self._held as node:
            _done(self._library.fulwethi_raw_cancel(node, u8(to, "an address"), u64(number, "a number"), byref(node)))

    def lane(self, to: int) -> Lane:
        """How the lane to a destination stands."""
        lane = _raw.RawLane()
        with self._held as node:
            _done(self._library.fulwethi_raw_lane(node, u8(to, "an address"), byref(lane), byref(node)))
        return Lane(lane.pending, bool(lane.in_doubt))

    def counts(self) -> Counts:
        """What was counted."""
        counts = _raw.RawCounts()
        with self._held as node:
            _done(self._library.fulwethi_raw_counts(node, byref(counts), byref(node)))
        return counts_of(counts)

    # The bus

    def feed(self, frame: Frame) -> Fed:
        """Takes a frame of another node from the bus, in the order of the bus.

        StationAddress (it has the own source), TxFull (put frames first), NoMemory, IdTooLarge, DataTooLong: the node doesn't have it. It is fed again before any
        other, or told by `missed`.
        """
        raw = _inline.raw_frame(frame.id, frame.data)
        with self._held as node:
            code = _inline.feed(self._library, node, raw)
        if code == WithoutRoom.code:
            return Fed.WITHOUT_ROOM
        if code == PassedBy.code:
            return Fed.PASSED_BY
        _done(code)
        return Fed.TAKEN

    def missed(self) -> bool:
        """Frames of the bus were lost: to be called before a later frame is fed. What is coming in ends, and connections under way end as OVERRUN.

        False: there was no memory for that. The node remembers it, and each `feed` and `sent` tries it first.
        """
        with self._held as node:
            code = self._library.fulwethi_raw_missed(node, byref(node))
        if code == NotEnded.code:
            return False
        _done(code)
        return True

    def front(self) -> Optional[Frame]:
        """The frame that is next for the bus, or None. It stays next until `sent`."""
        raw = _raw.RawFrame()
        with self._held as node:
            code = self._library.fulwethi_raw_front(node, byref(raw), byref(node))
        return frame_of(raw) if _is_there(code) else None

    def sent(self) -> None:
        """That frame was put. NothingToSend: there was none. NoMemory, only if `missed` answered False: to be called again, without putting the frame again."""
        with self._held as node:
            _done(self._library.fulwethi_raw_sent(node, byref(node)))

    # Time

    def clock(self, tick: int) -> None:
        """The clock goes on to a tick of 1 ms. ClockPassed: it stands later."""
        with self._held as node:
            _done(self._library.fulwethi_raw_clock(node, u64(tick, "a tick"), byref(node)))

    def fire(self) -> None:
        """Fires one timer that is due. NothingDue, TxFull (put frames first)."""
        with self._held as node:
            _done(self._library.fulwethi_raw_fire(node, byref(node)))

    def fire_all(self) -> bool:
        """Fires each timer that is due. False: one is left, for want of a place for its frame or of memory, to be fired later."""
        with self._held as node:
            code = DONE
            while code == DONE:
                code = self._library.fulwethi_raw_fire(node, byref(node))
        return code == NothingDue.code

    def next_due_at(self) -> Optional[int]:
        """The tick at which the next timer is due, or None."""
        tick = c_uint64()
        with self._held as node:
            code = self._library.fulwethi_raw_next_due_at(node, byref(tick), byref(node))
        return tick.value if _is_there(code) else None

    def next_at(self) -> Optional[int]:
        """The first tick, from that of its clock on, at which there is something to do: until then a program may sleep, unless a frame comes or it makes a call.

        None: there is no such tick.
        """
        tick = c_uint64()
        with self._held as node:
            code = self._library.fulwethi_raw_next_at(node, byref(tick), byref(node))
        return tick.value if _is_there(code) else None

    # What is told

    def take(self) -> Optional[Event]:
        """Takes what is told next, or None."""
        raw = _raw.RawEvent()
        with self._held as node:
            if not _is_there(self._library.fulwethi_raw_event(node, byref(raw), byref(node))):
                return None
            room = bytearray(raw.len)
            _done(_inline.take(self._library, node, room))
        source = int(getattr(raw, "from"))
        if raw.kind == _raw.GIVEN:
            return Given(source, raw.to, raw.pgn, bytes(room), raw.number)
        return Ended(raw.to, raw.number, Outcome(raw.outcome), AbortReason(raw.reason))

    def events(self) -> Iterator[Event]:
        """Takes all that is told, one after another."""
        while (event := self.take()) is not None:
            yield event


def _done(code: int) -> None:
    if code != DONE:
        raise refusal(code)


def _is_there(code: int) -> bool:
    """Whether a call found what it asked for."""
    if code != Nothing.code:
        _done(code)
    return code == DONE


def frame_of(raw: _raw.RawFrame) -> Frame:
    """A frame of the library."""
    return Frame(raw.id, bytes(raw.bytes[: raw.len]))


def counts_of(raw: _raw.RawCounts) -> Counts:
    """What the library counted."""
    return Counts(*(getattr(raw, name) for name, _ in raw._fields_))
