"""Between a node and a bus of python-can: the order of frames, and what was lost. It has no thread and no clock of its own.

What the node is told comes in the order of the bus. On a bus that shows own frames, one frame is outstanding at a time: it has its place where it is shown, and what
comes before it is fed before it is told to be sent. On another bus it is told so once the bus has taken it. A loss that is told while a frame is outstanding leaves
that frame's place open: nothing more is fed until it is shown.
"""

from __future__ import annotations

import enum
import logging
from collections import deque
from typing import Deque, Optional, Union

import can

from .errors import Closed, NoMemory, StationAddress, TxFull
from .node import Node
from .values import Frame

log = logging.getLogger("fulwethi.can")

ECHO_WAIT = 200
"""So many ticks an own frame is waited for after a loss was told."""

ECHO_LOST = 1000
"""After so many ticks a frame that isn't shown, or that the bus doesn't take, counts as put and lost."""

RETRY = 10
"""After so many ticks what found no memory, or no place in the bus's queue, is tried again."""

PUT_SECONDS = 0.1
"""So long the bus may take to take a frame."""

REMEMBERED = 256
"""How many frames that were put are known as own ones, if they are shown late."""


class BusGone(Closed):
    """The bus went away: reading it or writing to it ended with an error, which is the cause of this one."""


class Tell(enum.Enum):
    """What the node is told beside frames."""

    SENT = enum.auto()
    MISSED = enum.auto()


class Wire:
    """Feeds the node in the order of the bus, and puts its frames. All calls are made by one thread; `now` is the node's tick."""

    def __init__(self, node: Node, bus: can.BusABC, shows_own: bool) -> None:
        self._node = node
        self._bus = bus
        self._shows_own = shows_own
        self._waiting: Deque[Union[Frame, Tell]] = deque()
        self._outstanding: Optional[Frame] = None
        self._put_at = 0
        self._lost_at: Optional[int] = None
        self._blocked_at: Optional[int] = None
        self._is_blocked = self._is_stalled = False
        self._put: Deque[Frame] = deque(maxlen=REMEMBERED)
        self._given_up: Deque[Frame] = deque(maxlen=REMEMBERED)
        self._has_warned = False

    # What comes from the bus

    def heard(self, frame: Frame, is_received: bool) -> None:
        """A frame was shown; `is_received` unless this machine put it."""
        if frame.source == self._node.address:
            self._heard_own(frame, is_received)
        elif self._lost_at is None:
            self._waiting.append(frame)
            self._tell()

    def _heard_own(self, frame: Frame, is_received: bool) -> None:
        if frame == self._outstanding:
            self._end_outstanding(*([Tell.MISSED] if self._lost_at is not None else []), Tell.SENT)
        elif frame in self._given_up:
            # It counted as lost, so what came since isn't in order.
            self._given_up.remove(frame)
            self._waiting.append(Tell.MISSED)
            self._tell()
        elif frame in self._put:
            self._put.remove(frame)
        elif is_received and not self._has_warned:
            self._has_warned = True
            log.warning("another node has the address %02X: %s", self._node.address, frame)

    def lost(self, now: int) -> None:
        """Frames were lost: that is told now, or once the place of the outstanding frame is known."""
        if self._outstanding is None:
            self._waiting.append(Tell.MISSED)
            self._tell()
        elif self._lost_at is None:
            self._lost_at = now

    def _end_outstanding(self, *tells: Tell) -> None:
        self._outstanding = self._lost_at = None
        self._waiting.extend(tells)
        self._tell()

    # What the node is told

    def _tell(self) -> None:
        """Tells what waits, in its order, as far as there is memory and room."""
        while self._waiting:
            try:
                self._tell_one(self._waiting[0])
            except NoMemory:
                return
            except TxFull:
                if self._outstanding is None and Tell.SENT not in self._waiting:
                    return
                # It came before an own frame that was put, and can't be fed before that one is told: it counts as missed.
                self._waiting[0] = Tell.MISSED
                continue
            self._waiting.popleft()

    def _tell_one(self, what: Union[Frame, Tell]) -> None:
        if what is Tell.SENT:
            self._node.sent()
        elif what is Tell.MISSED:
            self._node.missed()
        elif isinstance(what, Frame):
            try:
                self._node.feed(what)
            except StationAddress:
                pass

    # What goes to the bus

    def put_single(self, frame: Frame) -> None:
        """Puts a frame that isn't the node's, as a Request. can.CanError: the bus didn't take it."""
        self._bus.send(message_of(frame), timeout=PUT_SECONDS)
        self._put.append(frame)

    def turn(self, now: int) -> None:
        """Fires what is due, and puts what the bus takes."""
        self._give_up(now)
        self._tell()
        self._is_blocked = False
        self._is_stalled = not self._node.fire_all()
        while self._may_put() and self._put_next(now):
            self._tell()

    def _may_put(self) -> bool:
        return self._outstanding is None and Tell.SENT not in self._waiting

    def _put_next(self, now: int) -> bool:
        try:
            frame = self._node.front()
        except NoMemory:
            self._is_stalled = True
            return False
        if frame is None:
            return False
        try:
            self._bus.send(message_of(frame), timeout=PUT_SECONDS)
        except can.CanError as error:
            return self._refused(frame, now, error)
        except Exception as error:
            raise BusGone(f"the bus went away: {error}") from error
        self._blocked_at = None
        if self._shows_own:
            self._outstanding, self._put_at = frame, now
        else:
            self._put.append(frame)
            self._told_sent()
        return True

    def _told_sent(self) -> None:
        """A frame whose place isn't known was put: it is told so before what waits."""
        try:
            self._node.sent()
        except NoMemory:
            self._waiting.appendleft(Tell.SENT)

    def _refused(self, frame: Frame, now: int, error: can.CanError) -> bool:
        """The bus didn't take a frame. It is tried again, and after a second it counts as put and lost, as each further one until the bus takes one."""
        if self._blocked_at is None:
            self._blocked_at = now
            log.warning("not put yet: %s", error)
        if now - self._blocked_at < ECHO_LOST:
            self._is_blocked = True
            return False
        self._given_up.append(frame)
        self._end_outstanding(Tell.MISSED, Tell.SENT, Tell.MISSED)
        return True

    def _give_up(self, now: int) -> None:
        """An own frame that isn't shown in time counts as put, wherever among those that were lost."""
        if self._outstanding is None:
            return
        if self._lost_at is None and now - self._put_at >= ECHO_LOST:
            self._lost_at = now
        if self._lost_at is not None and now - self._lost_at >= ECHO_WAIT:
            self._given_up.append(self._outstanding)
            self._end_outstanding(Tell.MISSED, Tell.SENT, Tell.MISSED)

    # When to go on

    def next_at(self, now: int) -> Optional[int]:
        """The tick at which there is something to do without a frame, or None. While a frame can't be put, the node's next one has to wait too."""
        has_failed = bool(self._waiting) or self._is_blocked or self._is_stalled
        ticks = [now + RETRY] if has_failed else []
        if self._outstanding is not None:
            ticks.append(self._lost_at + ECHO_WAIT if self._lost_at is not None else self._put_at + ECHO_LOST)
        due = self._node.next_due_at() if has_failed or self._outstanding is not None else self._node.next_at()
        if due is not None and not self._is_stalled:
            ticks.append(due)
        return min(ticks, default=None)


def message_of(frame: Frame) -> can.Message:
    """A frame as python-can has it."""
    return can.Message(arbitration_id=frame.id, is_extended_id=True, data=frame.data)


def frame_of(message: can.Message) -> Optional[Frame]:
    """A frame of 29 bits with data; None of another one: of 11 bits, a remote frame, one of CAN FD."""
    if not message.is_extended_id or message.is_remote_frame or message.is_error_frame or message.is_fd:
        return None
    return Frame(message.arbitration_id, bytes(message.data[:8]))


def flush(node: Node, bus: can.BusABC) -> None:
    """Puts what the node has queued, as far as the bus takes it at once, without waiting to see it."""
    try:
        while (frame := node.front()) is not None:
            bus.send(message_of(frame), timeout=PUT_SECONDS)
            node.sent()
    except Exception as error:
        log.debug("the last frames weren't put: %s", error)
